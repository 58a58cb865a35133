//! Racks, hardpoints and the checks per pair at their corners.

use super::Make;
use crate::case::Case;
use crate::names::*;
use crate::sketch::*;
use crate::tally::size::AMOUNTS;

pub const CASES: &[Make] = &[
    || {
        let mut sketch = Sketch::hull();
        for rack in 0..6u8 {
            let type_id = 10 + i32::from(rack);
            sketch = sketch
                .known(type_id, 1, CATEGORY_MODULE)
                .mark(type_id, u32::from(rack) + 1)
                .name(RACKS + usize::from(rack))
                .item(type_id, rack, 0);
        }
        sketch
            .mark(10, 7)
            .mark(11, 8)
            .name(HARDPOINTS)
            .name(HARDPOINTS + 1)
            .list("one item in each rack, turret and launcher, no slots")
    },
    || racks(2, 1.9),
    || racks(2, 2.0),
    || racks(2, 1.0),
    || racks(1, 0.5),
    || racks(1, 0.0),
    || racks(1, -1.0),
    || racks(1, f64::NAN),
    || racks(1, f64::INFINITY),
    || racks(1, 4_294_967_296.0),
    || racks(3, f64::NEG_INFINITY),
    || racks(256, AMOUNTS[0]),
    || racks(256, AMOUNTS[1]),
    || racks(256, AMOUNTS[2]),
    || racks(256, AMOUNTS[3]),
    || racks(256, AMOUNTS[4]),
    || racks(256, AMOUNTS[5]),
    || racks(256, AMOUNTS[6]),
    || racks(256, AMOUNTS[7]),
    || {
        Sketch::hull()
            .known(5, 1, CATEGORY_MODULE)
            .item(5, HIGH, 0)
            .list("a high slot item, no id for hiSlots")
    },
    || {
        Sketch::hull()
            .known(5, 1, CATEGORY_MODULE)
            .name(RACKS)
            .item(5, HIGH, 0)
            .quantity(7)
            .unpaired(5, HIGH, 1)
            .list("a rack counts pairs")
    },
    || {
        Sketch::hull()
            .known(5, 1, CATEGORY_CHARGE)
            .mark(5, 7)
            .name(HARDPOINTS)
            .item(5, CARGO, 0)
            .list("a turret in cargo takes no hardpoint")
    },
    || {
        Sketch::hull()
            .known(5, 1, CATEGORY_MODULE)
            .mark(5, 1)
            .mark(5, 2)
            .item(5, HIGH, 0)
            .item(5, MEDIUM, 0)
            .list("two rack marks, the last wins")
    },
    || {
        Sketch::hull()
            .known(5, 1, CATEGORY_MODULE)
            .mark(5, 2)
            .mark(5, 1)
            .mark(5, 1)
            .item(5, HIGH, 0)
            .item(5, MEDIUM, 0)
            .list("two rack marks the other way, the last twice")
    },
    || {
        Sketch::hull()
            .known(5, 1, CATEGORY_MODULE)
            .mark(5, 7)
            .mark(5, 8)
            .name(HARDPOINTS)
            .name(HARDPOINTS + 1)
            .item(5, HIGH, 0)
            .list("two hardpoint marks, the last wins")
    },
    || {
        Sketch::hull()
            .known(5, 1, CATEGORY_MODULE)
            .mark(5, 2)
            .mark(5, 7)
            .mark(5, 0)
            .item(5, HIGH, 0)
            .list("a rack mark before a hardpoint mark")
    },
    || {
        Sketch::hull()
            .known(5, 1, CATEGORY_MODULE)
            .link(5, 77)
            .mark(5, 2)
            .item(5, HIGH, 0)
            .list("an effect that the catalogue lacks, then a mark")
    },
    || {
        Sketch::hull()
            .mark(5, 2)
            .item(5, HIGH, 0)
            .list("marks of a type that the catalogue lacks")
    },
    || wrong_slots(HIGH),
    || wrong_slots(MEDIUM),
    || wrong_slots(LOW),
    || wrong_slots(RIG),
    || wrong_slots(SUBSYSTEM),
    || wrong_slots(SERVICE),
    || wrong_slots(FIGHTER_TUBE),
    || wrong_slots(IMPLANT),
    || wrong_slots(CARGO),
    || every_category(HIGH),
    || every_category(SERVICE),
    || every_category(FIGHTER_TUBE),
    || every_category(IMPLANT),
    || every_category(BOOSTER),
    || every_category(FIGHTER_BAY),
    || every_category(DRONE_BAY),
    || every_category(CARGO),
    || shared(HIGH, 1, 1),
    || shared(HIGH, 1, 2),
    || shared(FIGHTER_TUBE, 0, 0),
    || shared(IMPLANT, 255, 255),
    || shared(BOOSTER, 65_535, 65_535),
    || shared(BOOSTER, 256, 0),
    || shared(DRONE_BAY, 0, 0),
    || shared(FIGHTER_BAY, 0, 0),
    || shared(CARGO, 0, 0),
    || {
        Sketch::hull()
            .known(5, 1, CATEGORY_MODULE)
            .item(5, HIGH, 0)
            .item(5, MEDIUM, 0)
            .item(5, HIGH, 0)
            .item(5, HIGH, 1)
            .item(5, HIGH, 0)
            .list("three items in one slot, others between")
    },
    || {
        Sketch::hull()
            .known(5, 1, CATEGORY_MODULE)
            .item(5, HIGH, 0)
            .unpaired(5, HIGH, 0)
            .list("a slot shared with an item without a result")
    },
    || numbered(IMPLANT, 7, IMPLANTNESS, 7.9),
    || numbered(IMPLANT, 7, IMPLANTNESS, 8.0),
    || numbered(IMPLANT, 255, IMPLANTNESS, 511.0),
    || numbered(IMPLANT, 0, IMPLANTNESS, f64::NAN),
    || numbered(IMPLANT, 0, IMPLANTNESS, -3.0),
    || numbered(IMPLANT, 3, IMPLANTNESS, f64::NEG_INFINITY),
    || numbered(BOOSTER, 300, BOOSTERNESS, 300.0),
    || numbered(BOOSTER, 300, BOOSTERNESS, 44.0),
    || numbered(BOOSTER, 65_535, BOOSTERNESS, 65_536.0),
    || numbered(BOOSTER, 65_535, BOOSTERNESS, 65_534.9),
    || numbered(BOOSTER, 1, BOOSTERNESS, f64::INFINITY),
    || numbered(BOOSTER, 1, IMPLANTNESS, 9.0),
    || numbered(IMPLANT, 1, BOOSTERNESS, 9.0),
    || numbered(HIGH, 1, IMPLANTNESS, 9.0),
    || {
        Sketch::hull()
            .known(5, 1, CATEGORY_IMPLANT)
            .name(IMPLANTNESS)
            .name(BOOSTERNESS)
            .item(5, IMPLANT, 4)
            .item(5, BOOSTER, 4)
            .list("implant and booster without the attribute")
    },
    || {
        numbered_sketch(IMPLANT, 7, IMPLANTNESS, 8.0)
            .nameless(IMPLANTNESS)
            .list("a wrong index, no id for implantness")
    },
    || parts(125.0, 125.0),
    || parts(125.0, 125.5),
    || parts(0.0, -0.0),
    || parts(f64::INFINITY, f64::INFINITY),
    || {
        parts_sketch(125.0, 125.0)
            .nameless(SUBSYSTEM_SLOT)
            .list("one part twice, no id for subSystemSlot")
    },
    || {
        Sketch::hull()
            .known(5, 1, CATEGORY_SUBSYSTEM)
            .item(5, SUBSYSTEM, 0)
            .with(SUBSYSTEM_SLOT, 125.0)
            .item(5, CARGO, 0)
            .with(SUBSYSTEM_SLOT, 125.0)
            .list("the same part in cargo")
    },
    || {
        Sketch::hull()
            .known(5, 1, CATEGORY_SUBSYSTEM)
            .item(5, SUBSYSTEM, 0)
            .with(SUBSYSTEM_SLOT, 0.0)
            .item(5, SUBSYSTEM, 1)
            .list("a part and a subsystem without one")
    },
    || {
        Sketch::hull()
            .known(5, 1, CATEGORY_CHARGE)
            .mark(5, 2)
            .item(5, SUBSYSTEM, 0)
            .with(SUBSYSTEM_SLOT, 1.0)
            .item(5, SUBSYSTEM, 0)
            .with(SUBSYSTEM_SLOT, 1.0)
            .list("four checks on each of two pairs")
    },
];

fn racks(items: u16, slots: f64) -> Case {
    let mut sketch = Sketch::hull()
        .known(5, 1, CATEGORY_MODULE)
        .ship(RACKS, slots);
    for index in 0..items {
        sketch = sketch.item(5, HIGH, index);
    }
    sketch.list("high slots")
}

/// One item of each rack mark, all in one kind of slot.
fn wrong_slots(kind: u8) -> Case {
    let mut sketch = Sketch::hull();
    for mark in 1..=6 {
        let type_id = 10 + mark as i32;
        sketch = sketch
            .known(type_id, 1, CATEGORY_MODULE)
            .mark(type_id, mark)
            .item(type_id, kind, if kind == CARGO { 0 } else { mark as u16 });
    }
    sketch.list("an item of each rack in one kind of slot")
}

fn every_category(kind: u8) -> Case {
    let mut sketch = Sketch::hull();
    let categories = [0, 7, 8, 16, 18, 20, 32, 65, 66, 87, -7];
    for (number, category) in categories.into_iter().enumerate() {
        let type_id = 10 + number as i32;
        let index = match kind {
            FIGHTER_BAY | DRONE_BAY | CARGO => 0,
            _ => number as u16,
        };
        sketch = sketch
            .known(type_id, 1, category)
            .item(type_id, kind, index);
    }
    sketch.list("an item of each category in one kind of slot")
}

fn shared(kind: u8, first: u16, second: u16) -> Case {
    Sketch::hull()
        .known(5, 1, CATEGORY_MODULE)
        .item(5, kind, first)
        .item(5, kind, second)
        .list("two items in slots of one kind")
}

fn numbered_sketch(kind: u8, index: u16, name: usize, value: f64) -> Sketch {
    Sketch::hull()
        .known(5, 1, CATEGORY_IMPLANT)
        .name(IMPLANTNESS)
        .name(BOOSTERNESS)
        .item(5, kind, index)
        .with(name, value)
}

fn numbered(kind: u8, index: u16, name: usize, value: f64) -> Case {
    numbered_sketch(kind, index, name, value).list("an implant or booster in a numbered slot")
}

fn parts_sketch(first: f64, second: f64) -> Sketch {
    Sketch::hull()
        .known(5, 1, CATEGORY_SUBSYSTEM)
        .item(5, SUBSYSTEM, 0)
        .with(SUBSYSTEM_SLOT, first)
        .item(5, SUBSYSTEM, 1)
        .with(SUBSYSTEM_SLOT, second)
}

fn parts(first: f64, second: f64) -> Case {
    parts_sketch(first, second).list("two subsystem parts")
}
