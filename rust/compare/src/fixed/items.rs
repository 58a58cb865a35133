//! Rig sizes, ship restrictions, capital and standup items, group and type
//! limits at their corners.

use super::Make;
use crate::case::Case;
use crate::names::*;
use crate::sketch::*;
use crate::tally::size::AMOUNTS;

const STRUCTURE: i32 = 700;

pub const CASES: &[Make] = &[
    || rigs(2.0, 3.0, RIG),
    || rigs(2.0, 2.0, RIG),
    || rigs(f64::NAN, f64::NAN, RIG),
    || rigs(0.0, -0.0, RIG),
    || rigs(1.5, 1.0, RIG),
    || rigs(300.0, 400.0, RIG),
    || rigs(2.0, 3.0, HIGH),
    || {
        Sketch::hull()
            .known(5, 1, CATEGORY_MODULE)
            .item(5, RIG, 0)
            .with(RIG_SIZE, 2.0)
            .list("a rig on a ship without rig size")
    },
    || {
        Sketch::hull()
            .known(5, 1, CATEGORY_MODULE)
            .ship(RIG_SIZE, 2.0)
            .item(5, RIG, 0)
            .list("a rig without size")
    },
    || {
        let sketch = Sketch::hull()
            .known(5, 1, CATEGORY_MODULE)
            .ship(RIG_SIZE, 2.0)
            .item(5, RIG, 0)
            .with(RIG_SIZE, 3.0);
        sketch.nameless(RIG_SIZE).list("rig sizes without an id")
    },
    || restricted(&[(SHIP_TYPES, f64::from(SHIP))], HIGH),
    || restricted(&[(SHIP_TYPES, 588.0)], HIGH),
    || restricted(&[(SHIP_TYPES, 588.0), (SHIP_TYPES + 12, 587.0)], HIGH),
    || restricted(&[(SHIP_TYPES + 12, 588.0)], HIGH),
    || restricted(&[(SHIP_TYPES, 587.9)], HIGH),
    || restricted(&[(SHIP_TYPES, 586.9)], HIGH),
    || restricted(&[(SHIP_GROUPS, 25.0)], HIGH),
    || restricted(&[(SHIP_GROUPS, 26.0)], HIGH),
    || restricted(&[(SHIP_GROUPS + 19, 26.0)], HIGH),
    || restricted(&[(SHIP_GROUPS, 26.0), (SHIP_GROUPS + 19, 25.0)], HIGH),
    || restricted(&[(SHIP_TYPES, 588.0), (SHIP_GROUPS, 25.0)], HIGH),
    || restricted(&[(SHIP_TYPES, 587.0), (SHIP_GROUPS, 26.0)], HIGH),
    || restricted(&[(SHIP_TYPES, 25.0), (SHIP_GROUPS, 587.0)], HIGH),
    || restricted(&[(SHIP_TYPES, 588.0)], DRONE_BAY),
    || restricted(&[(SHIP_TYPES, 588.0)], FIGHTER_TUBE),
    || restricted(&[(SHIP_TYPES, f64::NAN)], HIGH),
    || {
        restricted_sketch(&[(SHIP_TYPES, 588.0)], HIGH)
            .nameless(SHIP_TYPES)
            .list("a restriction whose name has no id")
    },
    || {
        restricted_sketch(&[(SHIP_TYPES, 588.0), (SHIP_GROUPS, 25.0)], HIGH)
            .nameless(SHIP_GROUPS)
            .list("a permission whose name has no id")
    },
    || restricted_to(i32::MAX, 2_147_483_648.0),
    || restricted_to(i32::MAX, 2_147_483_646.9),
    || restricted_to(i32::MIN, -2_147_483_649.0),
    || restricted_to(i32::MIN, f64::NEG_INFINITY),
    || restricted_to(0, f64::NAN),
    || restricted_to(-2, -2.7),
    || restricted_to(-3, -2.7),
    || restricted_to(0, -0.9),
    || capital(3500.0_f64.next_up(), HIGH, None),
    || capital(3500.0_f64.next_down(), HIGH, None),
    || capital(f64::INFINITY, SERVICE, None),
    || capital(f64::NAN, HIGH, None),
    || capital(4000.0, RIG, None),
    || capital(4000.0, DRONE_BAY, None),
    || capital(4000.0, HIGH, Some(1.0)),
    || capital(4000.0, HIGH, Some(0.0)),
    || capital(4000.0, HIGH, Some(-0.0)),
    || capital(4000.0, HIGH, Some(f64::NAN)),
    || capital(4000.0, HIGH, Some(-1.0)),
    || {
        Sketch::hull()
            .known(5, 1, CATEGORY_MODULE)
            .item(5, HIGH, 0)
            .with(VOLUME, 4000.0)
            .list("a capital volume, no id for isCapitalSize")
    },
    || {
        structure()
            .known(5, 1, CATEGORY_STRUCTURE_MODULE)
            .name(IS_CAPITAL_SIZE)
            .item(5, HIGH, 0)
            .with(VOLUME, 4000.0)
            .list("a capital volume on a structure")
    },
    || standup(Sketch::hull(), CATEGORY_MODULE, None),
    || standup(Sketch::hull(), CATEGORY_STRUCTURE_MODULE, None),
    || standup(Sketch::hull(), CATEGORY_FIGHTER, Some((0, 1.0))),
    || standup(Sketch::hull(), CATEGORY_FIGHTER, Some((1, -1.0))),
    || standup(Sketch::hull(), CATEGORY_FIGHTER, Some((2, 1.0))),
    || standup(Sketch::hull(), CATEGORY_FIGHTER, Some((2, f64::NAN))),
    || standup(Sketch::hull(), CATEGORY_FIGHTER, Some((0, -0.0))),
    || standup(structure(), CATEGORY_MODULE, None),
    || standup(structure(), CATEGORY_STRUCTURE_MODULE, None),
    || standup(structure(), CATEGORY_FIGHTER, None),
    || standup(structure(), CATEGORY_FIGHTER, Some((1, 1.0))),
    || standup(structure(), CATEGORY_FIGHTER, Some((2, f64::from_bits(1)))),
    || {
        Sketch::hull()
            .known(5, 1, CATEGORY_STRUCTURE_MODULE)
            .item(5, HIGH, 0)
            .list("a structure module, no standup name has an id")
    },
    || groups(&[OFFLINE, OFFLINE], 1.0),
    || groups(&[ONLINE, OFFLINE], 0.0),
    || groups(&[ACTIVE, ONLINE, OFFLINE], 0.0),
    || groups(&[OVERLOAD, ACTIVE, ONLINE, OFFLINE], 1.9),
    || groups(&[ACTIVE, ACTIVE], 1.5),
    || groups(&[ACTIVE, ACTIVE], f64::NAN),
    || groups(&[ACTIVE, ACTIVE], -7.0),
    || groups(&[ACTIVE, ACTIVE], f64::INFINITY),
    || {
        Sketch::hull()
            .known(5, 8, CATEGORY_MODULE)
            .known(6, 8, CATEGORY_MODULE)
            .name(GROUP_LIMITS)
            .item(5, HIGH, 0)
            .item(6, LOW, 0)
            .with(GROUP_LIMITS, 1.0)
            .item(6, CARGO, 0)
            .with(GROUP_LIMITS, 1.0)
            .list("a group of two types, one with a limit")
    },
    || {
        Sketch::hull()
            .known(5, 8, CATEGORY_MODULE)
            .item(5, HIGH, 0)
            .with(GROUP_LIMITS, 1.0)
            .item(5, CARGO, 0)
            .list("one of a group fitted, one in cargo")
    },
    || {
        Sketch::hull()
            .item(5, HIGH, 0)
            .with(GROUP_LIMITS, 1.0)
            .item(6, HIGH, 1)
            .with(GROUP_LIMITS, 3.0)
            .list("two types that the catalogue lacks are group 0")
    },
    || types(2, 1.0, HIGH),
    || types(2, 2.0, HIGH),
    || types(2, 1.9, HIGH),
    || types(2, -1.0, HIGH),
    || types(2, f64::NAN, HIGH),
    || types(2, 0.0, CARGO),
    || crowd(AMOUNTS[0]),
    || crowd(AMOUNTS[1]),
    || crowd(AMOUNTS[2]),
    || crowd(AMOUNTS[3]),
    || crowd(AMOUNTS[4]),
    || crowd(AMOUNTS[5]),
    || crowd(AMOUNTS[6]),
    || crowd(AMOUNTS[7]),
    || {
        Sketch::hull()
            .known(-5, 8, CATEGORY_MODULE)
            .item(-5, HIGH, 0)
            .quantity(9)
            .with(MAX_TYPE_FITTED, 1.0)
            .item(-5, CARGO, 0)
            .item(-5, LOW, 0)
            .list("two of a type fitted, one in cargo")
    },
    || {
        let mut sketch = Sketch::hull().known(5, -8, CATEGORY_MODULE).known(6, 3, 4);
        for number in 0..256 {
            sketch = sketch
                .item(5 + number % 2, (number % 6) as u8, number as u16)
                .state((number % 4) as u8)
                .with(GROUP_LIMITS, 9.0)
                .with(GROUP_LIMITS + 2, 9.0)
                .with(MAX_TYPE_FITTED, 9.0);
        }
        sketch.list("256 pairs over their limits")
    },
];

fn structure() -> Sketch {
    Sketch::of(STRUCTURE, 1657, CATEGORY_STRUCTURE)
}

fn rigs(ship: f64, rig: f64, kind: u8) -> Case {
    Sketch::hull()
        .known(5, 1, CATEGORY_MODULE)
        .ship(RIG_SIZE, ship)
        .item(5, kind, 0)
        .with(RIG_SIZE, rig)
        .list("rig sizes")
}

fn restricted_sketch(listed: &[(usize, f64)], kind: u8) -> Sketch {
    let mut sketch = Sketch::hull().known(5, 1, CATEGORY_MODULE).item(5, kind, 0);
    for (name, value) in listed {
        sketch = sketch.with(*name, *value);
    }
    sketch
}

fn restricted(listed: &[(usize, f64)], kind: u8) -> Case {
    restricted_sketch(listed, kind).list("an item for some ships")
}

fn restricted_to(ship: i32, value: f64) -> Case {
    Sketch::of(ship, 25, CATEGORY_SHIP)
        .known(5, 1, CATEGORY_MODULE)
        .item(5, HIGH, 0)
        .with(SHIP_TYPES, value)
        .list("an item for a ship at the edge of the cast")
}

fn capital(volume: f64, kind: u8, ship: Option<f64>) -> Case {
    let mut sketch = Sketch::hull()
        .known(5, 1, CATEGORY_MODULE)
        .name(IS_CAPITAL_SIZE)
        .item(5, kind, 0)
        .with(VOLUME, volume);
    if let Some(value) = ship {
        sketch = sketch.ship(IS_CAPITAL_SIZE, value);
    }
    sketch.list("an item's volume")
}

/// The same type in a high slot, a tube, the fighter bay and cargo.
fn standup(sketch: Sketch, category: i32, mark: Option<(usize, f64)>) -> Case {
    let mut sketch = sketch.known(5, 1, category);
    for name in STANDUP_FIGHTERS..STANDUP_FIGHTERS + 3 {
        sketch = sketch.name(name);
    }
    for kind in [HIGH, FIGHTER_TUBE, FIGHTER_BAY, CARGO] {
        sketch = sketch.item(5, kind, 0);
        if let Some((row, value)) = mark {
            sketch = sketch.with(STANDUP_FIGHTERS + row, value);
        }
    }
    sketch.list("a module or fighter on a hull")
}

/// One item of a group for each state, with all three limits.
fn groups(states: &[u8], allowed: f64) -> Case {
    let mut sketch = Sketch::hull().known(5, 8, CATEGORY_MODULE);
    for (index, state) in states.iter().enumerate() {
        sketch = sketch
            .item(5, HIGH, index as u16)
            .state(*state)
            .with(GROUP_LIMITS, allowed)
            .with(GROUP_LIMITS + 1, allowed)
            .with(GROUP_LIMITS + 2, allowed);
    }
    sketch.list("a group's limits by state")
}

/// 256 active pairs of one type, each with every limit.
fn crowd(allowed: f64) -> Case {
    let mut sketch = Sketch::hull().known(5, 8, CATEGORY_MODULE);
    for index in 0..256 {
        sketch = sketch
            .item(5, HIGH, index)
            .state(ACTIVE)
            .with(GROUP_LIMITS, allowed)
            .with(GROUP_LIMITS + 1, allowed)
            .with(GROUP_LIMITS + 2, allowed)
            .with(MAX_TYPE_FITTED, allowed);
    }
    sketch.list("256 pairs of one type, beside their limits")
}

fn types(count: u16, allowed: f64, kind: u8) -> Case {
    let mut sketch = Sketch::hull().known(5, 8, CATEGORY_MODULE);
    for number in 0..count {
        let index = if kind == CARGO { 0 } else { number };
        sketch = sketch.item(5, kind, index).with(MAX_TYPE_FITTED, allowed);
    }
    sketch.list("a type's limit")
}
