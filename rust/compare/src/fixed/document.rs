//! Document 01's own examples and edges, and the rules on hull, mode and skills.

use super::Make;
use crate::case::{Ask, Case, Room};
use crate::model::{Catalogue, Fit};
use crate::names::*;
use crate::sketch::*;

pub const CASES: &[Make] = &[
    || Case {
        title: "20 and 36 zero bytes".to_string(),
        fits: vec![Fit::default()],
        asks: ROOMS.map(Ask::List).to_vec(),
        ..Case::default()
    },
    || Case {
        title: "a hall of no fits, over no catalogue rows".to_string(),
        catalogue: Catalogue::default(),
        asks: vec![Ask::Hall],
        ..Case::default()
    },
    || Sketch::hull().list("a hull alone"),
    || {
        Sketch::hull()
            .ship(LOADS, 1_000_000_001.0)
            .ship(LOADS + 1, 1_000_000_000.0)
            .list("1,000,000,001 of 1,000,000,000 used")
    },
    || {
        Sketch::hull()
            .ship(LOADS, 1_000_000_002.0)
            .ship(LOADS + 1, 1_000_000_000.0)
            .list("1,000,000,002 of 1,000,000,000 used")
    },
    || {
        Sketch::hull()
            .ship(LOADS, -999_999_999.0)
            .ship(LOADS + 1, -1_000_000_000.0)
            .list("-999,999,999 of -1,000,000,000 used")
    },
    || {
        Sketch::hull()
            .ship(LOADS, f64::INFINITY)
            .ship(LOADS + 1, f64::NEG_INFINITY)
            .list("minus infinity available")
    },
    || {
        Sketch::hull()
            .known(5, 1, CATEGORY_MODULE)
            .name(IS_CAPITAL_SIZE)
            .item(5, HIGH, 0)
            .with(VOLUME, 3500.0)
            .list("volume 3500 in a high slot")
    },
    || {
        Sketch::hull()
            .known(5, 1, CATEGORY_MODULE)
            .name(IS_CAPITAL_SIZE)
            .item(5, HIGH, 0)
            .with(VOLUME, 3500.5)
            .list("volume 3500.5 in a high slot")
    },
    || two_skills().skills("skills 1 and 2 demand each other", 0),
    || {
        Sketch::hull()
            .known(5, 1, CATEGORY_MODULE)
            .ship(RIG_SIZE, 1.0)
            .item(5, RIG, 0)
            .with(RIG_SIZE, 1.5)
            .list("a rig of size 1.5 where the ship takes 1")
    },
    || {
        Sketch::hull()
            .known(5, 1, CATEGORY_MODULE)
            .item(5, HIGH, 3)
            .item(5, HIGH, 3)
            .list("two items in one high slot")
    },
    || {
        Sketch::hull()
            .known(5, 1, CATEGORY_SUBSYSTEM)
            .item(5, SUBSYSTEM, 0)
            .with(SUBSYSTEM_SLOT, f64::NAN)
            .item(5, SUBSYSTEM, 1)
            .with(SUBSYSTEM_SLOT, f64::NAN)
            .list("two NaN subsystem parts")
    },
    || cast_of_rig(f64::NAN),
    || cast_of_rig(-1.0),
    || cast_of_rig(255.9),
    || cast_of_rig(256.0),
    || {
        Sketch::hull()
            .ship(REQUIRED, -2.7)
            .ship(REQUIRED + 1, 1.0)
            .skills("a demand for skill -2.7", 0)
    },
    || {
        Sketch::hull()
            .name(MAX_ACTIVE_DRONES)
            .known(9, 1, CATEGORY_DRONE)
            .item(9, DRONE_BAY, 0)
            .quantity(4_294_967_295)
            .state(ACTIVE)
            .item(9, DRONE_BAY, 0)
            .quantity(1)
            .state(ACTIVE)
            .list("two active stacks, 4,294,967,295 and 1")
    },
    || {
        Sketch::hull()
            .skill(9, 1)
            .case("23 bytes, one entry", &[Ask::List(Room::OneShort)])
    },
    || Sketch::hull().case("result 2 with R = 0", &[Ask::Skill(2, Room::Exact)]),
    || Sketch::of(30, 25, 7).list("a module as ship"),
    || Sketch::of(30, 25, CATEGORY_STRUCTURE).list("a structure as ship"),
    || Sketch::of(30, 12, 2).list("a cargo container as ship"),
    || Sketch::of(30, 340, 2).list("a secure container as ship"),
    || Sketch::of(30, 448, 2).list("an audit container as ship"),
    || Sketch::of(30, 649, 2).list("a freight container as ship"),
    || Sketch::of(30, 13, 2).list("a group beside the containers"),
    || {
        Sketch::of(30, 25, 7)
            .skill(77, 1)
            .mode(5)
            .name(MAX_ACTIVE_DRONES)
            .item(5, HIGH, 0)
            .list("NotAHull stands alone")
    },
    || {
        let mut sketch = Sketch::hull();
        sketch.fit.ship_type = 588;
        sketch.list("a ship type that the catalogue lacks")
    },
    || {
        Sketch::hull()
            .known(40, 1306, 6)
            .mode(40)
            .list("a tactical mode")
    },
    || {
        Sketch::hull()
            .known(40, 1305, 6)
            .mode(40)
            .list("a mode of another group")
    },
    || {
        Sketch::hull()
            .mode(40)
            .list("a mode that the catalogue lacks")
    },
    || Sketch::hull().mode(0).list("mode 0, given"),
    || {
        Sketch::hull()
            .known(3300, 255, CATEGORY_SKILL)
            .known(3301, 255, CATEGORY_MODULE)
            .skill(-5, 1)
            .skill(3300, 5)
            .skill(3301, 0)
            .skill(3302, 255)
            .list("skills that are none")
    },
];

/// Skill 1 demanded at 3, demanding 2 at 1; skill 2 demanding 1 at 4.
pub fn two_skills() -> Sketch {
    Sketch::hull()
        .ship(REQUIRED, 1.0)
        .ship(REQUIRED + 1, 3.0)
        .base(1, REQUIRED, 2.0)
        .base(1, REQUIRED + 1, 1.0)
        .base(2, REQUIRED, 1.0)
        .base(2, REQUIRED + 1, 4.0)
}

fn cast_of_rig(size: f64) -> Case {
    Sketch::hull()
        .known(5, 1, CATEGORY_MODULE)
        .ship(RIG_SIZE, 1.0)
        .item(5, RIG, 0)
        .with(RIG_SIZE, size)
        .list("a rig size at the edge of its cast")
}
