//! Cargo behind a fit: what becomes of the hold by each kind of volume, and all
//! else that cargo may not touch.

use super::Make;
use crate::case::{Ask, Case, Growth};
use crate::model::{Item, Outcome, Skill};
use crate::names::{CAPACITY, COUNT, GROUP_LIMITS, MAX_ACTIVE_DRONES, REQUIRED};
use crate::page::Limits;
use crate::profile::{BANNED, League, Price, Profile};
use crate::reader::Reader;
use crate::sketch::{
    CARGO, CATEGORY_CHARGE, CATEGORY_MODULE, CATEGORY_SKILL, DRONE_BAY, HIGH, Sketch, id,
};

const ORE: i32 = 601;
const NAN: i32 = 602;
const NEGATIVE: i32 = 603;
const INFINITE: i32 = 604;
const NO_VOLUME: i32 = 605;
const MISSING: i32 = 606;
const GUN: i32 = 607;
const GUN_GROUP: i32 = 53;
const ORE_GROUP: i32 = 18;
const SKILL: i32 = 3300;

pub const CASES: &[Make] = &[
    || hauled(100.0, 1, &[(ORE, 1)], 1),
    || hauled(1.0, 0, &[(ORE, 5)], 1),
    || hauled(1.0, 3, &[(ORE, 5)], 1),
    || hauled(1.0, 3, &[(NO_VOLUME, 7), (MISSING, 9), (ORE, 0)], 3),
    || hauled(1.0, 3, &[(NEGATIVE, 1)], 1),
    || hauled(1.0, 3, &[(NEGATIVE, 3)], 1),
    || hauled(1.0, 3, &[(NAN, 1)], 1),
    || hauled(1.0, 0, &[(NAN, 1), (ORE, 5)], 2),
    || hauled(1.0, 0, &[(INFINITE, 1)], 1),
    || hauled(1.0, 3, &[(INFINITE, 0)], 1),
    || hauled(1.0, 3, &[(ORE, u32::MAX), (GUN, 1)], 2),
    || hauled(-1.0, 0, &[(GUN, 1), (GUN, 1), (GUN, 1), (GUN, 1)], 4),
    || hauled(1.0, 3, &[(GUN, 1), (ORE, 2), (ORE, 3)], 1),
    || hauled(1.0, 3, &[(GUN, 1), (ORE, 2)], 0),
    || hauled(1.0, 3, &[(GUN, 1)], 3),
    || hauled(1.0, 3, &[], 2),
    || hauled(1.0, 3, &[], 0),
    || under_limits(hauled(1.0, 3, &[(GUN, 4)], 1)),
    || in_a_league(hauled(1.0, 3, &[(GUN, 4), (ORE, 1)], 2)),
    || in_a_league(hauled(50.0, 3, &[(MISSING, 4), (ORE, 1)], 2)),
    || trained(hauled(1.0, 3, &[(ORE, 5), (MISSING, 1)], 2), Reader::GUEST),
    || trained(hauled(1.0, 0, &[(ORE, 5)], 1), Reader::PILOT),
    || trained(hauled(1.0, 3, &[(NEGATIVE, 3)], 1), Reader(3)),
];

/// Two guns in one place, drones and ore, of a fit that breaks rules and lacks
/// skills; and what is put behind it, with a value under every name.
fn hauled(capacity: f64, before: u32, added: &[(i32, u32)], results: usize) -> Case {
    let sketch = (0..COUNT).fold(Sketch::hull(), Sketch::name);
    let volumes = [(ORE, 2.0), (NAN, f32::NAN), (NEGATIVE, -3.0)];
    let volumes = volumes.into_iter().chain([(INFINITE, f32::INFINITY)]);
    let sketch = volumes.fold(sketch, |sketch, (id, volume)| {
        sketch.known(id, ORE_GROUP, CATEGORY_CHARGE).volume(volume)
    });
    let sketch = sketch
        .known(NO_VOLUME, ORE_GROUP, CATEGORY_CHARGE)
        .known(GUN, GUN_GROUP, CATEGORY_MODULE)
        .volume(5.0)
        .mark(GUN, 1)
        .known(SKILL, 255, CATEGORY_SKILL)
        .ship(CAPACITY, capacity)
        .ship(REQUIRED, SKILL.into())
        .ship(REQUIRED + 1, 5.0)
        .character(MAX_ACTIVE_DRONES, 1.0)
        .item(GUN, HIGH, 0)
        .with(GROUP_LIMITS, 2.0)
        .with(REQUIRED, SKILL.into())
        .with(REQUIRED + 1, 4.0)
        .item(GUN, HIGH, 0)
        .item(GUN, DRONE_BAY, 0)
        .state(2)
        .item(ORE, CARGO, 0)
        .quantity(before);
    let last = sketch.fit.results.len() as u32 + 1;
    let mut asks = vec![Ask::HauledList];
    asks.extend((0..=last).map(Ask::HauledSkill));
    let items = added.iter().map(|(type_id, quantity)| Item {
        type_id: *type_id,
        quantity: *quantity,
        kind: CARGO,
        ..Item::default()
    });
    let results = (0..results).map(|number| Outcome {
        state: 3 - number as u8 % 4,
        attributes: (0..COUNT).map(|name| (id(name), 1f64.to_bits())).collect(),
        ..Outcome::default()
    });
    Case {
        haul: Growth {
            items: items.collect(),
            results: results.collect(),
            ..Growth::default()
        },
        ..sketch.case("cargo behind a fit", &asks)
    }
}

/// A gun, a missing type and the wanted skill are trained, and a reader has the
/// calls of his own.
fn trained(mut case: Case, reader: Reader) -> Case {
    let skills = [(MISSING, 1), (GUN, 5), (SKILL, 3)];
    let skill = |(id, level)| Skill { id, level };
    case.fits[0].skills = skills.map(skill).to_vec();
    case.reader = reader;
    case
}

/// As many pairs as each of the two fits has, and no more.
fn under_limits(mut case: Case) -> Case {
    case.limits = Limits::of(4, 1);
    case.haul.limits = Limits::of(5, 2);
    case
}

/// Guns cost more than the allowance has; ore is banned, and so is what the
/// catalogue lacks.
fn in_a_league(case: Case) -> Case {
    let price = |(group, points)| Price { group, points };
    let prices = [(0, BANNED), (ORE_GROUP, BANNED), (GUN_GROUP, 5)];
    Case {
        league: League {
            profile: Some(Profile {
                prices: prices.map(price).to_vec(),
                ..Profile::default()
            }),
            allowance: 9,
        },
        ..case
    }
}
