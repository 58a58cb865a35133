//! Fits that hold as much as a fit may, over the catalogue of full size.

use std::collections::BTreeMap;

use super::catalogue::{Role, SKILLS, attribute, hardpoint_mark, unread};
use crate::model::{Fit, Item, Outcome, Skill};
use crate::names::*;
use crate::sketch::*;

pub const PAIRS: usize = 256;
const TRAINED: usize = 1_024;
const ATTRIBUTES: usize = 30_000;

/// The ship of these fits, amid the hulls.
fn hull() -> i32 {
    Role::Hull.id(1_499)
}

/// A result with values under names, and nothing else yet.
pub fn outcome(state: u8, values: &[(usize, f64)]) -> Outcome {
    let rows: BTreeMap<i32, u64> = values
        .iter()
        .map(|(name, value)| (attribute(*name), value.to_bits()))
        .collect();
    Outcome {
        state,
        attributes: rows.into_iter().collect(),
        ..Outcome::default()
    }
}

/// Puts attributes that no rule reads between those of every result, evenly,
/// until there are 30,000.
pub fn fill(fit: &mut Fit) {
    let results = fit.results.len() + 2;
    let mut missing = ATTRIBUTES - fit.attribute_total();
    let mut number = 1;
    let outcomes = [&mut fit.ship, &mut fit.character].into_iter();
    for (place, outcome) in outcomes.chain(&mut fit.results).enumerate() {
        let more = missing / (results - place);
        missing -= more;
        for _ in 0..more {
            let value = (number as f64).to_bits();
            outcome.attributes.push((unread(number), value));
            number += 1;
        }
        outcome.attributes.sort_by_key(|row| row.0);
    }
}

/// So many skills, from the first to the last.
fn trained(level: u8) -> Vec<Skill> {
    (0..TRAINED)
        .map(|number| Skill {
            id: Role::Skill.id(number * (SKILLS - 1) / (TRAINED - 1)),
            level,
        })
        .collect()
}

/// 256 modules, each in its rack, with every limit just kept: one type that is
/// not found, one mark that is not seen or one value that is lost, and the fit
/// is clear no more. Another number gives other modules.
pub fn clear(number: usize) -> Fit {
    let mut fit = Fit {
        ship_type: hull(),
        skills: trained(5),
        ..Fit::default()
    };
    let mut counts = [0u32; 8];
    for place in 0..PAIRS {
        let rack = (place % 6) as u8;
        let which = module(number, place);
        fit.items.push(Item {
            type_id: Role::Module(rack).id(which),
            quantity: 1,
            kind: rack,
            zero: 0,
            index: (place / 6) as u16,
        });
        let state = (place % 4) as u8;
        fit.results.push(outcome(state, &module_values(place)));
        counts[usize::from(rack)] += 1;
        if rack == HIGH {
            // The last type's turret is an effect of its own.
            let mark = if which == 2_999 {
                7
            } else {
                hardpoint_mark(which)
            };
            counts[mark as usize - 1] += 1;
        }
    }
    fit.ship = ship(counts.map(f64::from));
    fit.character = outcome(ONLINE, &[(MAX_ACTIVE_DRONES, 0.0)]);
    fill(&mut fit);
    fit
}

/// Which module of its rack stands at a place: in the first fit the last type
/// of all, the first, and one with many links.
fn module(number: usize, place: usize) -> usize {
    match (number, place) {
        (0, 0) => 2_999,
        (0, 1) => 0,
        (0, 2) => 1_000,
        _ => (place * 1_171 + number * 613) % 3_000,
    }
}

fn ship(slots: [f64; 8]) -> Outcome {
    let mut values = vec![(CAPACITY, 0.0), (RIG_SIZE, 2.0)];
    values.extend((0..20).map(|name| (LOADS + name, 10.0)));
    values.extend((RACKS..).zip(slots));
    outcome(ONLINE, &values)
}

fn module_values(place: usize) -> Vec<(usize, f64)> {
    let mut values = vec![
        (SUBSYSTEM_SLOT, place as f64),
        (RIG_SIZE, 2.0),
        (VOLUME, 3500.0),
        (MAX_TYPE_FITTED, 256.0),
    ];
    values.extend((0..3).map(|limit| (GROUP_LIMITS + limit, 256.0)));
    if place.is_multiple_of(3) {
        values.push((SHIP_TYPES + place % 13, f64::from(hull())));
    }
    values
}

/// Changes one value of a result.
fn set(outcome: &mut Outcome, name: usize, value: f64) {
    let id = attribute(name);
    let row = outcome.attributes.iter_mut().find(|row| row.0 == id);
    row.expect("the result has the value").1 = value.to_bits();
}

/// How many ways there are to break a clear fit in one place.
pub const WAYS: usize = 9;

/// A clear fit, but for one thing far behind.
pub fn faulted(number: usize) -> Fit {
    let mut fit = clear(number);
    let last = PAIRS - 1;
    match number % WAYS {
        0 => fit.items[last].type_id += 1,
        1 => fit.skills[TRAINED - 1].id += 1,
        2 => set(&mut fit.results[last], VOLUME, 3500.5),
        3 => set(&mut fit.ship, RACKS + 3, 42.0),
        4 => fit.items[last].index = fit.items[last - 6].index,
        5 => (fit.mode_flag, fit.mode) = (1, Role::ModeOrContainer.id(2_998)),
        6 => set(&mut fit.results[last], MAX_TYPE_FITTED, 0.0),
        7 => set(&mut fit.ship, LOADS + 18, 10.1),
        // Drones whose total is 0 in 32 bits.
        _ => {
            for (place, quantity) in [(last - 1, u32::MAX), (last, 1)] {
                fit.items[place].type_id = Role::Drone.id(place);
                fit.items[place].kind = DRONE_BAY;
                fit.items[place].index = 0;
                fit.items[place].quantity = quantity;
                fit.results[place].state = ACTIVE;
            }
        }
    }
    fit
}

/// A clear fit, but refused by one of 4 to 6 for its last bytes.
pub fn refused(number: usize) -> Fit {
    let mut fit = clear(number);
    let last = PAIRS - 1;
    match number % 3 {
        0 => fit.damage.cut = 1,
        1 => {
            let end = fit.results[last].attributes.len();
            fit.results[last].attributes.swap(end - 1, end - 2);
        }
        _ => fit.results[last].state = 4,
    }
    fit
}

/// The longest list there is: 3,856 entries. Nothing is listed more often for
/// a pair than for a subsystem that is none, and no skill listed is one.
pub fn longest() -> Fit {
    let mut fit = Fit {
        ship_type: hull(),
        mode_flag: 1,
        mode: Role::Drone.id(7),
        character: outcome(ONLINE, &[(MAX_ACTIVE_DRONES, -1.0)]),
        ..Fit::default()
    };
    let mut values = vec![(CAPACITY, -1.0)];
    for row in 0..10 {
        values.push((LOADS + 2 * row, row as f64 + 2.0));
        values.push((LOADS + 2 * row + 1, row as f64 + 1.0));
    }
    fit.ship = outcome(ONLINE, &values);
    fit.skills = (0..TRAINED)
        .map(|number| Skill {
            id: Role::Odd.id(2 * number),
            level: 1,
        })
        .collect();
    for place in 0..PAIRS {
        fit.items.push(Item {
            type_id: Role::Odd.id(11 * place),
            quantity: 1,
            kind: SUBSYSTEM,
            zero: 0,
            index: 7,
        });
        fit.results.push(outcome(ACTIVE, &wrong_values()));
    }
    fill(&mut fit);
    fit
}

fn wrong_values() -> Vec<(usize, f64)> {
    let mut values = vec![
        (IMPLANTNESS, 9.0),
        (BOOSTERNESS, 300.0),
        (SUBSYSTEM_SLOT, 1.0),
        (RIG_SIZE, 3.0),
        (SHIP_TYPES, 1.0),
        (SHIP_GROUPS + 19, 1.0),
        (VOLUME, 4000.0),
        (STANDUP_FIGHTERS + 2, 1.0),
        (MAX_TYPE_FITTED, 0.0),
    ];
    values.extend((0..3).map(|limit| (GROUP_LIMITS + limit, 0.0)));
    values
}

/// 256 pairs of every role in every kind of slot, which together break every
/// rule that can be broken on the hull, or on the structure.
pub fn every_rule(structure: bool) -> Fit {
    let mut fit = longest();
    fit.ship_type = match structure {
        true => Role::Structure.id(2_999),
        false => Role::Hull.id(0),
    };
    let values = [(RIG_SIZE, 2.0), (LOADS, 2.0), (LOADS + 1, 1.0)];
    fit.ship = outcome(ONLINE, &values);
    for place in 0..PAIRS {
        let kind = (place % 12) as u8;
        let role = Role::ALL[(place / 12 + place) % 16];
        fit.items[place] = Item {
            type_id: role.id(2_999 - 11 * place),
            quantity: 3,
            kind,
            zero: 0,
            index: match kind {
                FIGHTER_BAY | DRONE_BAY | CARGO => 0,
                _ => (place / 24) as u16,
            },
        };
        let mut values = wrong_values();
        // Half of them are no standup fighters.
        values.retain(|(name, _)| *name != STANDUP_FIGHTERS + 2 || place / 12 % 2 == 0);
        fit.results[place] = outcome((place / 12 % 4) as u8, &values);
    }
    fit.character.attributes.clear();
    fill(&mut fit);
    fit
}

#[cfg(test)]
mod tests {
    use super::*;

    #[test]
    fn they_are_as_large_as_a_fit_may_be() {
        for fit in [clear(0), faulted(3), longest(), every_rule(true)] {
            assert_eq!(fit.skills.len(), TRAINED);
            assert_eq!((fit.items.len(), fit.results.len()), (PAIRS, PAIRS));
            assert_eq!(fit.attribute_total(), ATTRIBUTES);
            assert_eq!(fit.image().len(), 369_252);
        }
    }
}
