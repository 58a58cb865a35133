//! Trimmed catalogues at full size, over more records than one window of marks
//! holds, and as long as a catalogue may be.

use super::catalogue::{CHAIN, Role};
use super::fits::outcome;
use super::{blocks, skills};
use crate::case::{Ask, Case, Room};
use crate::model::{Base, Link};
use crate::names::{REQUIRED, VOLUME};
use crate::sketch::{CARGO, HIGH, ONLINE, ROOMS, SHIP, Sketch, id};

pub const COUNT: usize = 8;

/// How many records one window of marks holds.
const WINDOW: usize = 1 << 20;

/// How many skills a result may want.
const MOST: i32 = 512;

/// The base values that stand around its end.
const BASES: usize = 8;

pub fn case(number: usize) -> Case {
    match number {
        0 => full(false),
        1 => full(true),
        2 => window("a run over the end of a window", &[SHIP; BASES]),
        3 => window("a run up to the end of a window", &ends(SHIP, 9_999)),
        4 => window("a run from the beginning of a window", &ends(5, SHIP)),
        5 => {
            let mut case = blocks::case(2);
            case.title = "2,097,098 links, all of them kept".to_string();
            case.asks = vec![Ask::Trim(Room::Exact), Ask::Trim(Room::OneShort)];
            case
        }
        6 => many(),
        _ => longest(),
    }
}

/// 1,024 listed skills, 256 items of a type each and 258 results, of which the last
/// wants a skill that is not listed; another wants 513 skills, or nothing.
fn full(is_refused: bool) -> Case {
    let mut case = skills::trained();
    case.title = "a catalogue of full size, trimmed".to_string();
    let fit = &mut case.fits[0];
    for (number, item) in fit.items.iter_mut().enumerate() {
        item.type_id = Role::Module(HIGH).id(number);
    }
    let skill = Role::Skill.id(CHAIN);
    let last = fit.results.last_mut().expect("256 results");
    *last = outcome(ONLINE, &[(REQUIRED, skill.into()), (REQUIRED + 1, 5.0)]);
    if !is_refused {
        fit.results[skills::TOO_MANY as usize - 2] = outcome(ONLINE, &[]);
    }
    case.asks = ROOMS.map(Ask::Trim).to_vec();
    if !is_refused {
        case.asks.push(Ask::Trimmed);
    }
    case
}

/// Four base values of one type, and four of another.
fn ends(first: i32, second: i32) -> [i32; BASES] {
    std::array::from_fn(|number| if number < BASES / 2 { first } else { second })
}

/// One type, and as many links as leave the middle of the base values at the end of
/// a window; three of every thousand links are kept.
fn window(title: &str, types: &[i32; BASES]) -> Case {
    const LINKS: usize = WINDOW - 1 - BASES / 2;
    let mut sketch = Sketch::hull().name(VOLUME);
    let link = |row: usize| Link {
        type_id: 10_000 + row as i32 / 3,
        effect: -(row as i32),
    };
    sketch.catalogue.links = (0..LINKS).map(link).collect();
    let bases = types.iter().enumerate();
    let bases = bases.map(|(row, type_id)| Base {
        type_id: *type_id,
        attribute: id(VOLUME),
        value: row as u64,
    });
    sketch.catalogue.bases = bases.collect();
    for number in (0..256).map(|number| number * 1_000) {
        sketch = sketch.item(10_000 + number, CARGO, 0);
    }
    let asks = [Ask::Trim(Room::Exact), Ask::Trim(Room::OneShort)];
    sketch.case(title, &asks)
}

/// 258 results, of which each wants 512 skills that no other wants; every fourth skill
/// of the catalogue is nobody's.
fn many() -> Case {
    const LEFT: i32 = MOST / 3;
    let mut sketch = Sketch::hull().name(REQUIRED).name(REQUIRED + 1);
    for number in 0..258 {
        let first = 10_000 + number * (MOST + LEFT);
        let demand = [(id(REQUIRED), f64::from(first).to_bits())];
        match number {
            0 => sketch.fit.ship.attributes.extend(demand),
            1 => sketch.fit.character.attributes.extend(demand),
            _ => {
                sketch = sketch.item(SHIP, CARGO, 0);
                let result = sketch.fit.results.last_mut();
                result.expect("the item's").attributes.extend(demand);
            }
        }
        let base = |row: i32| Base {
            type_id: first + row,
            attribute: id(REQUIRED),
            value: f64::from(first + row + 1).to_bits(),
        };
        // The last of the chain demands nothing, and has another value.
        sketch.catalogue.bases.extend((0..MOST - 1).map(base));
        let others = (MOST - 1..MOST + LEFT).map(|row| Base {
            attribute: id(VOLUME),
            ..base(row)
        });
        sketch.catalogue.bases.extend(others);
    }
    let asks = [
        Ask::Trim(Room::Exact),
        Ask::Trim(Room::OneShort),
        Ask::Trimmed,
    ];
    sketch.case("132,096 skills of 258 results, trimmed", &asks)
}

/// 16,777,216 bytes that are the ship's own: nothing goes.
fn longest() -> Case {
    let mut case = blocks::bases(blocks::BASES);
    case.title = "16,777,216 bytes, all of them kept".to_string();
    for row in &mut case.catalogue.bases {
        row.type_id = SHIP;
    }
    case.fits[0].items.clear();
    case.fits[0].results.clear();
    case.asks = vec![Ask::Trim(Room::Exact), Ask::Trim(Room::OneShort)];
    case
}

#[cfg(test)]
mod tests {
    use super::*;

    #[test]
    fn the_base_values_stand_around_the_end_of_a_window() {
        for number in 2..5 {
            let catalogue = case(number).catalogue;
            let before = catalogue.types.len() + catalogue.links.len();
            assert_eq!((before, catalogue.bases.len()), (WINDOW - 4, 8));
        }
    }

    #[test]
    fn no_two_results_want_one_skill() {
        let case = many();
        assert_eq!(case.fits[0].results.len(), 256);
        assert_eq!(case.catalogue.bases.len(), 258 * (512 + 170));
        assert!(case.catalogue.bases.is_sorted_by_key(|row| row.type_id));
    }
}
