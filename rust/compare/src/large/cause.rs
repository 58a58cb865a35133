//! Causes of 256 pairs: what all of them make, entries about the first and the last of
//! them, and the last entry of the longest list.

use super::{fits, full, unknown};
use crate::case::{Ask, Case, Position, Room};
use crate::generate::cause::entries;
use crate::names::*;
use crate::profile::League;
use crate::sketch::*;

pub const COUNT: usize = 7;

/// How many pairs a fit may have.
const PAIRS: u16 = 256;

pub fn case(number: usize) -> Case {
    match number {
        0 => asked("256 in a rack of 255", rack(255.0)),
        1 => asked("256 in a rack of 128", rack(128.0)),
        2 => asked("256 of one group and type, of which 255 may be", limits()),
        3 => asked("256 stacks of drones", drones()),
        4 => asked("256 stacks of cargo", cargo()),
        5 => every_rule(),
        _ => longest(),
    }
}

/// Asks for the first and the last entry of each rule and sub, and behind all.
fn asked(title: &str, sketch: Sketch) -> Case {
    let mut case = sketch.case(title, &[]);
    let entries = entries(&case);
    let mut positions: Vec<usize> = Vec::new();
    for (position, entry) in entries.iter().enumerate() {
        let is_alike = |other: &&[u8; 24]| other[1..3] == entry[1..3];
        let is_first = entries[..position].iter().find(is_alike).is_none();
        let is_last = entries[position + 1..].iter().find(is_alike).is_none();
        if is_first || is_last {
            positions.push(position);
        }
    }
    for position in positions {
        let position = Position::Of(position as u32);
        let rooms = [Room::Exact, Room::OneShort, Room::Longer(9)];
        case.asks
            .extend(rooms.map(|room| Ask::Cause(position, room)));
    }
    case.asks
        .push(Ask::Cause(Position::Behind, Room::Longer(9)));
    case
}

fn guns() -> Sketch {
    (0..PAIRS).fold(
        Sketch::hull().known(9, 60, CATEGORY_MODULE),
        |sketch, number| sketch.item(9, HIGH, number % 256).state(ACTIVE),
    )
}

fn rack(amount: f64) -> Sketch {
    guns().ship(RACKS, amount)
}

/// The first, a middle and the last pair have each limit.
fn limits() -> Sketch {
    let mut sketch = guns();
    let names = [0, 1, 2].map(|limit| GROUP_LIMITS + limit);
    for name in names.into_iter().chain([MAX_TYPE_FITTED]) {
        sketch = sketch.name(name);
        for number in [0, 100, 255] {
            let result = &mut sketch.fit.results[number];
            result.attributes.push((id(name), 255f64.to_bits()));
        }
    }
    sketch
}

/// Of which more than half are needed.
fn drones() -> Sketch {
    let sketch = Sketch::hull().known(80, 5, CATEGORY_DRONE);
    let sketch = (0..u32::from(PAIRS)).fold(sketch, |sketch, number| {
        let quantity = u32::MAX - number;
        sketch
            .item(80, DRONE_BAY, 0)
            .quantity(quantity)
            .state(ACTIVE)
    });
    sketch.character(MAX_ACTIVE_DRONES, 700e9)
}

/// The same, by volumes whose sums are rounded.
fn cargo() -> Sketch {
    let mut sketch = Sketch::hull().ship(CAPACITY, 3_000.0);
    for number in 0..i32::from(PAIRS) {
        let volume = 0.1 * (number % 7 + 1) as f32;
        sketch = sketch
            .known(1_000 + number, 450, CATEGORY_CHARGE)
            .volume(volume);
        let quantity = 20 + 13 * number as u32 % 41;
        sketch = sketch.item(1_000 + number, CARGO, 0).quantity(quantity);
    }
    sketch
}

/// Over a catalogue of full size: the hold, a rack, and the limits of the last pair.
fn every_rule() -> Case {
    let fit = fits::every_rule(true);
    let mut case = full("causes where every rule is broken", fit, Vec::new());
    let types = &case.catalogue.types;
    let is_bad = |type_id: i32| {
        let row = types.iter().find(|row| row.id == type_id && row.flag == 1);
        row.is_some_and(|row| crate::reference::is_bad(f32::from_bits(row.volume)))
    };
    let items = &mut case.fits[0].items;
    items.retain(|item| item.kind != CARGO || !is_bad(item.type_id));
    let entries = entries(&case);
    let last = |rule: u8, sub: u8| {
        let mut entries = entries.iter();
        entries.rposition(|entry| entry[1..3] == [rule, sub])
    };
    let positions = [last(1, 11), last(2, 0), last(17, 0), last(18, 0)];
    let positions = positions.into_iter().flatten();
    let ask = |position| Ask::Cause(Position::Of(position as u32), Room::Exact);
    case.asks = positions.map(ask).collect();
    case
}

/// The longest list of missing types, its last entry and its first.
fn longest() -> Case {
    let mut case = unknown::case(unknown::COUNT - 1);
    case.title = "causes in the longest list".to_string();
    case.league = League::default();
    let ask = |position| Ask::Cause(position, Room::Exact);
    case.asks = [Position::Last, Position::Of(0)].map(ask).to_vec();
    case
}

#[cfg(test)]
mod tests {
    use super::*;

    #[test]
    fn the_list_is_the_longest_without_a_league() {
        assert_eq!(entries(&longest()).len(), 4_112);
    }

    #[test]
    fn every_case_has_answers() {
        for number in 0..COUNT {
            let case = case(number);
            let count = entries(&case).len() as u32;
            let is_answered = |ask: &Ask| match ask {
                Ask::Cause(position, _) => position.number(count as usize) < count,
                _ => false,
            };
            let answered = case.asks.iter().filter(|ask| is_answered(ask));
            assert!(answered.count() > 1, "{number}");
        }
    }
}
