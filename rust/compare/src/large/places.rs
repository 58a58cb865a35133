//! One result with 30,000 attributes, and those that a rule reads in front, in
//! the middle and at the end of it: of the ship, of the character, of the
//! first, a middle and the last of 256 items.

use super::catalogue::spread;
use crate::case::{Ask, Case, Room};
use crate::model::{Fit, Item, Name, Outcome};
use crate::names::*;
use crate::sketch::*;
use crate::tally::size::Holder;

const ATTRIBUTES: usize = 30_000;
const PLACES: [usize; 3] = [0, ATTRIBUTES / 2, ATTRIBUTES - 1];

/// For each holder, three turns of the list call's values and three of the
/// skill call's.
pub const COUNT: usize = Holder::ALL.len() * 6;

pub fn case(number: usize) -> Case {
    let holder = Holder::ALL[number / 6];
    let turn = number % 3;
    let result = match holder {
        Holder::Ship => 0,
        Holder::Character => 1,
        Holder::FirstItem => 2,
        Holder::MiddleItem => 131,
        Holder::LastItem => 257,
    };
    let mut sketch = Sketch::hull()
        .known(5, 8, CATEGORY_MODULE)
        .known(9, 100, CATEGORY_DRONE)
        .name(IS_CAPITAL_SIZE);
    sketch.fit.items = vec![item(5, HIGH); 256];
    sketch.fit.items[100] = item(9, DRONE_BAY);
    sketch.fit.results = vec![Outcome::default(); 256];
    sketch.fit.results[100].state = ACTIVE;
    let (read, call) = match number % 6 < 3 {
        true => (listed(holder), Ask::List(Room::Exact)),
        false => (demanded(), Ask::Skill(result, Room::Exact)),
    };
    let mut values: Vec<(i32, u64)> = (0..ATTRIBUTES)
        .map(|place| (id_at(place), (place as f64).to_bits()))
        .collect();
    for (order, (names, value)) in read.iter().enumerate() {
        let place = PLACES[(order + turn) % PLACES.len()];
        values[place].1 = value.to_bits();
        sketch.catalogue.names.extend(names.iter().map(|name| Name {
            number: *name as u32,
            attribute: id_at(place),
        }));
    }
    outcome(&mut sketch.fit, result).attributes = values;
    let other = match call {
        Ask::List(_) => Ask::List(Room::OneShort),
        _ => Ask::Skill(result, Room::Longer(40)),
    };
    sketch.case("one result of 30,000 attributes", &[call, other])
}

fn id_at(place: usize) -> i32 {
    spread(place, ATTRIBUTES, 143_165)
}

fn item(type_id: i32, kind: u8) -> Item {
    Item {
        type_id,
        quantity: 1,
        kind,
        zero: 0,
        index: 0,
    }
}

/// Names that the list call reads of a result, and values that it shows or
/// that make it list an entry. Two names may have one attribute.
fn listed(holder: Holder) -> Vec<(Vec<usize>, f64)> {
    match holder {
        Holder::Ship => vec![
            (vec![LOADS], 11.0),
            (vec![LOADS + 1], 10.0),
            (vec![RACKS], 3.0),
        ],
        Holder::Character => vec![(vec![MAX_ACTIVE_DRONES], 0.5)],
        _ => vec![
            (vec![MAX_TYPE_FITTED], 7.0),
            (vec![VOLUME], 4000.0),
            (vec![GROUP_LIMITS], 6.0),
        ],
    }
}

/// Two skills at one level.
fn demanded() -> Vec<(Vec<usize>, f64)> {
    vec![
        (vec![REQUIRED], 3300.0),
        (vec![REQUIRED + 1, REQUIRED + 3], 4.0),
        (vec![REQUIRED + 2], 3301.0),
    ]
}

fn outcome(fit: &mut Fit, result: u32) -> &mut Outcome {
    match result {
        0 => &mut fit.ship,
        1 => &mut fit.character,
        _ => &mut fit.results[result as usize - 2],
    }
}
