//! Missing types at full size: 256 pairs of them, ids between those of 48,000
//! types and at both ends of an i32, the longest list of all.

use super::catalogue::catalogue;
use super::fits;
use crate::case::{Ask, Case, Room};
use crate::model::Fit;
use crate::profile::{BANNED, League};
use crate::sketch::*;

pub const COUNT: usize = 6;

pub fn case(number: usize) -> Case {
    match number {
        0 => all().list("256 pairs of missing types"),
        1 => {
            let sketch = all().known(type_of(255), 60, CATEGORY_MODULE);
            sketch.list("256 pairs, of missing types but for the last")
        }
        2 => full(
            "types between those of the catalogue",
            beside_the_modules(1),
        ),
        3 => full(
            "types before those of the catalogue",
            beside_the_modules(-1),
        ),
        4 => without_the_ends(),
        _ => longest(),
    }
}

/// Ids that are no two alike, in no order, far from each other.
fn type_of(number: u16) -> i32 {
    i32::from(number).wrapping_mul(-1_640_531_527)
}

/// 256 pairs in every kind of slot.
fn all() -> Sketch {
    let mut sketch = Sketch::hull();
    for number in 0..256 {
        let kind = (number % 12) as u8;
        let index = match kind {
            FIGHTER_BAY | DRONE_BAY | CARGO => 0,
            _ => number / 12,
        };
        sketch = sketch.item(type_of(number), kind, index);
    }
    sketch
}

fn full(title: &str, fit: Fit) -> Case {
    Case {
        title: format!("{title}, at full size"),
        catalogue: catalogue(),
        fits: vec![fit],
        asks: ROOMS.map(Ask::List).to_vec(),
        ..Case::default()
    }
}

/// 256 modules, of which every third is of a type so far from its own.
fn beside_the_modules(step: i32) -> Fit {
    let mut fit = fits::clear(3);
    for item in fit.items.iter_mut().step_by(3) {
        item.type_id = item.type_id.wrapping_add(step);
    }
    fit
}

/// A catalogue without its first and its last type, and pairs of both: the
/// lowest and the highest id that there is.
fn without_the_ends() -> Case {
    let mut case = full("the first and the last type gone", fits::clear(0));
    case.catalogue.types.pop();
    case.catalogue.types.remove(0);
    case.fits[0].items[fits::PAIRS - 1].type_id = i32::MIN;
    case
}

/// The longest list, with its pairs' types taken out of the catalogue and
/// group 0 banned.
fn longest() -> Case {
    let fit = fits::longest();
    let mut made = catalogue();
    made.types
        .retain(|row| fit.items.iter().all(|item| item.type_id != row.id));
    let rooms = [
        Room::Exact,
        Room::OneShort,
        Room::Of(135_695),
        Room::Of(135_696),
    ];
    Case {
        title: "the longest list of missing types, at full size".to_string(),
        catalogue: made,
        fits: vec![fit],
        league: League::of(&[(0, BANNED)], 0),
        asks: rooms.map(Ask::List).to_vec(),
        ..Case::default()
    }
}
