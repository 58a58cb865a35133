//! Cases that do not depend on the seed: document 01's examples and edges,
//! then each rule and each call at its corners. They come before the
//! generated cases, so their numbers stay.

mod cause;
mod chains;
mod document;
mod haul;
mod items;
mod league;
mod leave_out;
mod page;
mod reader;
mod resources;
mod slots;
mod tables;
mod train;
mod trim;
mod unknown;
mod widen;

use std::ops::Range;

use crate::case::{Case, Cause};
use crate::generate::plant::Calls;
use crate::generate::{hall, limits, plant, skills};
use crate::rng::Rng;

/// Makes one case.
pub type Make = fn() -> Case;

const TABLES: [&[Make]; 8] = [
    document::CASES,
    resources::CASES,
    slots::CASES,
    items::CASES,
    widen::CASES,
    league::CASES,
    unknown::CASES,
    chains::CASES,
];

/// NaN of every kind, -0, an infinity and the least number: bytes that a value made
/// anew would not all have.
const ODD_VALUES: [u64; 7] = [
    0x7FF8_0000_0000_0000,
    0xFFF8_0000_0000_0000,
    0x7FF0_0000_0000_0001,
    0xFFFF_FFFF_FFFF_FFFF,
    0x8000_0000_0000_0000,
    0x7FF0_0000_0000_0000,
    0x0000_0000_0000_0001,
];

/// The cases that a generator makes with numbers of its own: how many there
/// are, and how each is made.
type Row = (fn() -> usize, fn(usize) -> Case);

const MADE: [Row; 29] = [
    (plant::others, alone),
    (plant::other_pairs, together),
    (|| hall::CORNERS, hall::corner),
    (|| hall::UNEQUAL, hall::unequal),
    (
        || plant::widening().len(),
        |number| {
            let rng = &mut Rng::new(number as u64);
            let plant = plant::widening()[number];
            plant::widened(plant::alone(
                rng,
                plant::Ground::small(),
                plant,
                Calls::Lists,
            ))
        },
    ),
    (
        || plant::widening_pairs().len(),
        |number| {
            let pair = plant::widening_pairs()[number];
            let rng = &mut Rng::new(number as u64);
            let ground = plant::Ground::small();
            plant::widened(plant::together(rng, ground, pair, Calls::Lists))
        },
    ),
    (page::count, page::case),
    (|| tables::COUNT, tables::case),
    (
        || 5,
        |number| skills::reaching(&mut Rng::new(number as u64), 510 + number),
    ),
    (|| limits::FULL_SIZES, limits::one_full),
    (|| 1, |number| limits::full(&mut Rng::new(number as u64))),
    (
        || plant::untrained() - plant::others(),
        |number| alone(plant::others() + number),
    ),
    (
        || plant::pairs().len() - plant::other_pairs(),
        |number| together(plant::other_pairs() + number),
    ),
    (reader::count, reader::case),
    (|| haul::CASES.len(), |number| haul::CASES[number]()),
    (|| train::CASES.len(), |number| train::CASES[number]()),
    (
        || plant::training().len(),
        |number| planted(plant::training(), number, Calls::Trainings),
    ),
    (
        || plant::training_pairs().len(),
        |number| planted_two(plant::training_pairs(), number, Calls::Trainings),
    ),
    (|| trim::CASES.len(), |number| trim::CASES[number]()),
    (|| trim::STANDING, trim::standing),
    (
        || plant::trimming().len(),
        |number| planted(plant::trimming(), number, Calls::Trims),
    ),
    (
        || plant::trimming_pairs().len(),
        |number| planted_two(plant::trimming_pairs(), number, Calls::Trims),
    ),
    (|| cause::CASES.len(), |number| cause::CASES[number]()),
    (
        || plant::causing().len(),
        |number| planted(plant::causing(), number, Calls::Causes),
    ),
    (
        || plant::causing_pairs().len(),
        |number| planted_two(plant::causing_pairs(), number, Calls::Causes),
    ),
    (
        || leave_out::CASES.len(),
        |number| leave_out::CASES[number](),
    ),
    (
        || plant::leaving_out().len(),
        |number| planted(plant::leaving_out(), number, Calls::LeaveOuts),
    ),
    (
        || plant::leaving_out_pairs().len(),
        |number| planted_two(plant::leaving_out_pairs(), number, Calls::LeaveOuts),
    ),
    (|| limits::LENGTHS, limits::lengths),
];

/// A plant of a number, on the least that it can stand on.
fn alone(number: usize) -> Case {
    let rng = &mut Rng::new(number as u64);
    plant::alone(rng, plant::Ground::small(), number, Calls::Lists)
}

/// A pair of refusals of a number.
fn together(number: usize) -> Case {
    let rng = &mut Rng::new(number as u64);
    let pair = plant::pairs()[number];
    plant::together(rng, plant::Ground::small(), pair, Calls::Lists)
}

/// One of some plants, on the least that it can stand on.
fn planted(plants: Vec<usize>, number: usize, calls: Calls) -> Case {
    let rng = &mut Rng::new(number as u64);
    plant::alone(rng, plant::Ground::small(), plants[number], calls)
}

/// One of some pairs.
fn planted_two(pairs: Vec<(Cause, Cause)>, number: usize, calls: Calls) -> Case {
    let rng = &mut Rng::new(number as u64);
    plant::together(rng, plant::Ground::small(), pairs[number], calls)
}

/// The numbers of the cases written by hand, of those about skills among
/// them, and of the planted refusals, pairs of them, hall inputs and plants in
/// catalogues that are widened.
pub fn parts() -> [Range<usize>; 3] {
    let written: usize = TABLES.iter().map(|table| table.len()).sum();
    let made: usize = MADE[..6].iter().map(|(count, _)| count()).sum();
    [
        0..written,
        written - chains::CASES.len()..written,
        written..written + made,
    ]
}

/// How many of the fixed cases, the last ones, have catalogues of 16 MiB.
pub const LONG: usize = limits::LENGTHS;

/// How many fixed cases there are.
pub fn count() -> usize {
    let written: usize = TABLES.iter().map(|table| table.len()).sum();
    let made: usize = MADE.iter().map(|(count, _)| count()).sum();
    written + made
}

/// The fixed case of a number, if it is one.
pub fn case(mut number: usize) -> Option<Case> {
    for table in TABLES {
        match table.get(number) {
            Some(make) => return Some(make()),
            None => number -= table.len(),
        }
    }
    for (count, make) in MADE {
        match number < count() {
            true => return Some(make(number)),
            false => number -= count(),
        }
    }
    None
}
