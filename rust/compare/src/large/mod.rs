//! Cases at full size: the catalogue as large as the game's data and as large
//! as it may be, fits and halls that hold as much as they may, the longest
//! list, results of 30,000 attributes, ids over the whole range of an i32.
//!
//! They do not depend on the seed. [`drawn`] makes more that do.

mod blocks;
mod catalogue;
mod cause;
pub mod drawn;
mod fits;
mod halls;
mod league;
mod leave_out;
mod limits;
mod places;
mod skills;
mod train;
mod trim;
mod unknown;
mod widen;

use crate::case::{Ask, Case, Room};
use crate::model::Fit;
use crate::sketch::ROOMS;
use crate::tally::size::LIST_BUFFERS;

/// How many cases of a kind there are, and how each is made. Those that take
/// longest come last: a fault that another case shows need not wait for them.
type Row = (usize, fn(usize) -> Case);

const ROWS: [Row; 15] = [
    (limits::COUNT, limits::case),
    (places::COUNT, places::case),
    (2, |number| match number {
        0 => full("256 modules, all in order", fits::clear(0), lists()),
        _ => full("256 modules, the last unknown", fits::faulted(0), lists()),
    }),
    (2, |number| {
        let fit = fits::every_rule(number == 1);
        full("every rule broken by 256 pairs", fit, lists())
    }),
    (2, |number| [skills::trained, skills::untrained][number]()),
    (1, |_| {
        full("the longest list", fits::longest(), every_buffer())
    }),
    (league::COUNT, league::case),
    (unknown::COUNT, unknown::case),
    (blocks::COUNT, blocks::case),
    (halls::COUNT, halls::case),
    (widen::COUNT, widen::case),
    (train::COUNT, train::case),
    (trim::COUNT, trim::case),
    (cause::COUNT, cause::case),
    (leave_out::COUNT, leave_out::case),
];

/// How many large cases there are.
pub fn count() -> usize {
    ROWS.iter().map(|(count, _)| count).sum()
}

/// The large case of a number, if there is one.
pub fn case(mut number: usize) -> Option<Case> {
    for (count, make) in ROWS {
        match number < count {
            true => return Some(make(number)),
            false => number -= count,
        }
    }
    None
}

fn full(title: &str, fit: Fit, asks: Vec<Ask>) -> Case {
    Case {
        title: format!("{title}, at full size"),
        catalogue: catalogue::catalogue(),
        fits: vec![fit],
        asks,
        ..Case::default()
    }
}

fn lists() -> Vec<Ask> {
    ROOMS.map(Ask::List).to_vec()
}

fn every_buffer() -> Vec<Ask> {
    let lengths = LIST_BUFFERS.map(|length| Ask::List(Room::Of(length as usize)));
    [lists(), lengths.to_vec()].concat()
}
