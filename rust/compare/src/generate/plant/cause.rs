//! Refusals 14 and 15, planted: positions beyond the list, and cargo whose volume cannot
//! be added. No plant brings about any other refusal.

use super::ground::Ground;
use super::table::Dig;
use crate::case::Position;
use crate::model::{Item, Outcome, Type};
use crate::sketch::{CARGO, CATEGORY_CHARGE};

/// Types that no ground has, below all others.
const STRANGER: i32 = i32::MIN + 77;
const BAD: i32 = i32::MIN + 78;

pub const BEYOND: &[(&str, Dig)] = &[
    ("the position behind the list", |g, _| {
        g.position = Position::Behind
    }),
    ("position 65,536", |g, _| g.position = Position::Of(65_536)),
    ("position 4,294,967,295", |g, _| {
        g.position = Position::Of(u32::MAX)
    }),
];

pub const VOLUMES: &[(&str, Dig)] = &[
    ("cargo of volume -1", |g, _| laden(g, -1.0, 1)),
    ("cargo of the least volume below 0", |g, _| {
        laden(g, -f32::from_bits(1), 1)
    }),
    ("cargo of an infinite volume", |g, _| {
        laden(g, f32::INFINITY, 1)
    }),
    ("cargo of minus an infinite volume", |g, _| {
        laden(g, f32::NEG_INFINITY, 1)
    }),
    ("cargo of volume NaN", |g, _| laden(g, f32::NAN, 1)),
    ("no piece of cargo of volume -2", |g, _| laden(g, -2.0, 0)),
];

/// Puts a pair of a missing type in front, so that the last entry is about a pair, which
/// is kept.
pub fn stranger(ground: &mut Ground) {
    put(ground, STRANGER, 1);
}

/// So much cargo of a volume.
fn laden(ground: &mut Ground, volume: f32, quantity: u32) {
    let row = Type {
        id: BAD,
        group: 1,
        category: CATEGORY_CHARGE,
        flag: 1,
        volume: volume.to_bits(),
    };
    ground.catalogue.types.insert(0, row);
    put(ground, BAD, quantity);
}

fn put(ground: &mut Ground, type_id: i32, quantity: u32) {
    let item = Item {
        type_id,
        quantity,
        kind: CARGO,
        zero: 0,
        index: 0,
    };
    ground.fit.items.insert(0, item);
    ground.fit.results.insert(0, Outcome::default());
}
