//! Leagues at full size: 4,096 groups over the whole range of an i32, 256 pairs
//! at the most points that there are, 256 bans.

use super::catalogue::{catalogue, spread};
use super::fits;
use crate::case::{Ask, Case, Room};
use crate::profile::{BANNED, DEAREST, League, MOST_GROUPS};
use crate::sketch::*;

pub const COUNT: usize = 7;

pub fn case(number: usize) -> Case {
    let most = 256 * DEAREST;
    match number {
        0 => places(0),
        1 => places(1),
        2 => alike(DEAREST, most, "256 pairs of 1,000,000 points, all allowed"),
        3 => alike(
            DEAREST,
            most - 1,
            "256 pairs of 1,000,000 points, one too many",
        ),
        4 => alike(BANNED, 0, "256 bans"),
        5 => Case {
            title: "every rule broken by 256 pairs, and a league, at full size".to_string(),
            league: League::of(&of_the_catalogue(), 5_000),
            fits: vec![fits::every_rule(false)],
            ..longest()
        },
        _ => longest(),
    }
}

/// Groups of a profile that a pair asks for: both sides of every width that
/// a row's number could be cut to, and the ends.
const ROWS: [usize; 18] = [
    0, 1, 63, 64, 65, 127, 128, 255, 256, 257, 1_023, 1_024, 2_047, 2_048, 2_049, 3_000, 4_094,
    4_095,
];

fn group(row: usize) -> i32 {
    spread(row, MOST_GROUPS, 1_048_576)
}

/// Neighbours differ, and so do rows that are one where bits are cut off;
/// every third group is banned.
fn points(row: usize, banned: usize) -> u32 {
    match row % 3 == banned {
        true => BANNED,
        false => row as u32 * 211 + 7,
    }
}

/// A profile of 4,096 groups, with pairs of groups that are listed and of ones
/// that lie between.
fn places(banned: usize) -> Case {
    let mut sketch = Sketch::hull();
    for (number, row) in ROWS.into_iter().enumerate() {
        let (listed, between) = (1_000 + 2 * number as i32, 1_001 + 2 * number as i32);
        sketch = sketch
            .known(listed, group(row), CATEGORY_MODULE)
            .known(between, group(row).wrapping_add(1), CATEGORY_MODULE)
            .item(listed, HIGH, 2 * number as u16)
            .item(between, HIGH, 2 * number as u16 + 1);
    }
    let prices: Vec<(i32, u32)> = (0..MOST_GROUPS)
        .map(|row| (group(row), points(row, banned)))
        .collect();
    Case {
        league: League::of(&prices, 1_000),
        ..sketch.list("a profile of 4,096 groups over all ids")
    }
}

/// 256 fitted pairs of one group.
fn alike(points: u32, allowance: u32, title: &str) -> Case {
    let mut sketch = Sketch::hull().known(5, 60, CATEGORY_MODULE);
    for number in 0..256 {
        sketch = sketch.item(5, (number % 6) as u8, number / 6);
    }
    Case {
        league: League::of(&[(59, 1), (60, points), (61, 2)], allowance),
        ..sketch.list(title)
    }
}

/// The groups of the full catalogue, banned or priced in turn.
fn of_the_catalogue() -> Vec<(i32, u32)> {
    let points = |group: i32| match group.rem_euclid(3) {
        0 => BANNED,
        _ => 10 + group.unsigned_abs(),
    };
    (-500..500).map(|group| (group, points(group))).collect()
}

/// The longest list, with a ban on each of its pairs.
fn longest() -> Case {
    let prices: Vec<(i32, u32)> = (-500..500).map(|group| (group, BANNED)).collect();
    let rooms = [
        Room::Exact,
        Room::OneShort,
        Room::Of(135_695),
        Room::Of(135_696),
    ];
    Case {
        title: "the longest list of a league, at full size".to_string(),
        catalogue: catalogue(),
        fits: vec![fits::longest()],
        league: League::of(&prices, 0),
        asks: rooms.map(Ask::List).to_vec(),
        ..Case::default()
    }
}
