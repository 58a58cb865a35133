//! League profiles and allowances at their corners.

use super::Make;
use crate::case::Case;
use crate::model::Damage;
use crate::profile::{BANNED, DEAREST, League, Profile};
use crate::sketch::*;

pub const CASES: &[Make] = &[
    || without(three(), 0, "no profile"),
    || without(three(), 1, "no profile, an allowance of 1"),
    || without(three(), u32::MAX, "no profile, the highest allowance"),
    || with(three(), &[], 0, "a profile of no groups"),
    || with(three(), &[(60, BANNED)], 0, "one group, banned"),
    || with(three(), &[(61, BANNED)], 0, "one group that is not fitted"),
    || with(three(), &[(60, 47), (464, 94)], 120, "141 points of 120"),
    || with(three(), &[(60, 47)], 94, "points at the allowance"),
    || with(three(), &[(60, 47)], 93, "points one above the allowance"),
    || with(three(), &[(60, 47)], 92, "points two above the allowance"),
    || with(three(), &[(60, 47)], 95, "points one below the allowance"),
    || with(three(), &[(60, 47)], 0, "an allowance of 0"),
    || with(three(), &[(60, 0)], 0, "points and allowance of 0"),
    || with(three(), &[(60, 47)], u32::MAX, "the highest allowance"),
    || with(three(), &[(60, DEAREST)], 1_999_999, "the dearest group"),
    || {
        with(
            three(),
            &[(60, 256), (464, 65_536)],
            66_047,
            "points over 16 bits",
        )
    },
    || with(three(), &[(60, 1), (464, BANNED)], 1, "a ban costs nothing"),
    || with(three(), &[(60, 1), (464, BANNED)], 0, "a ban and points"),
    || with(three(), &[(60, BANNED), (464, 1)], 0, "two bans and points"),
    || with(three(), &[(60, 5), (464, 5)], 256, "an allowance of 256"),
    || with(three(), &[(60, 5), (464, 5)], 65_536, "one of 65,536"),
    || {
        with(
            three(),
            &[(60, 5), (464, 5)],
            16_777_216,
            "one of 16,777,216",
        )
    },
    || {
        with(
            three(),
            &[(60, 5), (464, 5)],
            2_147_483_648,
            "one of 2,147,483,648",
        )
    },
    || {
        with(
            missing(),
            &[(0, BANNED)],
            0,
            "group 0 banned, a type missing",
        )
    },
    || with(missing(), &[(0, 3)], 2, "group 0 priced, a type missing"),
    || with(missing(), &[(1, 3)], 2, "group 1 priced, a type missing"),
    || {
        let sketch = Sketch::hull().known(5, 0, CATEGORY_MODULE);
        with(
            sketch.item(5, HIGH, 0),
            &[(0, BANNED)],
            0,
            "a type of group 0",
        )
    },
    || {
        with(
            everywhere(),
            &[(60, BANNED)],
            0,
            "a banned group everywhere",
        )
    },
    || with(everywhere(), &[(60, 7)], 41, "a priced group everywhere"),
    || with(unpaired(), &[(60, BANNED)], 0, "banned without a result"),
    || with(unpaired(), &[(60, 7)], 6, "priced without a result"),
    || with(quantities(), &[(60, 7)], 20, "quantities do not count"),
    || {
        with(
            quantities(),
            &[(60, BANNED)],
            0,
            "quantities of what is banned",
        )
    },
    || with(states(), &[(60, BANNED)], 0, "a ban in every state"),
    || with(states(), &[(60, 7)], 27, "points in every state"),
    || {
        let prices = [(5, BANNED), (7, BANNED), (60, 1), (464, 2)];
        with(three(), &prices, 3, "types and categories are no groups")
    },
    || with(three(), &[(25, BANNED)], 0, "the ship's own group banned"),
    || with(three(), &[(25, 9)], 8, "the ship's own group priced"),
    || {
        let sketch = Sketch::hull()
            .known(5, 9, CATEGORY_MODULE)
            .known(6, 3, CATEGORY_MODULE)
            .item(5, HIGH, 0)
            .item(6, HIGH, 0)
            .item(5, HIGH, 2)
            .item(7, HIGH, 3);
        with(sketch, &[(3, BANNED), (9, BANNED)], 0, "bans go by pair")
    },
    || {
        with(
            apart(),
            &APART.map(|id| (id, BANNED)),
            0,
            "groups far apart, banned",
        )
    },
    || {
        let prices = [0, 1, 2, 3, 4].map(|row| (APART[row], 1 << row));
        with(apart(), &prices, 30, "groups far apart, priced")
    },
    || with(apart(), &[(-8, BANNED), (-7, 5)], 4, "groups below zero"),
    || {
        let structure = Sketch::of(35_832, 1657, CATEGORY_STRUCTURE)
            .known(5, 60, CATEGORY_STRUCTURE_MODULE)
            .item(5, SERVICE, 0);
        with(structure, &[(60, BANNED)], 0, "a ban on a structure")
    },
    || with(no_hull(), &[(60, BANNED)], 0, "a profile on no hull"),
    || with(no_hull(), &[(60, 7)], 0, "points on no hull"),
    || {
        broken(
            no_hull(),
            "a profile one byte short on no hull",
            |profile| {
                profile.damage.cut = 1;
            },
        )
    },
    || {
        broken(no_hull(), "a profile out of order on no hull", |profile| {
            profile.prices.reverse();
        })
    },
    || {
        broken(three(), "a profile of 2 bytes", |profile| {
            profile.damage = Damage {
                cut: usize::MAX,
                extra: vec![0; 2],
                ..Damage::default()
            };
        })
    },
    || {
        broken(three(), "4,294,967,294 points", |profile| {
            profile.prices[1].points = BANNED - 1;
        })
    },
    || {
        broken(
            three(),
            "1,000,001 points and groups out of order",
            |profile| {
                profile.prices[0].points = 1_000_001;
                profile.prices.reverse();
            },
        )
    },
    || with(three(), &rows(4_096), 0, "4,096 groups"),
    || with(three(), &rows(4_097), 0, "4,097 groups"),
    || {
        let mut prices = rows(4_097);
        prices.reverse();
        with(three(), &prices, 0, "4,097 groups out of order")
    },
];

/// The sketch's list calls with a profile.
pub fn with(sketch: Sketch, prices: &[(i32, u32)], allowance: u32, title: &str) -> Case {
    Case {
        league: League::of(prices, allowance),
        ..sketch.list(title)
    }
}

/// The same without one.
fn without(sketch: Sketch, allowance: u32, title: &str) -> Case {
    Case {
        league: League {
            profile: None,
            allowance,
        },
        ..sketch.list(title)
    }
}

/// With a profile of two groups that is changed.
fn broken(sketch: Sketch, title: &str, change: fn(&mut Profile)) -> Case {
    let mut case = with(sketch, &[(60, 7), (464, BANNED)], 0, title);
    change(case.league.profile.as_mut().expect("it brings one"));
    case
}

/// Two modules of group 60 and one of group 464, fitted.
fn three() -> Sketch {
    Sketch::hull()
        .known(5, 60, CATEGORY_MODULE)
        .known(6, 464, CATEGORY_MODULE)
        .item(5, LOW, 0)
        .item(6, HIGH, 0)
        .item(5, LOW, 1)
}

/// Two pairs whose type the catalogue lacks.
fn missing() -> Sketch {
    Sketch::hull().item(5, HIGH, 0).item(6, CARGO, 0)
}

/// One item of a group in every kind of slot.
fn everywhere() -> Sketch {
    let mut sketch = Sketch::hull().known(5, 60, CATEGORY_MODULE);
    for kind in HIGH..=CARGO {
        sketch = sketch.item(5, kind, 0);
    }
    sketch
}

/// One pair, and two items without a result.
fn unpaired() -> Sketch {
    Sketch::hull()
        .known(5, 60, CATEGORY_MODULE)
        .known(6, 61, CATEGORY_MODULE)
        .item(6, HIGH, 0)
        .unpaired(5, HIGH, 1)
        .unpaired(5, CARGO, 0)
}

fn quantities() -> Sketch {
    let mut sketch = Sketch::hull().known(5, 60, CATEGORY_MODULE);
    for (index, quantity) in [0, 2, 4_294_967_295].into_iter().enumerate() {
        sketch = sketch.item(5, HIGH, index as u16).quantity(quantity);
    }
    sketch
}

fn states() -> Sketch {
    let mut sketch = Sketch::hull().known(5, 60, CATEGORY_MODULE);
    for state in OFFLINE..=OVERLOAD {
        sketch = sketch.item(5, RIG, state.into()).state(state);
    }
    sketch
}

/// The lowest group, and high ones.
const APART: [i32; 5] = [i32::MIN, -8, 2_000_000_000, 2_000_000_001, i32::MAX];

fn apart() -> Sketch {
    let mut sketch = Sketch::hull();
    for (number, group) in APART.into_iter().enumerate() {
        let type_id = 40 + number as i32;
        sketch = sketch
            .known(type_id, group, CATEGORY_MODULE)
            .item(type_id, HIGH, number as u16);
    }
    sketch
}

fn no_hull() -> Sketch {
    Sketch::of(30, 25, CATEGORY_MODULE)
        .known(5, 60, CATEGORY_MODULE)
        .item(5, HIGH, 0)
}

/// Groups from 0 on, the odd ones banned.
fn rows(count: i32) -> Vec<(i32, u32)> {
    let points = |group: i32| if group % 2 == 1 { BANNED } else { 3 };
    (0..count).map(|group| (group, points(group))).collect()
}
