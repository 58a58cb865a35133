//! Pages at their corners: each limit with as many pairs and wanted skills, one
//! more and one less; what no limit counts; and calls that differ in nothing
//! but their limits.

use super::chains::chain;
use crate::case::{Ask, Case, Growth, Room};
use crate::generate::growth;
use crate::model::{Item, Outcome, Skill};
use crate::names::{CAPACITY, REQUIRED};
use crate::page::Limits;
use crate::profile::{BANNED, League};
use crate::sketch::*;
use crate::tally::{pairs_beside, skills_beside};

/// The cases that are made by number: pairs beside a limit, skills beside a
/// limit at level 1 and at level 0, and the others.
pub fn count() -> usize {
    pairs_beside().len() + 2 * skills_beside().len() + OTHERS.len()
}

pub fn case(mut number: usize) -> Case {
    let pairs = pairs_beside();
    if let Some((limit, count)) = pairs.get(number) {
        return pairs_under(*limit, *count as usize);
    }
    number -= pairs.len();
    let skills = skills_beside();
    if let Some((limit, wanted)) = skills.get(number / 2) {
        return skills_under(*limit, *wanted, number % 2 == 0);
    }
    OTHERS[number - 2 * skills.len()]()
}

const OTHERS: &[fn() -> Case] = &[
    || under(items(256, 0), 0, 512, "256 items without results"),
    || under(items(0, 256), 0, 512, "256 results without items"),
    || under(items(66, 64), 64, 512, "66 items and 64 results"),
    || under(items(64, 66), 64, 512, "64 items and 66 results"),
    || under(items(66, 65), 64, 512, "66 items and 65 results"),
    || under(items(65, 66), 64, 512, "65 items and 66 results"),
    || {
        let sketch = cargo(Sketch::of(30, 25, CATEGORY_MODULE), 3);
        under(sketch, 2, 512, "three pairs on no hull")
    },
    || under(cargo(Sketch::hull(), 4), 3, 4, "four pairs of three"),
    || under(cargo(Sketch::hull(), 4), 4, 3, "four pairs of four"),
    || under(cargo(Sketch::hull(), 2), 65_536, 512, "a limit of 65,536"),
    || {
        let limit = 0x8000_0000;
        under(
            cargo(Sketch::hull(), 2),
            limit,
            limit,
            "limits over 31 bits",
        )
    },
    || wanting(three(), 256, 65_536, "a skill limit of 65,536"),
    || wanting(three(), 256, 65_538, "a skill limit of 65,538"),
    || wanting(three(), 256, 0x8000_0000, "a skill limit over 31 bits"),
    || wanting(three(), 256, 3, "three skills of three"),
    || wanting(three(), 256, 2, "three skills of two"),
    || wanting(three(), 2, 3, "the ship's skills and a limit for pairs"),
    || {
        let trained = three().skill(1, 5).skill(2, 5).skill(3, 5);
        wanting(trained, 256, 2, "three skills, all trained")
    },
    || {
        let trained = (10..90).fold(three(), |sketch, id| sketch.skill(id, 1));
        wanting(trained, 256, 64, "80 trained skills under a limit of 64")
    },
    || {
        let mut case = chain(1, 0.0);
        case.title = "a skill wanted at level 0 under a limit of 0".to_string();
        case.limits.skills = 0;
        case
    },
    || {
        let mut case = chain(65, 1.0);
        case.title = "a list whose ship wants 65 skills of 64".to_string();
        case.limits.skills = 64;
        case.asks = ROOMS.map(Ask::List).to_vec();
        case
    },
    || {
        let mut case = chain(600, 1.0);
        case.title = "600 skills under a limit of 600".to_string();
        case.limits.skills = 600;
        case
    },
    || one_of_three(0),
    || one_of_three(1),
    || one_of_three(2),
    || {
        let mut case = under(racks(), 3, 5, "a league on a smaller page");
        case.league = League::of(&[(60, 47), (464, BANNED)], 93);
        case
    },
    || {
        let mut case = under(racks(), 2, 5, "a league and a pair too many");
        case.league = League::of(&[(60, 47), (464, BANNED)], 93);
        case
    },
    || under(patched(), 4, 5, "missing types on a smaller page"),
    || under(patched(), 3, 5, "a pair too many, of a missing type"),
    || {
        let mut case = under(
            patched(),
            4,
            5,
            "a league and missing types on a smaller page",
        );
        case.league = League::of(&[(0, 47), (60, 47), (464, BANNED)], 93);
        case
    },
    || grown(Limits::of(3, 3), Limits::MAIN),
    || grown(Limits::MAIN, Limits::of(5, 3)),
    || grown(Limits::of(3, 3), Limits::of(5, 4)),
    || grown(Limits::of(3, 3), Limits::of(4, 3)),
    || grown(Limits::of(2, 3), Limits::MAIN),
    || grown(Limits::of(3, 2), Limits::MAIN),
];

/// So many pairs, and the list and the skills of the ship, the last pair and of
/// none under a limit.
fn pairs_under(limit: u32, count: usize) -> Case {
    let title = format!("{count} pairs under a limit of {limit}");
    let sketch = cargo(Sketch::hull(), count);
    under(sketch, limit, Limits::MAIN.skills, &title)
}

/// So many skills in a chain under a limit. At level 0 nothing is listed.
fn skills_under(limit: u32, wanted: u32, at_level: bool) -> Case {
    let level = if at_level { 1.0 } else { 0.0 };
    let mut case = match wanted {
        0 => Sketch::hull().skills("", 0),
        _ => chain(wanted as i32, level),
    };
    case.title = format!("{wanted} skills at level {level} under a limit of {limit}");
    case.limits.skills = limit;
    case
}

/// The list and skill calls of a sketch under limits.
fn under(sketch: Sketch, pairs: u32, skills: u32, title: &str) -> Case {
    let results = sketch.fit.results.len() as u32;
    let mut asks = ROOMS.map(Ask::List).to_vec();
    for result in [0, 1, results + 1, results + 2] {
        asks.push(Ask::Skill(result, Room::Longer(24)));
    }
    Case {
        limits: Limits { pairs, skills },
        ..sketch.case(title, &asks)
    }
}

/// The skills of the ship, with every kind of buffer, and the list.
fn wanting(sketch: Sketch, pairs: u32, skills: u32, title: &str) -> Case {
    let mut case = sketch.skills(title, 0);
    case.limits = Limits { pairs, skills };
    case.asks.push(Ask::List(Room::Exact));
    case
}

/// So many pairs, the modules among them fitted: every one breaks a rule.
fn cargo(sketch: Sketch, count: usize) -> Sketch {
    let mut sketch = sketch
        .known(5, 60, CATEGORY_CHARGE)
        .volume(1.0)
        .ship(CAPACITY, 0.0);
    for number in 0..count {
        let kind = [CARGO, HIGH, DRONE_BAY][number % 3];
        let index = if kind == HIGH { number / 3 } else { 0 };
        sketch = sketch.item(5, kind, index as u16);
    }
    sketch
}

/// So many items and so many results, whichever are more.
fn items(items: usize, results: usize) -> Sketch {
    let mut sketch = cargo(Sketch::hull(), items);
    sketch.fit.results = vec![Outcome::default(); results];
    sketch
}

/// Three modules of two groups, fitted.
fn racks() -> Sketch {
    Sketch::hull()
        .known(5, 60, CATEGORY_MODULE)
        .known(6, 464, CATEGORY_MODULE)
        .item(5, LOW, 0)
        .item(6, HIGH, 0)
        .item(5, LOW, 1)
}

/// The same, and one more whose type is missing.
fn patched() -> Sketch {
    racks().item(7, MEDIUM, 0)
}

/// A ship that demands skill 1, which demands 2 and 3, all at some level.
fn three() -> Sketch {
    Sketch::hull()
        .ship(REQUIRED, 1.0)
        .ship(REQUIRED + 1, 4.0)
        .base(1, REQUIRED, 2.0)
        .base(1, REQUIRED + 1, 1.0)
        .base(1, REQUIRED + 2, 3.0)
        .base(1, REQUIRED + 3, 2.0)
}

/// The ship wants one skill, the character two and an item three; two are
/// taken.
fn one_of_three(result: u32) -> Case {
    let mut sketch = Sketch::hull()
        .base(1, REQUIRED, 2.0)
        .base(1, REQUIRED + 1, 1.0)
        .base(3, REQUIRED, 1.0)
        .base(3, REQUIRED + 1, 1.0)
        .ship(REQUIRED, 2.0)
        .ship(REQUIRED + 1, 1.0)
        .character(REQUIRED, 1.0)
        .character(REQUIRED + 1, 1.0)
        .item(5, HIGH, 0);
    sketch = sketch.with(REQUIRED, 3.0).with(REQUIRED + 1, 1.0);
    let mut case = sketch.skills("three results that want one, two and three skills", result);
    case.limits.skills = 2;
    case
}

/// Three pairs that break rules, and two more behind them; the ship wants three
/// skills, whose levels fall.
fn grown(old: Limits, new: Limits) -> Case {
    let mut sketch = cargo(three(), 3).skill(2, 3).skill(3, 1);
    sketch.fit.skills.push(Skill { id: 1, level: 2 });
    let sketch = sketch.finish();
    let growth = Growth {
        items: vec![
            Item {
                type_id: 5,
                quantity: 2,
                kind: CARGO,
                ..Item::default()
            };
            2
        ],
        results: vec![Outcome::default(); 2],
        lowered: vec![1; 3],
        limits: new,
    };
    Case {
        limits: old,
        ..growth::grown(
            "two fits on two pages",
            sketch.catalogue,
            sketch.fit,
            growth,
        )
    }
}
