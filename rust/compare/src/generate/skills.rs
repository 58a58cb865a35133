//! Skills that demand skills: trees, rings, chains around the limit of 512.

use crate::case::{Ask, Case, Room};
use crate::model::{Base, Catalogue, Fit, Item, Name, Outcome, Skill};
use crate::names::REQUIRED;
use crate::numbers::{self, Width};
use crate::rng::Rng;

/// Attribute ids of the six pairs, in an order of their own.
const IDS: [(i32, i32); 6] = [
    (182, 277),
    (183, 278),
    (184, 279),
    (1285, 1286),
    (1289, 1287),
    (1290, 1288),
];

/// The names of the six pairs, each with its id.
fn names() -> Vec<Name> {
    IDS.iter()
        .enumerate()
        .flat_map(|(row, (skill, level))| {
            let number = (REQUIRED + 2 * row) as u32;
            [
                Name {
                    number,
                    attribute: *skill,
                },
                Name {
                    number: number + 1,
                    attribute: *level,
                },
            ]
        })
        .collect()
}

fn demand(bases: &mut Vec<Base>, type_id: i32, row: usize, skill: f32, level: Option<f32>) {
    bases.push(Base::single(type_id, IDS[row].0, skill));
    if let Some(level) = level {
        bases.push(Base::single(type_id, IDS[row].1, level));
    }
}

/// A random graph of skills, rings and self-demands included.
pub fn graph(rng: &mut Rng) -> Case {
    let count = rng.between(1, 60) as i32;
    let lowest = rng.pick(&[-20, 1, 3300]);
    let any = |rng: &mut Rng| lowest + rng.below(count as usize + 1) as i32;
    let mut bases = Vec::new();
    for number in 0..count {
        let id = lowest + number;
        for _ in 0..rng.below(4) {
            let row = rng.below(6);
            let skill = match rng.below(30) {
                0 => f32::from_bits(numbers::odd_single(rng)),
                1 => any(rng) as f32 + 0.5,
                _ => any(rng) as f32,
            };
            let level = match rng.below(12) {
                0 => Some(f32::from_bits(numbers::odd_single(rng))),
                1 => None,
                2 => Some(rng.pick(&[254.9, 255.0, 256.0, 300.0])),
                _ => Some(rng.between(0, 5) as f32),
            };
            demand(&mut bases, id, row, skill, level);
        }
    }
    rng.shuffle(&mut bases);
    if rng.chance(150) {
        refine(rng, &mut bases);
    }
    let results = rng.between(0, 5) as usize;
    let mut fit = Fit {
        ship: asking(rng, any),
        character: asking(rng, any),
        results: (0..results).map(|_| asking(rng, any)).collect(),
        items: vec![Item::default(); rng.below(results + 2)],
        ..Fit::default()
    };
    for id in lowest..=lowest + count {
        if rng.chance(500) {
            let level = if rng.chance(50) {
                rng.draw() as u8
            } else {
                rng.below(6) as u8
            };
            fit.skills.push(Skill { id, level });
        }
    }
    let mut names = names();
    while rng.chance(150) {
        names.remove(rng.below(names.len()));
    }
    finish("a graph of skills", names, bases, fit, rng)
}

/// Makes some values finer than an f32: most of them a step beside a whole
/// number, which an f32 rounds to it.
fn refine(rng: &mut Rng, bases: &mut [Base]) {
    for base in bases {
        let value = f64::from_bits(base.value);
        let finer = match rng.below(10) {
            0..=2 => value.next_down(),
            3 => value.next_up(),
            4 => 16_777_217.0,
            5 => value + 0.1,
            _ => value,
        };
        base.value = finer.to_bits();
    }
}

/// What one result asks for.
fn asking(rng: &mut Rng, any: impl Fn(&mut Rng) -> i32) -> Outcome {
    let mut attributes = Vec::new();
    for (skill, level) in IDS {
        if rng.chance(400) {
            let wanted = match rng.below(20) {
                0 => numbers::near_cast(rng, Width::I32),
                1 => (f64::from(any(rng)) + 0.5).to_bits(),
                _ => f64::from(any(rng)).to_bits(),
            };
            attributes.push((skill, wanted));
        }
        if rng.chance(400) {
            let wanted = match rng.below(6) {
                0 => numbers::near_cast(rng, Width::U8),
                _ => (rng.between(0, 6) as f64).to_bits(),
            };
            attributes.push((level, wanted));
        }
    }
    attributes.sort_by_key(|row| row.0);
    Outcome {
        attributes,
        ..Outcome::default()
    }
}

/// So many skills that one result reaches, in a chain, a ring or a tree, with
/// ids in any order.
pub fn reaching(rng: &mut Rng, count: usize) -> Case {
    let mut ids: Vec<i32> = (0..count as i32).map(|number| 3300 + 2 * number).collect();
    if rng.chance(700) {
        rng.shuffle(&mut ids);
    }
    let branches = rng.pick(&[1, 1, 2, 6]);
    let level = |rng: &mut Rng| match rng.below(8) {
        0 => None,
        1 => Some(0.0),
        _ => Some(rng.between(1, 5) as f32),
    };
    let mut bases = Vec::new();
    for place in 0..count {
        for branch in 0..branches {
            let child = branches * place + branch + 1;
            if child < count {
                let level = level(rng);
                demand(&mut bases, ids[place], branch, ids[child] as f32, level);
            }
        }
    }
    if branches == 1 && rng.chance(500) {
        let level = level(rng);
        demand(
            &mut bases,
            ids[count - 1],
            3,
            ids[rng.below(count)] as f32,
            level,
        );
    }
    let asking = Outcome {
        attributes: vec![
            (IDS[0].0, f64::from(ids[0]).to_bits()),
            (IDS[0].1, 3f64.to_bits()),
        ],
        ..Outcome::default()
    };
    let mut fit = Fit::default();
    match rng.below(3) {
        0 => fit.ship = asking,
        1 => fit.character = asking,
        _ => fit.results.push(asking),
    }
    for id in &ids {
        if rng.chance(300) {
            let level = rng.below(6) as u8;
            fit.skills.push(Skill { id: *id, level });
        }
    }
    fit.skills.sort_by_key(|skill| skill.id);
    finish("skills around the limit", names(), bases, fit, rng)
}

fn finish(title: &str, names: Vec<Name>, mut bases: Vec<Base>, fit: Fit, rng: &mut Rng) -> Case {
    bases.sort_by_key(|base| base.type_id);
    let results = fit.results.len() as u32;
    let mut asks = Vec::new();
    for result in 0..=results + 2 {
        asks.push(Ask::Skill(result, Room::Exact));
        asks.push(Ask::Skill(result, super::a_room(rng)));
        if rng.chance(200) {
            asks.push(Ask::Widen(Room::Exact));
            asks.push(Ask::WidenedSkill(result));
        }
    }
    Case {
        title: title.to_string(),
        catalogue: Catalogue {
            names,
            bases,
            ..Catalogue::default()
        },
        fits: vec![fit],
        asks,
        ..Case::default()
    }
}
