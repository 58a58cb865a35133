//! The skill walk at its corners, chains up to its limit, and result numbers.

use super::Make;
use crate::case::{Ask, Case};
use crate::model::{Base, Skill};
use crate::names::*;
use crate::sketch::*;

pub const CASES: &[Make] = &[
    || {
        Sketch::hull()
            .ship(REQUIRED, 3300.0)
            .ship(REQUIRED + 1, 3.0)
            .skill(3300, 2)
            .skills("a skill one level short", 0)
    },
    || {
        Sketch::hull()
            .ship(REQUIRED, 3300.0)
            .ship(REQUIRED + 1, 3.0)
            .skill(3300, 3)
            .skills("a skill at its level", 0)
    },
    || {
        Sketch::hull()
            .ship(REQUIRED, 3300.0)
            .ship(REQUIRED + 1, 0.0)
            .skills("a skill wanted at level 0", 0)
    },
    || {
        Sketch::hull()
            .ship(REQUIRED, 3300.0)
            .name(REQUIRED + 1)
            .base(3300, REQUIRED, 3301.0)
            .base(3300, REQUIRED + 1, 1.0)
            .skills("a skill without level that demands another", 0)
    },
    || {
        Sketch::hull()
            .ship(REQUIRED, 3300.0)
            .base(3300, REQUIRED + 2, 3301.0)
            .base(3300, REQUIRED + 3, 5.0)
            .skills("a demand whose level has no id", 0)
    },
    || {
        Sketch::hull()
            .ship(REQUIRED + 1, 5.0)
            .ship(REQUIRED, 3300.0)
            .nameless(REQUIRED)
            .skills("a demand whose skill has no id", 0)
    },
    || {
        let mut sketch = Sketch::hull();
        for row in 0..6 {
            sketch = sketch
                .ship(REQUIRED + 2 * row, 3306.0 - row as f64)
                .ship(REQUIRED + 2 * row + 1, row as f64 + 1.0);
        }
        sketch.skills("six demands, ids falling", 0)
    },
    || {
        Sketch::hull()
            .ship(REQUIRED, 3300.0)
            .ship(REQUIRED + 1, 5.0)
            .ship(REQUIRED + 2, 3300.0)
            .ship(REQUIRED + 3, 2.0)
            .skills("one skill demanded twice, high then low", 0)
    },
    || {
        Sketch::hull()
            .ship(REQUIRED, 3300.0)
            .ship(REQUIRED + 1, 2.0)
            .ship(REQUIRED + 2, 3300.0)
            .ship(REQUIRED + 3, 5.0)
            .skills("one skill demanded twice, low then high", 0)
    },
    || {
        Sketch::hull()
            .ship(REQUIRED, 1.0)
            .ship(REQUIRED + 1, 1.0)
            .base(1, REQUIRED, 2.0)
            .base(1, REQUIRED + 1, 1.0)
            .base(2, REQUIRED, 3.0)
            .base(2, REQUIRED + 1, 1.0)
            .base(3, REQUIRED, 4.0)
            .base(3, REQUIRED + 1, 1.0)
            .skills("a chain of four", 0)
    },
    || {
        Sketch::hull()
            .ship(REQUIRED, 1.0)
            .ship(REQUIRED + 1, 2.0)
            .base(1, REQUIRED, 1.0)
            .base(1, REQUIRED + 1, 5.0)
            .skills("a skill that demands itself", 0)
    },
    || {
        Sketch::hull()
            .ship(REQUIRED, 1.0)
            .name(REQUIRED + 1)
            .base(1, REQUIRED, 2.0)
            .base(1, REQUIRED, 3.0)
            .base(1, REQUIRED + 1, 4.0)
            .base(1, REQUIRED + 1, 5.0)
            .skills("base values twice, the first counts", 0)
    },
    || level(f64::NAN),
    || level(-1.0),
    || level(255.9),
    || level(256.0),
    || level(257.0),
    || level(0.9),
    || level(f64::INFINITY),
    || wanted(f64::NAN),
    || wanted(2_147_483_648.0),
    || wanted(2_147_483_646.9),
    || wanted(f64::NEG_INFINITY),
    || wanted(-2_147_483_647.9),
    || wanted(-0.5),
    || wanted(7.5),
    || {
        Sketch::hull()
            .ship(REQUIRED, 7.0)
            .ship(REQUIRED + 1, 1.0)
            .base(7, REQUIRED, 16_777_217.0)
            .base(7, REQUIRED + 1, f32::NAN)
            .base(7, REQUIRED + 2, 8.5)
            .base(7, REQUIRED + 3, 300.0)
            .base(7, REQUIRED + 4, f32::INFINITY)
            .base(7, REQUIRED + 5, 0.5)
            .skills("base values at the edges of their casts", 0)
    },
    || everyone(0),
    || everyone(1),
    || everyone(2),
    || everyone(3),
    || everyone(4),
    || everyone(5),
    || everyone(u32::MAX),
    || {
        let mut sketch = Sketch::of(30, 25, CATEGORY_MODULE);
        sketch = sketch.ship(REQUIRED, 7.0).ship(REQUIRED + 1, 1.0);
        sketch.skills("the skill call on no hull", 0)
    },
    || {
        Sketch::hull()
            .known(5, 1, CATEGORY_CHARGE)
            .item(5, CARGO, 0)
            .with(REQUIRED, 7.0)
            .with(REQUIRED + 1, 1.0)
            .skills("the skills of cargo", 2)
    },
    || bare_chain(512),
    || bare_chain(513),
    || chain(510, 1.0),
    || chain(511, 1.0),
    || chain(512, 1.0),
    || chain(513, 1.0),
    || chain(514, 1.0),
    || chain(513, 0.0),
    || chain(512, 0.0),
    || {
        let mut case = chain(513, 1.0);
        for id in 0..512 {
            let id = 3300 + id;
            case.fits[0].skills.push(Skill { id, level: 5 });
        }
        case
    },
];

fn level(level: f64) -> Case {
    Sketch::hull()
        .ship(REQUIRED, 7.0)
        .ship(REQUIRED + 1, level)
        .skill(7, 0)
        .skills("a level at the edge of its cast", 0)
}

fn wanted(id: f64) -> Case {
    Sketch::hull()
        .ship(REQUIRED, id)
        .ship(REQUIRED + 1, 1.0)
        .skills("a skill's id at the edge of its cast", 0)
}

/// Ship, character, one pair and one result without an item all demand.
fn everyone(result: u32) -> Case {
    Sketch::hull()
        .ship(REQUIRED, 1.0)
        .ship(REQUIRED + 1, 1.0)
        .character(REQUIRED, 2.0)
        .character(REQUIRED + 1, 2.0)
        .item(5, HIGH, 0)
        .with(REQUIRED, 3.0)
        .with(REQUIRED + 1, 3.0)
        .result()
        .with(REQUIRED, 4.0)
        .with(REQUIRED + 1, 4.0)
        .skills("every result demands", result)
}

/// The same without any level, so that the image is short.
fn bare_chain(length: i32) -> Case {
    let mut case = chain(length, 0.0);
    let level = id(REQUIRED + 1);
    case.catalogue.bases.retain(|base| base.attribute != level);
    case.fits[0].ship.attributes.retain(|row| row.0 != level);
    // The last one is wanted at level 5.
    let last = Base::single(3300 + length - 2, level, 5.0);
    case.catalogue.bases.push(last);
    case
}

/// Skills from 3300 on, each demanding the next, so many in all.
pub fn chain(length: i32, level: f32) -> Case {
    let mut sketch = Sketch::hull()
        .ship(REQUIRED, 3300.0)
        .ship(REQUIRED + 1, f64::from(level));
    for number in 0..length - 1 {
        let id = 3300 + number;
        sketch = sketch
            .base(id, REQUIRED, (id + 1) as f32)
            .base(id, REQUIRED + 1, level);
    }
    let asks = ROOMS.map(|room| Ask::Skill(0, room));
    sketch.case("a chain of skills", &asks)
}
