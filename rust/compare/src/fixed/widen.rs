//! Base values of f64, and old catalogues that are widened.

use super::Make;
use crate::case::{Ask, Case, Room};
use crate::model::Base;
use crate::names::*;
use crate::numbers::widened;
use crate::sketch::*;

pub const CASES: &[Make] = &[
    || fine("an id that an f32 rounds to another", 16_777_217.0, 3.0),
    || fine("an id just below a whole number", 8f64.next_down(), 3.0),
    || fine("a level just below a whole number", 8.0, 5f64.next_down()),
    || fine("a level just above one", 8.0, 4f64.next_up()),
    || fine("the id 0.1 below 2,147,483,647", 2_147_483_646.9, 3.0),
    || fine("an id beyond every f32", -1e300, 5e-324),
    || {
        Sketch::hull()
            .ship(REQUIRED, 7.0)
            .ship(REQUIRED + 1, 1.0)
            .base(7, REQUIRED, 8.0)
            .base(7, REQUIRED + 1, 2.0)
            .fine(7, VOLUME, 0.1)
            .skills("a finer value that no skill reads", 0)
    },
    every_class,
    || {
        let sketch = Sketch::hull().known(5, 1, CATEGORY_MODULE).mark(5, 2);
        wide("no base values", sketch.item(5, HIGH, 0))
    },
    || {
        let mut sketch = Sketch::hull()
            .ship(REQUIRED, 7.0)
            .ship(REQUIRED + 1, 1.0)
            .base(7, REQUIRED, 8.0)
            .base(7, REQUIRED + 1, 3.0)
            .base(8, REQUIRED, 7.0)
            .base(8, REQUIRED + 1, f32::NAN)
            .known(5, 1, CATEGORY_CHARGE)
            .volume(f32::from_bits(0x7FC0_0001))
            .item(5, CARGO, 0)
            .ship(CAPACITY, -1.0);
        // A volume that does not count has bits all the same.
        sketch.catalogue.types[0].volume = 0xFF80_0001;
        wide("volumes stay as they are", sketch)
    },
    || {
        let mut sketch = Sketch::hull().known(5, 1, CATEGORY_MODULE);
        for (number, id) in [i32::MIN, -1, 0, 1, i32::MAX].into_iter().enumerate() {
            sketch
                .catalogue
                .bases
                .push(Base::single(id, id, number as f32));
        }
        wide("attribute ids at both ends", sketch)
    },
];

/// Skill 7 demands another one, by values that may be finer than an f32.
fn fine(title: &str, id: f64, level: f64) -> Case {
    Sketch::hull()
        .ship(REQUIRED, 7.0)
        .ship(REQUIRED + 1, 1.0)
        .fine(7, REQUIRED, id)
        .fine(7, REQUIRED + 1, level)
        .skills(title, 0)
}

/// The f32 of every class, with more than one payload of each kind of NaN.
const SINGLES: [u32; 26] = [
    0x0000_0000,
    0x8000_0000,
    0x0000_0001,
    0x8000_0001,
    0x0000_0002,
    0x0034_5678,
    0x8040_0000,
    0x007F_FFFF,
    0x807F_FFFF,
    0x0080_0000,
    0x3F80_0000,
    0xC020_0000,
    0x4B7F_FFFF,
    0x7F7F_FFFF,
    0xFF7F_FFFF,
    0x7F80_0000,
    0xFF80_0000,
    0x7FC0_0000,
    0xFFC0_0000,
    0x7FC0_0001,
    0x7FED_CBA9,
    0xFFFF_FFFF,
    0x7F80_0001,
    0x7FBF_FFFF,
    0xFF80_0001,
    0xFFA0_0000,
];

/// Base values of every class: widened, and then read by a walk.
fn every_class() -> Case {
    let mut sketch = Sketch::hull().name(REQUIRED).name(REQUIRED + 1);
    for (number, single) in SINGLES.into_iter().enumerate() {
        let type_id = 100 + number as i32;
        let value = widened(single);
        for name in [REQUIRED, REQUIRED + 1] {
            sketch.catalogue.bases.push(Base {
                type_id,
                attribute: id(name),
                value,
            });
        }
        sketch = sketch
            .result()
            .with(REQUIRED, f64::from(type_id))
            .with(REQUIRED + 1, 1.0);
    }
    let mut case = wide("base values of every class", sketch);
    let results = SINGLES.len() as u32;
    case.asks.extend((2..results + 2).map(Ask::WidenedSkill));
    let rooms = (2..results + 2).map(|result| Ask::Skill(result, Room::Longer(40)));
    case.asks.extend(rooms);
    case
}

/// The old form widened with every kind of buffer, and the calls under it.
fn wide(title: &str, sketch: Sketch) -> Case {
    let mut case = sketch.case(title, &ROOMS.map(Ask::Widen));
    let old = case.catalogue.old_image().len();
    let new = case.catalogue.image().len();
    let rooms = [old, (old + new) / 2, 2 * new];
    case.asks
        .extend(rooms.map(|length| Ask::Widen(Room::Of(length))));
    case.asks.extend([Ask::WidenedList, Ask::WidenedSkill(0)]);
    case
}
