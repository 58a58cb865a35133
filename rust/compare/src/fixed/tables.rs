//! Every name of the tables that stand for one thing each, in one fit: what is
//! passed over or exchanged shows. And ids of which one is the lowest and the
//! others are high: a search that subtracts them goes astray.

use crate::case::{Ask, Case, Room};
use crate::model::Effect;
use crate::names::*;
use crate::sketch::*;

pub const COUNT: usize = 4;

pub fn case(number: usize) -> Case {
    match number {
        0 => restricted(),
        1 => racks(),
        2 => apart(),
        _ => skills_apart(),
    }
}

/// An item for each ship type and ship group that an item may name.
fn restricted() -> Case {
    let mut sketch = Sketch::hull().known(5, 1, CATEGORY_MODULE);
    for (index, name) in (SHIP_TYPES..VOLUME).enumerate() {
        sketch = sketch.item(5, HIGH, index as u16).with(name, 1.0);
    }
    sketch.list("every ship type and ship group")
}

/// Each rack and each hardpoint has another number of slots, and one item too
/// many.
fn racks() -> Case {
    let mut sketch = Sketch::hull();
    for rack in 0..6u8 {
        let type_id = 10 + i32::from(rack);
        sketch = sketch
            .known(type_id, 1, CATEGORY_MODULE)
            .ship(RACKS + usize::from(rack), f64::from(rack));
        for index in 0..=rack {
            sketch = sketch.item(type_id, rack, index.into());
        }
    }
    sketch
        .mark(12, 7)
        .ship(HARDPOINTS, 2.0)
        .mark(15, 8)
        .ship(HARDPOINTS + 1, 5.0)
        .list("every rack and hardpoint with a number of its own")
}

/// The lowest id, and high ones.
const APART: [i32; 5] = [
    i32::MIN,
    2_000_000_000,
    2_000_000_001,
    2_000_000_002,
    i32::MAX,
];

/// Types, effects and links: each item is marked for another rack.
fn apart() -> Case {
    let mut sketch = Sketch::hull();
    for (number, id) in APART.into_iter().enumerate() {
        let mark = number as u32 + 2;
        sketch.catalogue.effects.push(Effect { id, mark });
        sketch = sketch
            .known(id, 1, CATEGORY_MODULE)
            .link(id, id)
            .item(id, HIGH, number as u16);
    }
    sketch.list("types and effects far apart")
}

/// Skills, trained and demanded, and base values: each demands another one.
fn skills_apart() -> Case {
    let mut sketch = Sketch::hull().name(REQUIRED + 1).name(REQUIRED + 3);
    for (number, id) in APART.into_iter().enumerate() {
        sketch = sketch
            .base(id, REQUIRED, number as f32)
            .base(id, REQUIRED + 1, 2.0)
            .skill(id, 1)
            .result()
            .with(REQUIRED, f64::from(id))
            .with(REQUIRED + 1, 3.0);
    }
    let results = APART.len() as u32;
    let asks: Vec<Ask> = (2..results + 2)
        .map(|result| Ask::Skill(result, Room::Longer(40)))
        .collect();
    sketch.case("skills far apart", &asks)
}
