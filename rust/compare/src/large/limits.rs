//! Each size of a fit at its limit and one below it, where the last one
//! counts.

use super::catalogue::spread;
use crate::case::{Ask, Case};
use crate::model::{Outcome, Skill};
use crate::names::*;
use crate::sketch::*;
use crate::tally::size::{HELD, Part};

pub const COUNT: usize = HELD.len();

pub fn case(number: usize) -> Case {
    let (part, count) = HELD[number];
    let count = count as usize;
    let sketch = Sketch::hull()
        .known(5, 8, CATEGORY_MODULE)
        .name(REQUIRED)
        .name(REQUIRED + 1);
    match part {
        Part::Skills => skills(sketch, count),
        Part::Items => items(sketch, count),
        Part::Results => results(sketch, count),
        Part::Attributes => attributes(sketch, count),
    }
}

fn both_calls(sketch: Sketch, result: u32) -> Case {
    let lists = ROOMS.map(Ask::List);
    let skills = ROOMS.map(|room| Ask::Skill(result, room));
    sketch.case(
        "a size at its limit or one below",
        &[lists, skills].concat(),
    )
}

/// All are skills but the last, which the ship demands.
fn skills(mut sketch: Sketch, count: usize) -> Case {
    let id = |number| spread(number, count, 4_194_304);
    for number in 0..count - 1 {
        sketch = sketch.known(id(number), 255, CATEGORY_SKILL);
    }
    sketch.fit.skills = (0..count)
        .map(|number| Skill {
            id: id(number),
            level: 3,
        })
        .collect();
    let last = f64::from(id(count - 1));
    both_calls(sketch.ship(REQUIRED, last).ship(REQUIRED + 1, 4.0), 0)
}

/// All are modules but the last, and as many results as there may be.
fn items(mut sketch: Sketch, count: usize) -> Case {
    for number in 0..count - 1 {
        sketch = sketch.item(5, (number % 6) as u8, (number / 6) as u16);
    }
    sketch = sketch
        .item(6, HIGH, 255)
        .with(REQUIRED, 3300.0)
        .with(REQUIRED + 1, 1.0);
    sketch.fit.results.resize(256, Outcome::default());
    both_calls(sketch, count as u32 + 1)
}

/// More items than results: the last result still makes a pair.
fn results(mut sketch: Sketch, count: usize) -> Case {
    for number in 0..256 {
        sketch = sketch.unpaired(5, (number % 6) as u8, (number / 6) as u16);
    }
    sketch.fit.results = vec![Outcome::default(); count];
    let sketch = sketch
        .with(MAX_TYPE_FITTED, 9.0)
        .with(REQUIRED, 3300.0)
        .with(REQUIRED + 1, 1.0);
    both_calls(sketch, count as u32 + 1)
}

/// Spread over 256 results; the very last is a limit that is broken.
fn attributes(mut sketch: Sketch, count: usize) -> Case {
    for number in 0..256 {
        sketch = sketch.item(5, (number % 6) as u8, (number / 6) as u16);
    }
    sketch = sketch
        .with(REQUIRED, 3300.0)
        .with(REQUIRED + 1, 1.0)
        .with(MAX_TYPE_FITTED, 9.0);
    let mut missing = count - sketch.fit.attribute_total();
    for (place, result) in sketch.fit.results.iter_mut().enumerate() {
        let more = missing / (256 - place);
        missing -= more;
        let unread = (0..more as i32).map(|number| (number - 60, 1f64.to_bits()));
        result.attributes.extend(unread);
    }
    both_calls(sketch, 257)
}
