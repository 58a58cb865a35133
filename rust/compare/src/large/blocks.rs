//! Catalogues of 16,777,216 bytes that are nearly all types, all effects, all
//! links or all base values, with items and skills that ask for rows from the
//! first to the last of them.

use super::catalogue::spread;
use crate::case::{Ask, Case, Room};
use crate::model::{Base, Effect, Fit, Link, Type};
use crate::names::*;
use crate::sketch::*;

pub const COUNT: usize = 5;

pub fn case(number: usize) -> Case {
    match number {
        0 => types(),
        1 => effects(),
        2 => links(),
        3 => bases(BASES),
        // Two bases less, one type and one link more: 4 bytes below the limit.
        _ => {
            let mut case = bases(BASES - 2);
            case.title = "a catalogue of 16,777,212 bytes".to_string();
            let link = case.catalogue.links[0];
            case.catalogue.links.push(link);
            let last = case.catalogue.types[0];
            let id = last.id + 1;
            case.catalogue.types.push(Type { id, ..last });
            case
        }
    }
}

/// Rows on both sides of every width that a row's number could be cut to.
fn rows(count: usize) -> Vec<usize> {
    let mut rows: Vec<usize> = [6, 8, 12, 16, 20]
        .iter()
        .flat_map(|bits| [(1 << bits) - 1, 1 << bits, (1 << bits) + 1])
        .filter(|row| *row < count)
        .collect();
    rows.extend([0, count / 2, count - 2, count - 1]);
    rows
}

const HULL: usize = 2;

/// 838,859 types: of every item asked, its group and its id are shown.
fn types() -> Case {
    const TYPES: usize = 838_859;
    let id = |row: usize| spread(row, TYPES, 5_119);
    let mut sketch = Sketch::hull().name(GROUP_LIMITS).name(MAX_TYPE_FITTED);
    sketch.catalogue.types = (0..TYPES)
        .map(|row| Type {
            id: id(row),
            group: row as i32,
            category: if row == HULL {
                CATEGORY_SHIP
            } else {
                CATEGORY_MODULE
            },
            flag: 0,
            volume: 0,
        })
        .collect();
    sketch.fit.ship_type = id(HULL);
    for row in rows(TYPES) {
        sketch = sketch
            .item(id(row), HIGH, 0)
            .with(GROUP_LIMITS, 0.0)
            .with(MAX_TYPE_FITTED, 0.0);
    }
    largest("838,859 types", sketch, Ask::List)
}

/// As many effects as there is room for beside 17 types and their links.
fn effects() -> Case {
    const EFFECTS: usize = 2_097_091;
    let id = |row: usize| spread(row, EFFECTS, 2_047);
    let mut sketch = Sketch::hull();
    sketch.catalogue.effects = (0..EFFECTS)
        .map(|row| Effect {
            id: id(row),
            mark: 2 + row as u32 % 5,
        })
        .collect();
    let mut asked = rows(EFFECTS);
    asked.truncate(12);
    asked.extend([EFFECTS / 2, 1 << 20, EFFECTS - 2, EFFECTS - 1]);
    for (number, row) in asked.into_iter().enumerate() {
        let type_id = 1_000 + number as i32;
        sketch = sketch
            .known(type_id, 1, CATEGORY_MODULE)
            .link(type_id, id(row))
            .item(type_id, HIGH, 0);
    }
    largest("2,097,091 effects", sketch, Ask::List)
}

/// As many links as there is room for beside 17 types and nine effects.
fn links() -> Case {
    const LINKS: usize = 2_097_098;
    let mut sketch = Sketch::hull();
    sketch.catalogue.effects = (0..9)
        .map(|mark| Effect {
            id: mark as i32 - 4,
            mark,
        })
        .collect();
    // The ends of the types' rows: what counts is the last of each.
    let mut ends = rows(LINKS);
    ends.sort();
    ends.truncate(15);
    ends.push(LINKS - 1);
    let mut start = 0;
    for (number, end) in ends.into_iter().enumerate() {
        let type_id = 1_000 + number as i32;
        let others = (start..end).map(|_| Link {
            type_id,
            effect: -4,
        });
        sketch.catalogue.links.extend(others);
        sketch = sketch
            .link(type_id, number as i32 % 5 - 2)
            .known(type_id, 1, CATEGORY_MODULE)
            .item(type_id, HIGH, 0);
        start = end + 1;
    }
    largest("2,097,098 links", sketch, Ask::List)
}

/// As many base values as there is room for beside two names, one type and one
/// link.
pub const BASES: usize = 1_048_572;

/// Base values of many skills, each of which an item demands.
pub fn bases(count: usize) -> Case {
    let id = |row: usize| spread(row, count, 4_096);
    let mut sketch = Sketch::hull()
        .link(SHIP, 1)
        .name(REQUIRED)
        .name(REQUIRED + 1);
    let attribute = crate::sketch::id(REQUIRED);
    sketch.catalogue.bases = (0..count)
        .map(|row| Base::single(id(row), attribute, row as f32 % 1_000.0))
        .collect();
    let mut asked = rows(count);
    asked.sort();
    asked.dedup();
    sketch.fit = Fit {
        ship_type: SHIP,
        ..Fit::default()
    };
    for row in asked {
        sketch = sketch
            .item(1, CARGO, 0)
            .with(REQUIRED, f64::from(id(row)))
            .with(REQUIRED + 1, 1.0);
    }
    let results = sketch.fit.results.len() as u32;
    let asks: Vec<Ask> = (2..results + 2)
        .map(|result| Ask::Skill(result, Room::Exact))
        .collect();
    sketch.case("1,048,572 base values", &asks)
}

fn largest(title: &str, sketch: Sketch, ask: fn(Room) -> Ask) -> Case {
    sketch.case(title, &[ask(Room::Exact), ask(Room::OneShort)])
}

#[cfg(test)]
mod tests {
    use super::*;

    #[test]
    fn they_are_as_long_as_a_catalogue_may_be() {
        for number in 0..4 {
            let case = case(number);
            assert_eq!(case.catalogue.image().len(), 16_777_216, "{}", case.title);
        }
        assert_eq!(case(4).catalogue.image().len(), 16_777_212);
    }
}
