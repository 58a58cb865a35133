//! Cases at the full limits: sizes of a fit, and catalogue lengths.

use super::fit::fit;
use super::world::{Style, World};
use crate::case::{Ask, Case, Room};
use crate::model::{Base, Fit, Item, Outcome, Skill, Type};
use crate::names::REQUIRED;
use crate::rng::Rng;
use crate::sketch::{ROOMS, Sketch, id};

/// A realistic fit with as many skills, items, results and attributes as may be.
pub fn full(rng: &mut Rng) -> Case {
    let style = Style::realistic(rng);
    let world = World::new(rng, style);
    let mut made = Fit::default();
    while made.items.len() < 256 || made.results.len() < 256 {
        let part = fit(rng, &world, style, 64);
        made.ship_type = part.ship_type;
        made.ship = part.ship;
        made.character = part.character;
        made.items.extend(part.items);
        made.results.extend(part.results);
    }
    made.items.truncate(256);
    made.results.truncate(256);
    for number in 0..1_024 {
        made.skills.push(Skill {
            id: 3_000 + 3 * number,
            level: rng.below(6) as u8,
        });
    }
    let mut last = 255;
    while made.attribute_total() < 30_000 {
        let missing = 30_000 - made.attribute_total();
        fill(&mut made.results[last], missing.min(120));
        last -= 1;
    }
    let asks = [
        Ask::List(Room::OneShort),
        Ask::List(Room::Exact),
        Ask::Skill(0, Room::Exact),
        Ask::Skill(257, Room::Exact),
        Ask::Skill(258, Room::Exact),
    ];
    Case {
        title: "every size of the fit at its limit".to_string(),
        catalogue: world.catalogue,
        fits: vec![made],
        asks: asks.to_vec(),
        ..Case::default()
    }
}

/// So many attributes more, behind those that are there.
fn fill(outcome: &mut Outcome, more: usize) {
    let first = outcome.attributes.last().map_or(0, |row| row.0).max(4_200);
    for number in 0..more {
        outcome.attributes.push((first + 1 + number as i32, 0));
    }
}

/// One size at its limit, the others small.
pub fn one_full(which: usize) -> Case {
    let mut sketch = Sketch::hull();
    match which {
        0 => sketch.fit.skills = (0..1_024).map(|id| Skill { id, level: 1 }).collect(),
        1 => {
            sketch.fit.items = vec![
                Item {
                    type_id: 5,
                    ..Item::default()
                };
                256
            ]
        }
        2 => sketch.fit.results = vec![Outcome::default(); 256],
        3 => fill(&mut sketch.fit.ship, 30_000),
        _ => {
            sketch.fit.results = vec![Outcome::default(); 256];
            fill(&mut sketch.fit.results[255], 30_000);
        }
    }
    sketch.list("one size at its limit")
}

/// How many cases of one full size there are.
pub const FULL_SIZES: usize = 5;

/// A catalogue of exactly 16,777,216 bytes: 20 of sizes, two names, one type,
/// one link and 1,048,572 bases, the last of which one skill demands.
fn largest() -> Case {
    let mut sketch = Sketch::hull()
        .ship(REQUIRED, 3300.0)
        .ship(REQUIRED + 1, 3.0)
        .link(1, 1);
    sketch.catalogue.bases = (0..1_048_572).map(far_base).collect();
    sketch.catalogue.bases[1_048_570].attribute = id(REQUIRED);
    sketch.catalogue.bases[1_048_571].attribute = id(REQUIRED + 1);
    sketch.skills("a catalogue of 16,777,216 bytes", 0)
}

/// Types 0 to 6 have one base each, skill 3300 all others.
fn far_base(number: i32) -> Base {
    let type_id = if number < 7 { number } else { 3300 };
    Base::single(type_id, number + 10_000, 9.0)
}

/// The catalogue's length at its limit and just over it.
pub fn lengths(which: usize) -> Case {
    let mut case = largest();
    match which {
        0 => {}
        1 => {
            case.title = "one byte behind 16,777,216".to_string();
            case.catalogue.damage.extra.push(0);
        }
        2 => {
            case.title = "a catalogue of 16,777,220 bytes, sizes right".to_string();
            // A base less and a type more.
            case.catalogue.bases.remove(0);
            let last = *case.catalogue.types.last().expect("the hull");
            let id = last.id + 1;
            case.catalogue.types.push(Type { id, ..last });
        }
        _ => {
            case.title = "the list call over 16,777,216 bytes".to_string();
            case.asks = ROOMS.map(Ask::List).to_vec();
        }
    }
    case
}

/// How many cases of catalogue lengths there are.
pub const LENGTHS: usize = 4;

#[cfg(test)]
mod tests {
    use super::*;

    #[test]
    fn the_lengths_are_what_they_are_called() {
        let length = |which: usize| lengths(which).catalogue.image().len();
        assert_eq!(length(0), 16_777_216);
        assert_eq!(length(1), 16_777_217);
        assert_eq!(length(2), 16_777_220);
    }

    #[test]
    fn a_full_fit_is_full() {
        let case = full(&mut Rng::new(1));
        let fit = &case.fits[0];
        assert_eq!(fit.skills.len(), 1_024);
        assert_eq!((fit.items.len(), fit.results.len()), (256, 256));
        assert_eq!(fit.attribute_total(), 30_000);
        assert_eq!(fit.image().len(), 36 + 5 * 1_024 + 16 * 256 + 12 * 30_000);
    }
}
