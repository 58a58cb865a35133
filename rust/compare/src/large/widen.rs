//! Old catalogues that are widened at full size and as long as they may be, and
//! the walks under them.

use super::{blocks, catalogue, skills};
use crate::case::{Ask, Case, Room};
use crate::model::Base;
use crate::names::REQUIRED;
use crate::sketch::{ROOMS, Sketch, id};

pub const COUNT: usize = 4;

pub fn case(number: usize) -> Case {
    match number {
        0 => full(),
        1 => longest(),
        2 => {
            let mut case = longest();
            case.title = "an old catalogue of 16,777,228 bytes".to_string();
            let last = *case.catalogue.bases.last().expect("a base");
            case.catalogue.bases.push(last);
            case
        }
        // As long in the new form as a catalogue may be.
        _ => {
            let mut case = blocks::bases(blocks::BASES);
            case.title = "widened to 16,777,216 bytes".to_string();
            let wide = |ask: &Ask| match *ask {
                Ask::Skill(result, _) => Some(Ask::WidenedSkill(result)),
                _ => None,
            };
            let under: Vec<Ask> = case.asks.iter().filter_map(wide).collect();
            case.asks = [vec![Ask::Widen(Room::Exact)], under].concat();
            case
        }
    }
}

/// The catalogue of full size, widened, and the skills under it.
fn full() -> Case {
    let mut case = skills::trained();
    case.title = "an old catalogue of full size".to_string();
    case.catalogue = catalogue::catalogue();
    let old = case.catalogue.old_image().len();
    let results = [0, 1, 2, 257];
    case.asks = [
        ROOMS.map(Ask::Widen).to_vec(),
        vec![Ask::Widen(Room::Of(old)), Ask::WidenedList],
        results.map(Ask::WidenedSkill).to_vec(),
    ]
    .concat();
    case
}

/// 16,777,216 bytes of the old form: 20 of sizes, two names, one type, one link
/// and 1,398,096 bases. The new form is longer than a catalogue may be, and is
/// written all the same.
fn longest() -> Case {
    let mut sketch = Sketch::hull()
        .ship(REQUIRED, 3300.0)
        .ship(REQUIRED + 1, 3.0)
        .link(1, 1);
    let base = |number: i32| Base::single(3300, number + 10_000, number as f32 + 0.5);
    sketch.catalogue.bases = (0..1_398_096).map(base).collect();
    sketch.catalogue.bases[1_398_095].attribute = id(REQUIRED);
    let asks = [
        Ask::Widen(Room::OneShort),
        Ask::Widen(Room::Exact),
        Ask::Widen(Room::Of(16_777_216)),
        Ask::WidenedSkill(0),
    ];
    sketch.case("an old catalogue of 16,777,216 bytes", &asks)
}

#[cfg(test)]
mod tests {
    use super::*;

    #[test]
    fn the_lengths_are_what_they_are_called() {
        let lengths = |number: usize| {
            let catalogue = case(number).catalogue;
            (catalogue.old_image().len(), catalogue.image().len())
        };
        assert_eq!(
            lengths(0).1,
            20 + 704 + 28_000 + 960_000 + 400_000 + 9_600_000
        );
        assert_eq!(lengths(1), (16_777_216, 22_369_600));
        assert_eq!(lengths(2).0, 16_777_228);
        assert_eq!(lengths(3).1, 16_777_216);
    }
}
