//! Document 02's P1 on every checker: the catalogue that one fit touches. Expected
//! bytes are worked out from the documents.

use crate::common::checkers;
use compare::case::{Ask, Case, Room};
use compare::checker::{Checker, Terms, refused};
use compare::model::{Base, Catalogue};
use compare::names::{CAPACITY, REQUIRED, RIG_SIZE};
use compare::reference::Original;
use compare::run::{Readers, Stage};
use compare::sketch::{CARGO, CATEGORY_MODULE, HIGH, SHIP, Sketch, id};
use compare::tally::Zeros;

/// What every checker leaves of a sketch's catalogue.
fn assert_trimmed(sketch: &Sketch, expected: &Catalogue) {
    let sketch = sketch.clone().finish();
    let expected = expected.image();
    let (catalogue, fit) = (sketch.catalogue.image(), sketch.fit.image());
    for (name, checker) in checkers() {
        // Of the whole catalogue, and of what is left of it.
        for catalogue in [&catalogue, &expected] {
            let mut out = vec![0xC3; expected.len() + 9];
            let word = checker.trim(catalogue, &fit, &mut out);
            assert_eq!(word, expected.len() as u64, "{name}");
            assert_eq!(out[..expected.len()], expected, "{name}");
            assert_eq!(out[expected.len()..], [0xC3; 9], "{name}");
        }
    }
}

/// What every checker refuses, with a buffer of so many bytes.
fn assert_refused(sketch: &Sketch, room: usize, refusal: u8) {
    let sketch = sketch.clone().finish();
    let (catalogue, fit) = (sketch.catalogue.image(), sketch.fit.image());
    for (name, checker) in checkers() {
        let mut out = vec![0xC3; room];
        let word = checker.trim(&catalogue, &fit, &mut out);
        assert_eq!(word, refused(refusal), "{name}");
        assert!(out.iter().all(|byte| *byte == 0xC3), "{name}");
    }
}

/// The records of a sketch's catalogue under some ids.
fn under(sketch: &Sketch, ids: &[i32]) -> Catalogue {
    let mut kept = sketch.clone().finish().catalogue;
    kept.types.retain(|row| ids.contains(&row.id));
    kept.links.retain(|row| ids.contains(&row.type_id));
    kept.bases.retain(|row| ids.contains(&row.type_id));
    kept
}

/// Types 1 to 9, each with two links and two base values, and no type of 5 and 6.
fn nine() -> Sketch {
    let mut sketch = Sketch::hull().name(REQUIRED).name(REQUIRED + 1);
    for type_id in 1..10 {
        if ![5, 6].contains(&type_id) {
            sketch = sketch.known(type_id, 3, CATEGORY_MODULE);
        }
        sketch = sketch
            .mark(type_id, 2)
            .link(type_id, -4)
            .base(type_id, RIG_SIZE, 2.0)
            .base(type_id, CAPACITY, 1.0);
    }
    sketch
}

/// "The types that the fit names (ship, mode where its flag is 1, listed skills,
/// items)."
#[test]
fn the_types_that_the_fit_names_are_kept() {
    let sketch = nine();
    assert_trimmed(&sketch, &under(&sketch, &[SHIP]));
    for (named, id) in [
        (sketch.clone().mode(3), 3),
        (sketch.clone().skill(5, 0), 5),
        (sketch.clone().item(7, HIGH, 0), 7),
        (sketch.clone().unpaired(8, CARGO, 0), 8),
        (sketch.clone().unpaired(6, HIGH, 0).quantity(0), 6),
    ] {
        assert_trimmed(&named, &under(&named, &[SHIP, id]));
    }
    let mut gone = sketch;
    gone.fit.ship_type = 99;
    assert_trimmed(&gone, &under(&gone, &[]));
}

#[test]
fn mode_0_is_an_id_under_flag_1_alone() {
    let sketch = nine().known(0, 1, 1).base(0, CAPACITY, 7.0);
    assert_trimmed(&sketch, &under(&sketch, &[SHIP]));
    assert_trimmed(&sketch.clone().mode(0), &under(&sketch, &[SHIP, 0]));
}

/// "Every skill wanted by any of its results": at level 0 too, by way of another
/// skill, and by a result that has no item.
#[test]
fn what_any_result_wants_is_kept() {
    let sketch = nine()
        .base(1, REQUIRED, 6.0)
        .base(6, REQUIRED, 2.0)
        .base(2, REQUIRED, 1.0)
        .base(2, REQUIRED + 1, 5.0);
    let ids = [SHIP, 1, 2, 6];
    assert_trimmed(&sketch.clone().ship(REQUIRED, 1.0), &under(&sketch, &ids));
    let character = sketch.clone().character(REQUIRED, 6.0);
    assert_trimmed(&character, &under(&sketch, &ids));
    let alone = sketch.clone().result().result().with(REQUIRED, 2.0);
    assert_trimmed(&alone, &under(&sketch, &ids));
    // A pair counts where both names have ids.
    let nameless = sketch.ship(REQUIRED, 1.0).nameless(REQUIRED + 1);
    assert_trimmed(&nameless, &under(&nameless, &[SHIP]));
}

/// A skill is wanted by results, whatever the types of the fit demand.
#[test]
fn what_a_type_demands_is_not_wanted() {
    let sketch = [SHIP, 1, 2, 3, 4].into_iter().fold(nine(), |sketch, id| {
        sketch.base(id, REQUIRED, 9.0).base(id, REQUIRED + 1, 1.0)
    });
    let fit = sketch.mode(1).skill(2, 5).item(3, HIGH, 0);
    let fit = fit.with(REQUIRED, 7.0).unpaired(4, CARGO, 0);
    assert_trimmed(&fit, &under(&fit, &[SHIP, 1, 2, 3, 4, 7]));
    // Skill 7 is wanted, and then what it demands is.
    let fit = fit.base(7, REQUIRED, 9.0);
    assert_trimmed(&fit, &under(&fit, &[SHIP, 1, 2, 3, 4, 7, 9]));
}

/// "All links and bases under those ids in their old order", whether the id has a
/// type or not, and as the bytes that they are.
#[test]
fn records_are_copied_in_their_old_order() {
    let mut sketch = nine().skill(5, 1).skill(6, 1);
    for (number, value) in [
        0x7FF0_0000_0000_0001,
        0xFFFF_FFFF_FFFF_FFFF,
        1 << 63,
        0x3FB9_9999_9999_999A,
    ]
    .into_iter()
    .enumerate()
    {
        let base = Base {
            type_id: 5,
            attribute: 30 - number as i32 / 2,
            value,
        };
        sketch.catalogue.bases.push(base);
    }
    let ship = &mut sketch.catalogue.types[0];
    (ship.flag, ship.volume) = (0, 0xFFC0_0001);
    assert_trimmed(&sketch, &under(&sketch, &[SHIP, 5, 6]));
    let gone = sketch.item(4, CARGO, 0);
    let mut expected = under(&gone, &[SHIP, 4, 5, 6]);
    assert_eq!(expected.types.remove(0).id, 4);
    let mut missing = gone;
    missing.catalogue.types.retain(|row| row.id != 4);
    assert_trimmed(&missing, &expected);
}

#[test]
fn names_and_effects_stay_whole() {
    let empty = Sketch {
        catalogue: Catalogue::default(),
        ..Sketch::hull()
    };
    assert_trimmed(&empty, &Catalogue::default());
    let sketch = nine().name(CAPACITY);
    let trimmed = under(&sketch, &[SHIP]);
    assert_eq!((trimmed.names.len(), trimmed.effects.len()), (4, 1));
    assert_trimmed(&sketch, &trimmed);
}

/// "10 means a buffer shorter than the trimmed catalogue."
#[test]
fn the_buffer_is_judged_by_what_is_left() {
    let sketch = nine().skill(5, 1);
    let needed = under(&sketch, &[SHIP, 5]).image().len();
    for room in [0, 19, 20, needed - 1] {
        assert_refused(&sketch, room, 10);
    }
}

/// So many skills, which a result of a number wants.
fn walking(length: i32, result: usize) -> Sketch {
    let mut sketch = nine().item(1, HIGH, 0).result();
    for skill in 1_000..1_000 + length - 1 {
        sketch = sketch.base(skill, REQUIRED, skill as f32 + 1.0);
    }
    let outcome = match result {
        0 => &mut sketch.fit.ship,
        1 => &mut sketch.fit.character,
        _ => &mut sketch.fit.results[result - 2],
    };
    outcome.attributes.push((id(REQUIRED), 1000f64.to_bits()));
    sketch
}

/// "A fit with a refused walk is refused likewise", whichever result it is of.
#[test]
fn a_walk_over_512_skills_is_9_for_any_result() {
    for result in 0..4 {
        let longest = walking(512, result);
        let kept = (1_000..1_512).chain([SHIP, 1]).collect::<Vec<_>>();
        assert_trimmed(&longest, &under(&longest, &kept));
        let length = longest.finish().catalogue.image().len();
        for room in [0, 2 * length] {
            assert_refused(&walking(513, result), room, 9);
        }
    }
}

#[test]
fn refusals_of_images_come_first() {
    let mut broken = walking(513, 0);
    broken.fit.results[0].state = 4;
    assert_refused(&broken, 0, 6);
    broken.fit.skills = broken.clone().skill(9, 1).skill(9, 1).fit.skills;
    assert_refused(&broken, 0, 5);
    broken.fit.damage.cut = 1;
    assert_refused(&broken, 0, 4);
    broken.catalogue.damage.cut = 1;
    assert_refused(&broken, 999, 1);
}

/// A checker that trims as the reference does, and then forgets what it read, or
/// makes another catalogue of a trimmed one.
struct Forgetful {
    /// Under a catalogue of fewer bytes the list is empty, or the skills are.
    list: usize,
    skill: usize,
    /// One of fewer bytes is not trimmed.
    trim: usize,
}

impl Checker for Forgetful {
    fn list(&self, catalogue: &[u8], fit: &[u8], terms: Terms, out: &mut [u8]) -> u64 {
        match catalogue.len() < self.list {
            true => 0,
            false => Original.list(catalogue, fit, terms, out),
        }
    }

    fn skill(
        &self,
        catalogue: &[u8],
        fit: &[u8],
        result: u32,
        terms: Terms,
        out: &mut [u8],
    ) -> u64 {
        match catalogue.len() < self.skill {
            true => 0,
            false => Original.skill(catalogue, fit, result, terms, out),
        }
    }

    fn hall(&self, catalogue: &[u8], input: &[u8]) -> u64 {
        Original.hall(catalogue, input)
    }

    fn widen(&self, old: &[u8], out: &mut [u8]) -> u64 {
        Original.widen(old, out)
    }

    fn train(&self, catalogue: &[u8], fit: &[u8], result: u32, steps: u32, out: &mut [u8]) -> u64 {
        Original.train(catalogue, fit, result, steps, out)
    }

    fn trim(&self, catalogue: &[u8], fit: &[u8], out: &mut [u8]) -> u64 {
        match catalogue.len() < self.trim {
            true => Original.trim(&[0; 20], fit, out),
            false => Original.trim(catalogue, fit, out),
        }
    }

    fn leave_out(&self, catalogue: &[u8], fit: &[u8], budget: u32, out: &mut [u8]) -> u64 {
        Original.leave_out(catalogue, fit, budget, out)
    }

    fn cause(&self, catalogue: &[u8], fit: &[u8], position: u32, out: &mut [u8]) -> u64 {
        Original.cause(catalogue, fit, position, out)
    }
}

/// What is promised of both catalogues is reported where a checker breaks it, though
/// each call by itself is right.
#[test]
fn the_property_is_reported_by_itself() {
    let sketch = nine()
        .item(7, HIGH, 0)
        .with(REQUIRED, 6.0)
        .with(REQUIRED + 1, 3.0);
    let case = sketch.case("trimmed", &[Ask::List(Room::Exact), Ask::Trim(Room::Exact)]);
    let whole = case.catalogue.image().len();
    let reported = |checker: Forgetful, asks: &[Ask]| {
        let case = Case {
            asks: asks.to_vec(),
            ..case.clone()
        };
        let stage = Stage::new(&case);
        let held = stage.hold_for(Readers::All, &checker, &mut Zeros::default());
        held.err().map(|difference| difference.what)
    };
    let honest = || Forgetful {
        list: 0,
        skill: 0,
        trim: 0,
    };
    for (checker, expected) in [
        (honest(), None),
        (
            Forgetful {
                list: whole,
                ..honest()
            },
            Some("of the checker's, the list for an officer"),
        ),
        (
            Forgetful {
                skill: whole,
                ..honest()
            },
            Some("of the checker's, the skills of result 2 for an officer"),
        ),
        (
            Forgetful {
                trim: whole,
                ..honest()
            },
            Some("trimmed again, the checker's catalogue is another one"),
        ),
    ] {
        let said = reported(checker, &[Ask::Trimmed]);
        match (&said, expected) {
            (None, None) => {}
            (Some(said), Some(expected)) => assert!(said.starts_with(expected), "{said}"),
            _ => panic!("{said:?} instead of {expected:?}"),
        }
    }
    let liar = Forgetful {
        list: whole,
        skill: whole,
        trim: whole,
    };
    assert_eq!(reported(liar, &case.asks), None);
}
