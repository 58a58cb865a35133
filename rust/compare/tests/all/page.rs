//! Document 02's P8: the limits that come with a call and refusal 13, worked
//! out from the document; and its promise, by running.

use crate::common::*;
use compare::case::Ask;
use compare::cases;
use compare::checker::{Checker, Terms, refused};
use compare::fixed;
use compare::model::{Catalogue, Fit, Outcome};
use compare::names::REQUIRED;
use compare::page::Limits;
use compare::profile::League;
use compare::sketch::*;

/// The limits that stand for any number above the main page's.
const ABOVE: [u32; 4] = [257, 513, 65_536, u32::MAX];

fn images(sketch: Sketch) -> (Vec<u8>, Vec<u8>) {
    let sketch = sketch.finish();
    (sketch.catalogue.image(), sketch.fit.image())
}

fn under(pairs: u32, skills: u32) -> Terms<'static> {
    Terms {
        limits: Limits::of(pairs, skills),
        ..Terms::default()
    }
}

fn assert_skill_under(catalogue: &[u8], fit: &[u8], result: u32, limits: Limits, expected: &Given) {
    let Limits { pairs, skills } = limits;
    assert_skill_with(catalogue, fit, result, under(pairs, skills), expected);
}

/// So many pairs that break no rule: implants without the attribute that says
/// where they belong.
fn pairs(count: u16) -> Sketch {
    let hull = Sketch::hull().known(5, 1, CATEGORY_IMPLANT);
    (0..count).fold(hull, |sketch, index| sketch.item(5, IMPLANT, index))
}

/// Skills 1 to `length`, each demanding the next, the first demanded by the
/// ship, all at a level.
fn chain(length: i32, level: f32) -> Sketch {
    let mut sketch = Sketch::hull()
        .ship(REQUIRED, 1.0)
        .ship(REQUIRED + 1, f64::from(level));
    for id in 1..length {
        sketch = sketch
            .base(id, REQUIRED, (id + 1) as f32)
            .base(id, REQUIRED + 1, level);
    }
    sketch
}

fn untrained(length: u32) -> Given {
    let entries = (1..=length).map(|id| entry(0, 11, 0, 0, [id, 1, 0, 0]));
    Given::Entries(entries.collect())
}

/// Asserts what the list call and the skill call of the ship give.
fn assert_both(sketch: Sketch, limits: Limits, expected: &Given) {
    let (catalogue, fit) = images(sketch);
    let Limits { pairs, skills } = limits;
    assert_list_with(&catalogue, &fit, under(pairs, skills), expected);
    assert_skill_under(&catalogue, &fit, 0, limits, expected);
}

#[test]
fn as_many_pairs_as_the_limit_are_taken_and_one_more_is_not() {
    let none = Given::Entries(Vec::new());
    for limit in [0, 1, 63, 64, 65, 255] {
        assert_both(pairs(limit), Limits::of(limit.into(), 512), &none);
        let more = pairs(limit + 1);
        assert_both(more, Limits::of(limit.into(), 512), &Given::Refusal(13));
    }
    for limit in ABOVE.into_iter().chain([256]) {
        assert_both(pairs(256), Limits::of(limit, 512), &none);
    }
}

#[test]
fn as_many_skills_as_the_limit_are_taken_and_one_more_is_not() {
    for limit in [1, 63, 64, 65, 255, 256, 257, 511] {
        let limits = Limits::of(0, limit);
        let (catalogue, fit) = images(chain(limit as i32, 1.0));
        assert_skill_under(&catalogue, &fit, 0, limits, &untrained(limit));
        let (catalogue, fit) = images(chain(limit as i32 + 1, 1.0));
        assert_skill_under(&catalogue, &fit, 0, limits, &Given::Refusal(13));
    }
}

#[test]
fn over_512_skills_are_refused_by_9_under_every_limit() {
    let (long, longer) = (images(chain(512, 1.0)), images(chain(513, 1.0)));
    for limit in [512, 513, 600, 65_536, u32::MAX] {
        let limits = Limits::of(256, limit);
        assert_skill_under(&long.0, &long.1, 0, limits, &untrained(512));
        assert_skill_under(&longer.0, &longer.1, 0, limits, &Given::Refusal(9));
    }
    for limit in [0, 1, 64, 511] {
        let limits = Limits::of(256, limit);
        assert_skill_under(&long.0, &long.1, 0, limits, &Given::Refusal(13));
        assert_skill_under(&longer.0, &longer.1, 0, limits, &Given::Refusal(9));
    }
}

/// A limit of 0 is a limit, and a wanted skill counts whatever its level and
/// whatever is trained.
#[test]
fn a_limit_of_0_refuses_the_first_skill_at_level_0_too() {
    let (catalogue, fit) = images(chain(1, 0.0));
    assert_skill_under(&catalogue, &fit, 0, Limits::of(0, 0), &Given::Refusal(13));
    let nothing = Given::Entries(Vec::new());
    assert_skill_under(&catalogue, &fit, 0, Limits::of(0, 1), &nothing);
    assert_skill_under(&catalogue, &fit, 1, Limits::of(0, 0), &nothing);
    let (catalogue, fit) = images(chain(2, 1.0).skill(1, 5).skill(2, 5));
    assert_skill_under(&catalogue, &fit, 0, Limits::of(0, 1), &Given::Refusal(13));
    assert_skill_under(&catalogue, &fit, 0, Limits::of(0, 2), &nothing);
}

#[test]
fn the_list_call_gives_no_13_for_skills() {
    let (catalogue, fit) = images(chain(513, 1.0).skill(77, 1).known(77, 9, CATEGORY_SKILL));
    assert_list_with(&catalogue, &fit, under(0, 0), &Given::Entries(Vec::new()));
}

/// Items without results are no pairs, and results without items are none.
#[test]
fn pairs_are_the_smaller_of_items_and_results() {
    let unequal = |items: usize, results: usize| {
        let mut sketch = pairs(0);
        let one = pairs(1).fit.items[0];
        sketch.fit.items = vec![one; items];
        sketch.fit.results = vec![Outcome::default(); results];
        sketch
    };
    let none = Given::Entries(Vec::new());
    assert_both(unequal(256, 0), Limits::of(0, 0), &none);
    assert_both(unequal(0, 256), Limits::of(0, 0), &none);
    assert_both(unequal(256, 1), Limits::of(1, 0), &none);
    assert_both(unequal(1, 256), Limits::of(1, 0), &none);
    assert_both(unequal(256, 1), Limits::of(0, 0), &Given::Refusal(13));
    assert_both(unequal(1, 256), Limits::of(0, 0), &Given::Refusal(13));
}

/// "directly after 6 for pairs": before 11, 12, 8, 9 and 10.
#[test]
fn the_pair_limit_is_asked_behind_the_images_and_before_all_else() {
    let mut bad = pairs(2).finish();
    bad.fit.ship.state = 4;
    let limits = Limits::of(1, 512);
    let (catalogue, fit) = (bad.catalogue.image(), bad.fit.image());
    assert_list_with(&catalogue, &fit, under(1, 512), &Given::Refusal(6));
    assert_skill_under(&catalogue, &fit, 0, limits, &Given::Refusal(6));
    assert_list_with(&[0; 3], &fit, under(1, 512), &Given::Refusal(1));
    let mut long = chain(513, 1.0);
    long.fit.items = pairs(2).fit.items;
    long.fit.results = pairs(2).fit.results;
    let (catalogue, fit) = images(long);
    for profile in [vec![0; 3], League::of(&[(1, 0), (1, 0)], 0).image()] {
        let terms = Terms {
            profile: &profile,
            ..under(1, 512)
        };
        assert_list_with(&catalogue, &fit, terms, &Given::Refusal(13));
    }
    for result in [0, 4, u32::MAX] {
        assert_skill_under(&catalogue, &fit, result, limits, &Given::Refusal(13));
    }
    assert_skill_under(&catalogue, &fit, 4, Limits::MAIN, &Given::Refusal(8));
    assert_skill_under(&catalogue, &fit, 0, Limits::MAIN, &Given::Refusal(9));
}

#[test]
fn thirteen_comes_before_10() {
    let two = images(chain(2, 1.0).item(5, HIGH, 0));
    for (name, checker) in checkers() {
        let skill = |terms: Terms| checker.skill(&two.0, &two.1, 0, terms, &mut []);
        assert_eq!(skill(Terms::default()), refused(10), "{name}");
        assert_eq!(skill(under(256, 1)), refused(13), "{name}");
        assert_eq!(skill(under(0, 512)), refused(13), "{name}");
        let list = |terms: Terms| checker.list(&two.0, &two.1, terms, &mut []);
        assert_eq!(list(Terms::default()), refused(10), "{name}");
        assert_eq!(list(under(0, 512)), refused(13), "{name}");
        assert_eq!(list(under(256, 1)), refused(10), "{name}");
    }
}

/// A word and all bytes of a buffer.
type Left = (u64, Vec<u8>);

struct Calls<'a> {
    checker: &'a dyn Checker,
    catalogue: Vec<u8>,
    fit: Vec<u8>,
    league: &'a League,
}

impl Calls<'_> {
    fn new<'a>(
        checker: &'a dyn Checker,
        catalogue: &Catalogue,
        fit: &Fit,
        league: &'a League,
    ) -> Calls<'a> {
        Calls {
            checker,
            catalogue: catalogue.image(),
            fit: fit.image(),
            league,
        }
    }

    fn left(&self, result: Option<u32>, limits: Limits, length: usize) -> Left {
        let mut out = vec![0xC3; length];
        let terms = Terms {
            profile: &self.league.image(),
            allowance: self.league.allowance,
            limits,
            ..Terms::default()
        };
        let word = match result {
            None => self
                .checker
                .list(&self.catalogue, &self.fit, terms, &mut out),
            Some(result) => {
                let (catalogue, fit) = (&self.catalogue, &self.fit);
                self.checker.skill(catalogue, fit, result, terms, &mut out)
            }
        };
        (word, out)
    }
}

/// "Each list that the smaller page answers is the main page's for the same
/// input", and so are all others; what it does not answer, the main page
/// answers or refuses by a number behind 13.
#[test]
fn every_answer_is_the_main_pages() {
    let (mut answered, mut refused_by_13) = (0, 0);
    let fixed = fixed::count() as u64;
    for number in fixed..fixed + 300 {
        let case = cases::case(9, number);
        let Some(fit) = case.fits.first() else {
            continue;
        };
        let results = case.asks.iter().filter_map(|ask| match ask {
            Ask::List(_) => Some(None),
            Ask::Skill(result, _) => Some(Some(*result)),
            _ => None,
        });
        let results: std::collections::BTreeSet<Option<u32>> = results.collect();
        for (name, checker) in checkers() {
            let calls = Calls::new(&*checker, &case.catalogue, fit, &case.league);
            for result in &results {
                let main = calls.left(*result, Limits::MAIN, 24 * 200);
                for limit in [0, 1, 2, 5, 12, 64, 255, 511, 513, u32::MAX] {
                    let limits = Limits::of(limit, limit);
                    let small = calls.left(*result, limits, 24 * 200);
                    match small.0 >> 32 {
                        13 => {
                            refused_by_13 += 1;
                            let behind = [0, 11, 12, 8, 9, 10].contains(&(main.0 >> 32));
                            assert!(behind, "{name}, case {number}: {limit}");
                            assert_eq!(small.1, vec![0xC3; 24 * 200], "{name}, case {number}");
                        }
                        _ => {
                            answered += 1;
                            assert_eq!(small, main, "{name}, case {number}: {limit}");
                        }
                    }
                }
            }
        }
    }
    assert!(answered > 5_000, "{answered} answers");
    assert!(refused_by_13 > 2_000, "{refused_by_13} refusals");
}
