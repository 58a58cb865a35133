//! Document 02's P14: who a call is for, refusals 19 and 20 and what a guest
//! gets, worked out from the document; and its promises, by running.

use crate::common::*;
use compare::case::Case;
use compare::cases;
use compare::checker::{Checker, Terms, refused};
use compare::fixed;
use compare::grown;
use compare::model::{Damage, Fit, Skill};
use compare::names::{MAX_ACTIVE_DRONES, REQUIRED};
use compare::page::Limits;
use compare::profile::{BANNED, League};
use compare::reader::Reader;
use compare::reference;
use compare::sketch::*;

fn images(sketch: Sketch) -> (Vec<u8>, Vec<u8>) {
    let sketch = sketch.finish();
    (sketch.catalogue.image(), sketch.fit.image())
}

fn read_by(reader: Reader) -> Terms<'static> {
    Terms {
        reader,
        ..Terms::default()
    }
}

fn not_a_skill(id: i32) -> Vec<u8> {
    entry(0, 21, 0, 0, [id as u32, 0, 0, 0])
}

/// Among the skills stand type 5, which is a module, and type 77, which the
/// catalogue lacks; the mode is none; of 1 drone 2 are launched. The ship wants
/// skill 3300 at 5, which is trained to 2.
fn private() -> Sketch {
    Sketch::hull()
        .known(5, 60, CATEGORY_MODULE)
        .known(9, 100, CATEGORY_DRONE)
        .known(3300, 255, CATEGORY_SKILL)
        .mode(5)
        .skill(5, 4)
        .skill(77, 0)
        .skill(3300, 2)
        .ship(REQUIRED, 3300.0)
        .ship(REQUIRED + 1, 5.0)
        .character(MAX_ACTIVE_DRONES, 1.0)
        .item(9, DRONE_BAY, 0)
        .quantity(2)
        .state(ACTIVE)
}

/// What every reader but a guest gets of it.
fn full() -> Vec<Vec<u8>> {
    let (mode, drones) = (ship(20), resource(5, 2.0, 1.0));
    vec![mode, not_a_skill(5), not_a_skill(77), drones]
}

/// What a guest gets.
fn guests() -> Vec<Vec<u8>> {
    vec![ship(20), resource(5, 2.0, 1.0)]
}

#[test]
fn pilots_and_officers_get_the_full_list_and_a_guest_no_not_a_skill() {
    let (catalogue, fit) = images(private());
    let given = |reader: Reader, entries: Vec<Vec<u8>>| {
        assert_list_with(&catalogue, &fit, read_by(reader), &Given::Entries(entries));
    };
    given(Reader::GUEST, guests());
    given(Reader::PILOT, full());
    given(Reader::OFFICER, full());
}

#[test]
fn a_guest_may_not_ask_for_skills() {
    let (catalogue, fit) = images(private());
    let lacking = Given::Entries(vec![entry(0, 11, 0, 0, [3300, 5, 2, 0])]);
    for reader in [Reader::PILOT, Reader::OFFICER] {
        assert_skill_with(&catalogue, &fit, 0, read_by(reader), &lacking);
    }
    let guest = read_by(Reader::GUEST);
    for result in [0, 1, 2, 3, u32::MAX] {
        assert_skill_with(&catalogue, &fit, result, guest, &Given::Refusal(20));
    }
    // Whatever is listed: nothing, and nothing that is lacking.
    let bare = images(Sketch::hull());
    assert_skill_with(&bare.0, &bare.1, 0, guest, &Given::Refusal(20));
}

#[test]
fn every_reader_above_2_is_refused_by_19() {
    let (catalogue, fit) = images(private());
    let numbers = (3..300).chain([511, 512, 513, 514, 1_000_000]).map(Reader);
    for reader in numbers.chain(Reader::ABOVE) {
        let terms = read_by(reader);
        assert_list_with(&catalogue, &fit, terms, &Given::Refusal(19));
        assert_skill_with(&catalogue, &fit, 0, terms, &Given::Refusal(19));
    }
}

/// "both before all others": whatever the bytes are.
#[test]
fn nineteen_and_twenty_come_before_all_others() {
    let (catalogue, fit) = images(private());
    let profile = [0; 3];
    let bad: [(&[u8], &[u8]); 4] = [
        (&[], &[]),
        (&[0; 3], &fit),
        (&catalogue, &[0; 35]),
        (&catalogue, &fit),
    ];
    for (name, checker) in checkers() {
        for (catalogue, fit) in bad {
            for limits in [Limits::MAIN, Limits::of(0, 0)] {
                let terms = |reader: Reader| Terms {
                    reader,
                    profile: &profile,
                    allowance: 0,
                    limits,
                };
                let above = terms(Reader(3));
                let list = checker.list(catalogue, fit, above, &mut []);
                assert_eq!(list, refused(19), "{name}");
                for result in [0, 9] {
                    let skill = checker.skill(catalogue, fit, result, above, &mut []);
                    assert_eq!(skill, refused(19), "{name}");
                    let guest = terms(Reader::GUEST);
                    let skill = checker.skill(catalogue, fit, result, guest, &mut []);
                    assert_eq!(skill, refused(20), "{name}");
                }
            }
        }
    }
}

/// "the buffer need only hold what that reader gets", to the byte.
#[test]
fn ten_counts_what_the_reader_gets() {
    let (catalogue, fit) = images(private());
    for (name, checker) in checkers() {
        for length in 0..=24 * 4 + 1 {
            for reader in Reader::ALL {
                let entries = match reader {
                    Reader::GUEST => guests(),
                    _ => full(),
                };
                let expected = entries.concat();
                let mut out = vec![0xC3; length];
                let word = checker.list(&catalogue, &fit, read_by(reader), &mut out);
                if length < expected.len() {
                    assert_eq!(word, refused(10), "{name}, {reader}, {length} bytes");
                    assert_eq!(out, vec![0xC3; length], "{name}, {reader}");
                } else {
                    assert_eq!(word, entries.len() as u64, "{name}, {reader}");
                    let (list, behind) = out.split_at(expected.len());
                    assert_eq!(list, expected, "{name}, {reader}");
                    assert!(behind.iter().all(|byte| *byte == 0xC3), "{name}, {reader}");
                }
            }
        }
    }
}

/// NotASkill alone: a guest's list is empty and needs no buffer, and the hall,
/// which is the officer's, calls the fit faulted.
#[test]
fn what_is_faulted_by_training_alone_lists_nothing_for_a_guest() {
    let sketch = Sketch::hull().skill(77, 5).finish();
    let (catalogue, fit) = (sketch.catalogue.image(), sketch.fit.image());
    let hall = compare::model::hall_image(&[sketch.fit], &Damage::default());
    for (name, checker) in checkers() {
        let list = |reader| checker.list(&catalogue, &fit, read_by(reader), &mut []);
        assert_eq!(list(Reader::GUEST), 0, "{name}");
        assert_eq!(list(Reader::PILOT), refused(10), "{name}");
        assert_eq!(list(Reader::OFFICER), refused(10), "{name}");
        assert_eq!(checker.hall(&catalogue, &hall), 256, "{name}: 1 faulted");
    }
}

#[test]
fn a_ship_that_is_no_hull_lists_that_alone_for_everyone() {
    let sketch = Sketch::of(30, 25, CATEGORY_MODULE).skill(77, 1);
    let (catalogue, fit) = images(sketch);
    for reader in Reader::ALL {
        let expected = Given::Entries(vec![ship(19)]);
        assert_list_with(&catalogue, &fit, read_by(reader), &expected);
    }
}

#[test]
fn a_guest_reads_a_league_and_missing_types() {
    let sketch = Sketch::hull()
        .known(5, 60, CATEGORY_MODULE)
        .skill(5, 1)
        .item(5, HIGH, 0)
        .item(6, HIGH, 1);
    let (catalogue, fit) = images(sketch);
    let league = League::of(&[(0, BANNED), (60, 9)], 8);
    let behind = [
        item(1, 4),
        entry(1, 24, 0, 1, [0; 4]),
        entry(0, 25, 0, 0, [9, 8, 0, 0]),
        unknown(1, 6),
    ];
    for reader in Reader::ALL {
        let mut expected = match reader {
            Reader::GUEST => Vec::new(),
            _ => vec![not_a_skill(5)],
        };
        expected.extend(behind.clone());
        let terms = Terms {
            profile: &league.image(),
            allowance: league.allowance,
            ..read_by(reader)
        };
        assert_list_with(&catalogue, &fit, terms, &Given::Entries(expected));
    }
}

/// Bytes enough for every list.
const EVERY_LIST: usize = 135_696;

/// A word and all bytes of a buffer that held this before.
type Left = (u64, Vec<u8>);

/// What calls on a fit of a case leave.
struct Calls<'a> {
    checker: &'a dyn Checker,
    case: &'a Case,
    fit: &'a Fit,
}

impl Calls<'_> {
    fn left(&self, reader: Reader, result: Option<u32>, before: &[u8]) -> Left {
        let mut out = before.to_vec();
        let (catalogue, fit) = (self.case.catalogue.image(), self.fit.image());
        let terms = Terms {
            reader,
            profile: &self.case.league.image(),
            allowance: self.case.league.allowance,
            limits: self.case.limits,
        };
        let word = match result {
            None => self.checker.list(&catalogue, &fit, terms, &mut out),
            Some(result) => self
                .checker
                .skill(&catalogue, &fit, result, terms, &mut out),
        };
        (word, out)
    }
}

/// Generated cases that have a fit, but for the planted refusals of readers.
fn generated(seed: u64, count: u64) -> impl Iterator<Item = (u64, Case)> {
    let fixed = fixed::count() as u64;
    let cases = (fixed..fixed + count).map(move |number| (number, cases::case(seed, number)));
    cases.filter(|(_, case)| !case.fits.is_empty())
}

/// "Pilots and officers get the full list", word and bytes, of skills too; a
/// guest gets that list without NotASkill, or the same refusal before 10.
#[test]
fn each_reader_gets_the_full_list_or_the_guests() {
    let (mut same, mut omitted) = (0, 0);
    for (number, case) in generated(11, 300) {
        for (name, checker) in checkers() {
            let fit = &case.fits[0];
            let calls = Calls {
                checker: &*checker,
                case: &case,
                fit,
            };
            let before = vec![0xC3; EVERY_LIST];
            for result in [None, Some(0), Some(1), Some(2)] {
                let pilot = calls.left(Reader::PILOT, result, &before);
                let officer = calls.left(Reader::OFFICER, result, &before);
                assert!(pilot == officer, "{name}, case {number}");
            }
            let (word, full) = calls.left(Reader::OFFICER, None, &before);
            let (given, out) = calls.left(Reader::GUEST, None, &before);
            if word >> 32 != 0 {
                same += 1;
                assert_eq!(given, word, "{name}, case {number}");
                assert!(out == before, "{name}, case {number}");
                continue;
            }
            let entries = full[..24 * word as usize].chunks_exact(24);
            let kept: Vec<&[u8]> = entries.filter(|entry| entry[1] != 21).collect();
            omitted += word as usize - kept.len();
            assert_eq!(given, kept.len() as u64, "{name}, case {number}");
            let mut expected = before;
            expected[..24 * kept.len()].copy_from_slice(&kept.concat());
            assert!(out == expected, "{name}, case {number}");
        }
    }
    assert!(same > 50, "{same} refusals");
    assert!(omitted > 500, "{omitted} entries omitted");
}

/// A guest's list is the list of a fit that lists no skills at all: nothing of
/// the training is in it. For the original this is run on its own `validate`.
#[test]
fn a_guests_list_is_that_of_a_fit_without_skills() {
    let mut with_skills = 0;
    for (number, case) in generated(12, 300) {
        let own = &case.fits[0];
        if reference::Fit::decode(&own.image()).is_err() || own.damage != Damage::default() {
            continue;
        }
        let bare = Fit {
            skills: Vec::new(),
            ..own.clone()
        };
        with_skills += usize::from(!own.skills.is_empty());
        for (name, checker) in checkers() {
            let of = |fit| Calls {
                checker: &*checker,
                case: &case,
                fit,
            };
            let before = vec![0x5A; EVERY_LIST];
            let guest = of(own).left(Reader::GUEST, None, &before);
            let officer = of(&bare).left(Reader::OFFICER, None, &before);
            assert!(guest == officer, "{name}, case {number}");
        }
    }
    assert!(with_skills > 150, "{with_skills} fits with skills");
}

/// Trainings for a fit: none, other levels, fewer, others, as many as may be.
fn trainings(fit: &Fit) -> Vec<Vec<Skill>> {
    let own = &fit.skills;
    let levels = |change: fn(u8) -> u8| {
        let skills = own.iter().map(|skill| Skill {
            level: change(skill.level),
            ..*skill
        });
        skills.collect::<Vec<Skill>>()
    };
    let ids = |first: i32, count: i32| {
        let ids = first..first + count;
        ids.map(|id| Skill { id, level: 5 }).collect::<Vec<Skill>>()
    };
    vec![
        Vec::new(),
        levels(|_| 0),
        levels(|level| !level),
        own[..own.len() / 2].to_vec(),
        ids(-3, own.len() as i32),
        ids(3_300, 1),
        ids(-400, 1_024),
    ]
}

/// "For two fits that pass the image checks and differ only in listed skills and
/// levels, a guest's calls, else alike, give the same bytes, count and refusal",
/// whatever the buffer held.
#[test]
fn a_guest_cannot_tell_two_trainings_apart() {
    let (mut answered, mut refused_alike) = (0, 0);
    for (number, case) in generated(13, 200) {
        let own = &case.fits[0];
        if own.damage != Damage::default() || reference::Fit::decode(&own.image()).is_err() {
            continue;
        }
        for skills in trainings(own) {
            let other = Fit {
                skills,
                ..own.clone()
            };
            assert!(reference::Fit::decode(&other.image()).is_ok());
            for (name, checker) in checkers() {
                let of = |fit| Calls {
                    checker: &*checker,
                    case: &case,
                    fit,
                };
                for (length, held) in [(0, 0), (24, 0x11), (24 * 7 + 5, 0xEE), (24 * 300, 0)] {
                    let before = vec![held; length];
                    for result in [None, Some(0), Some(2)] {
                        let one = of(own).left(Reader::GUEST, result, &before);
                        let two = of(&other).left(Reader::GUEST, result, &before);
                        assert!(one == two, "{name}, case {number}");
                        match one.0 >> 32 {
                            0 => answered += 1,
                            _ => refused_alike += 1,
                        }
                    }
                }
            }
        }
    }
    assert!(answered > 3_000, "{answered} answers");
    assert!(refused_alike > 10_000, "{refused_alike} refusals");
}

/// The entries of an answered call.
fn entries((word, out): &Left) -> Option<Vec<[u8; 24]>> {
    let count = (*word >> 32 == 0).then_some(*word as usize)?;
    let chunks = out[..24 * count].chunks_exact(24);
    Some(chunks.map(|entry| entry.try_into().unwrap()).collect())
}

/// "Demand 3 holds for each reader, where both calls name the same one."
#[test]
fn a_fit_that_grows_keeps_its_entries_for_each_reader() {
    let mut held = [0; 3];
    for (number, mut case) in generated(14, 700) {
        let old = case.fits[0].clone();
        let is_grown = case.growth != compare::case::Growth::default();
        if !is_grown || old.items.len() != old.results.len() {
            continue;
        }
        // Cargo of any volume would be outside the premises.
        case.growth.items.retain(|item| item.kind != CARGO);
        case.limits = Limits::MAIN;
        let new = case.growth.of(&old);
        for (name, checker) in checkers() {
            let of = |fit| Calls {
                checker: &*checker,
                case: &case,
                fit,
            };
            let before = vec![0; EVERY_LIST];
            for (reader, held) in Reader::ALL.into_iter().zip(&mut held) {
                for result in [None, Some(0), Some(1)] {
                    let lists = [&old, &new].map(|fit| of(fit).left(reader, result, &before));
                    if let [Some(old), Some(new)] = lists.each_ref().map(entries) {
                        let places = grown::places(&old, &new);
                        assert!(
                            places.is_ok(),
                            "{name}, case {number}, {reader}: {places:?}"
                        );
                        *held += usize::from(!old.is_empty());
                    }
                }
            }
        }
    }
    assert!(held.iter().all(|count| *count > 50), "{held:?} lists");
}
