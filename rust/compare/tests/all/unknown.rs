//! Document 02's P5: rule 26 behind a hull's list, worked out from the document;
//! and its promises, by running.

use std::collections::BTreeSet;

use crate::common::*;
use compare::case::Case;
use compare::checker::{Checker, Terms};
use compare::model::{Damage, Fit, Item, Outcome, hall_image};
use compare::names::{CAPACITY, GROUP_LIMITS, HARDPOINTS, REQUIRED};
use compare::profile::{BANNED, League};
use compare::reference::{self, Catalogue};
use compare::sketch::*;
use compare::{cases, fixed};

/// What the check of each kind of slot lists for a type of category 0.
const NO_MODULE: u8 = 4;
const OF_KIND: [Option<u8>; 12] = [
    Some(NO_MODULE),
    Some(NO_MODULE),
    Some(NO_MODULE),
    Some(NO_MODULE),
    Some(NO_MODULE),
    Some(NO_MODULE),
    Some(6),
    Some(6),
    Some(7),
    Some(7),
    Some(5),
    None,
];

fn everywhere() -> Sketch {
    let mut sketch = Sketch::hull();
    for kind in HIGH..=CARGO {
        sketch = sketch.item(5, kind, 0);
    }
    sketch
}

fn checks() -> Vec<Vec<u8>> {
    let rules = OF_KIND.into_iter().enumerate();
    rules
        .filter_map(|(at, rule)| Some(item(at as u32, rule?)))
        .collect()
}

#[test]
fn every_pair_of_a_missing_type_is_listed_whatever_its_slot() {
    let unknown = (0..12).map(|index| unknown(index, 5));
    let all: Vec<Vec<u8>> = checks().into_iter().chain(unknown).collect();
    assert_list(everywhere(), &all);
}

#[test]
fn a_present_type_of_group_0_and_category_0_is_known() {
    assert_list(everywhere().known(5, 0, 0), &checks());
    assert_list(everywhere().known(5, 0, 0).volume(0.0), &checks());
    let module = Sketch::hull().item(5, HIGH, 0);
    assert_list(module.known(5, 0, CATEGORY_MODULE), &[]);
}

#[test]
fn the_type_id_is_its_32_bits() {
    for id in [i32::MIN, -1, 0, 1, 34_272, i32::MAX] {
        let sketch = Sketch::hull().item(id, CARGO, 0);
        assert_list(sketch, &[unknown(0, id)]);
        let sketch = Sketch::hull().item(id, CARGO, 0);
        assert_list(sketch.known(id, 0, 0), &[]);
    }
    let sketch = Sketch::hull().item(-2, CARGO, 0);
    let bytes = [1, 26, 0, 0, 0, 0, 0, 0, 0xFE, 0xFF, 0xFF, 0xFF];
    assert_list(sketch, &[[&bytes[..], &[0; 12]].concat()]);
}

#[test]
fn entries_go_by_pair_and_once_a_pair() {
    let mut sketch = Sketch::hull().known(6, 60, CATEGORY_CHARGE);
    for (type_id, quantity) in [(900, 3), (6, 1), (-4, 0), (900, u32::MAX)] {
        sketch = sketch.item(type_id, CARGO, 0).quantity(quantity);
    }
    let entries = [unknown(0, 900), unknown(2, -4), unknown(3, 900)];
    assert_list(sketch, &entries);
}

#[test]
fn an_item_without_a_result_is_no_pair() {
    let sketch = Sketch::hull().unpaired(5, CARGO, 0);
    assert_list(sketch, &[]);
    let sketch = Sketch::hull().item(5, CARGO, 0).unpaired(6, CARGO, 0);
    assert_list(sketch, &[unknown(0, 5)]);
}

#[test]
fn ship_mode_and_skills_keep_their_own_rules() {
    let mut sketch = Sketch::hull().item(5, CARGO, 0);
    sketch.fit.ship_type = 588;
    assert_list(sketch, &[ship(19)]);
    let sketch = Sketch::of(30, 25, CATEGORY_MODULE).item(5, CARGO, 0);
    assert_list(sketch, &[ship(19)]);
    let mut sketch = Sketch::hull().item(5, CARGO, 0);
    sketch.catalogue.types.clear();
    assert_list(sketch, &[ship(19)]);
    let skill = entry(0, 21, 0, 0, [77, 0, 0, 0]);
    let sketch = Sketch::hull().mode(40).skill(77, 1);
    assert_list(sketch.clone(), &[ship(20), skill.clone()]);
    let all = [ship(20), skill, unknown(0, 5)];
    assert_list(sketch.item(5, CARGO, 0), &all);
}

/// Links and base values under a missing type's id count as they did.
#[test]
fn what_stands_under_a_missing_id_is_read_as_before() {
    let sketch = Sketch::hull()
        .mark(5, 2)
        .mark(5, 7)
        .ship(HARDPOINTS, 0.0)
        .item(5, HIGH, 0);
    let turret = entry(0, 2, 6, 0, [1, 0, 0, 0]);
    let wrong = entry(1, 3, 1, 0, [0; 4]);
    assert_list(sketch, &[turret, wrong, item(0, 4), unknown(0, 5)]);
    let sketch = Sketch::hull()
        .base(5, REQUIRED, 9.0)
        .base(5, REQUIRED + 1, 2.0)
        .item(5, CARGO, 0)
        .with(REQUIRED, 5.0)
        .with(REQUIRED + 1, 1.0);
    let wanted = |id, level| entry(1, 11, 0, 0, [id, level, 0, 0]);
    assert_skills(sketch, 2, &[wanted(5, 1), wanted(9, 2)]);
}

/// A missing type has group 0 in every other rule, and no volume.
#[test]
fn what_the_rules_say_of_a_missing_type_stays() {
    let limited = |sketch: Sketch| sketch.with(GROUP_LIMITS, 1.0);
    let sketch = limited(Sketch::hull().item(5, HIGH, 0));
    let sketch = limited(sketch.item(6, HIGH, 1)).known(6, 0, CATEGORY_MODULE);
    let limit = |index| entry(1, 17, 0, index, [0, 2, 1, 0]);
    let all = [item(0, 4), limit(0), limit(1), unknown(0, 5)];
    assert_list(sketch, &all);
    let sketch = Sketch::hull().ship(CAPACITY, 0.0);
    let sketch = sketch.item(5, CARGO, 0).quantity(1_000_000);
    assert_list(sketch, &[unknown(0, 5)]);
}

#[test]
fn rule_26_stands_behind_bans_and_points() {
    let sketch = Sketch::hull()
        .known(6, 60, CATEGORY_MODULE)
        .item(5, HIGH, 0)
        .item(6, HIGH, 1)
        .item(7, CARGO, 0)
        .finish();
    let league = League::of(&[(0, BANNED), (60, 4)], 3);
    let profile = league.image();
    let terms = Terms {
        profile: &profile,
        allowance: league.allowance,
        ..Terms::default()
    };
    let banned = entry(1, 24, 0, 0, [0; 4]);
    let points = entry(0, 25, 0, 0, [4, 3, 0, 0]);
    let all = vec![item(0, 4), banned, points, unknown(0, 5), unknown(2, 7)];
    assert_list_with(
        &sketch.catalogue.image(),
        &sketch.fit.image(),
        terms,
        &Given::Entries(all),
    );
}

/// A buffer that just held the list before is too short where types are
/// missing.
#[test]
fn the_buffer_has_to_hold_rule_26_too() {
    let sketch = Sketch::hull().mode(40).item(5, CARGO, 0).finish();
    let (catalogue, fit) = (sketch.catalogue.image(), sketch.fit.image());
    for (name, checker) in checkers() {
        for (length, word) in [(24, 10 << 32), (47, 10 << 32), (48, 2), (49, 2)] {
            let mut out = vec![0x77; length];
            let given = checker.list(&catalogue, &fit, Terms::default(), &mut out);
            assert_eq!(given, word, "{name}, {length} bytes");
            let written = if word == 2 { 48 } else { 0 };
            let rest = out[written..].iter();
            assert!(rest.clone().all(|byte| *byte == 0x77), "{name}");
        }
    }
}

/// A hull with one item in its hold, with a result or without.
fn loaded(type_id: i32, results: usize) -> Fit {
    Fit {
        items: vec![Item {
            type_id,
            quantity: 1,
            kind: CARGO,
            ..Item::default()
        }],
        results: vec![Outcome::default(); results],
        ..Sketch::hull().fit
    }
}

#[test]
fn a_hall_reads_the_list_with_rule_26() {
    let catalogue = Sketch::hull().known(9, 1, CATEGORY_CHARGE).finish();
    let catalogue = catalogue.catalogue.image();
    let halls = [
        (vec![loaded(9, 1)], 1),
        (vec![loaded(5, 1)], 256),
        (vec![loaded(5, 0)], 256),
        (vec![loaded(9, 1), loaded(5, 1), loaded(9, 1)], 2 + 256),
        (vec![loaded(5, 1); 64], 64 * 256),
    ];
    for (fits, number) in halls {
        let input = hall_image(&fits, &Damage::default());
        for (name, checker) in checkers() {
            assert_eq!(checker.hall(&catalogue, &input), number, "{name}");
        }
    }
}

/// The list of a case, where the checker answers it.
fn list(checker: &dyn Checker, case: &Case, fit: &Fit) -> Option<Vec<Vec<u8>>> {
    let profile = case.league.image();
    let terms = Terms {
        profile: &profile,
        allowance: case.league.allowance,
        ..Terms::default()
    };
    let mut out = vec![0; 135_696];
    let word = checker.list(&case.catalogue.image(), &fit.image(), terms, &mut out);
    let entries = out.chunks(24).take(word as usize).map(<[u8]>::to_vec);
    (word >> 32 == 0).then(|| entries.collect())
}

/// The entries of rule 26, from the rows that the images were made of.
fn of_rows(case: &Case, fit: &Fit) -> Vec<Vec<u8>> {
    let known: BTreeSet<i32> = case.catalogue.types.iter().map(|row| row.id).collect();
    let pairs = fit.items.iter().zip(&fit.results).enumerate();
    let missing = pairs.filter(|(_, (item, _))| !known.contains(&item.type_id));
    missing
        .map(|(index, (item, _))| unknown(index as u32, item.type_id))
        .collect()
}

/// Cases whose images are as their rows say.
fn sound_cases() -> impl Iterator<Item = (u64, Case)> {
    let fixed = fixed::count() as u64;
    let numbers = (0..fixed - fixed::LONG as u64).chain(fixed..fixed + 2_000);
    let cases = numbers.map(|number| (number, cases::case(11, number)));
    cases.filter(|(_, case)| {
        let harmed = case.fits.iter().any(|fit| fit.damage != Damage::default());
        !harmed && case.catalogue.damage == Damage::default() && !case.fits.is_empty()
    })
}

/// "Take those entries out and the list given before, a profile's entries
/// included, remains": the original's list with the league's behind it, and
/// rule 26 at the end, for every pair whose type no row has.
#[test]
fn without_rule_26_the_list_given_before_remains() {
    for (name, checker) in checkers() {
        let (mut lists, mut longer) = (0, 0);
        for (number, case) in sound_cases() {
            let fit = &case.fits[0];
            let Some(entries) = list(checker.as_ref(), &case, fit) else {
                continue;
            };
            let (unknown, before): (Vec<_>, Vec<_>) =
                entries.iter().cloned().partition(|entry| entry[1] == 26);
            let catalogue = Catalogue::decode(&case.catalogue.image()).unwrap();
            let read = reference::Fit::decode(&fit.image()).unwrap();
            let profile = case.league.image();
            let terms = Terms {
                profile: &profile,
                allowance: case.league.allowance,
                ..Terms::default()
            };
            let league = reference::League::decode(terms).unwrap();
            let original = reference::original_list(&catalogue, &read);
            let mut expected = original.entries.clone();
            if read.is_hull(&catalogue) {
                expected.extend(league.entries(&catalogue, &read));
                assert_eq!(unknown, of_rows(&case, fit), "{name}, case {number}");
            } else {
                assert!(unknown.is_empty(), "{name}, case {number}");
            }
            assert_eq!(before.len(), expected.len(), "{name}, case {number}");
            if original.either_zero.is_none() {
                assert_eq!(before.concat(), expected.concat(), "{name}, case {number}");
            }
            let behind = [before, unknown.clone()].concat();
            assert_eq!(entries, behind, "{name}, case {number}");
            lists += 1;
            longer += usize::from(!unknown.is_empty());
        }
        assert!(lists > 1_000 && longer > 200, "{name}: {lists}, {longer}");
    }
}

/// Demand 3 with rule 26: the old entries of it are the first of the new ones,
/// byte for byte. `compare` holds whole lists against each other.
#[test]
fn a_fit_that_grows_keeps_its_unknown_types() {
    for (name, checker) in checkers() {
        let (mut kept, mut more) = (0, 0);
        for (number, case) in sound_cases() {
            let old = &case.fits[0];
            let new = case.growth.of(old);
            if case.growth.items.is_empty() || old.items.len() != old.results.len() {
                continue;
            }
            let lists = [old, &new].map(|fit| list(checker.as_ref(), &case, fit));
            let [Some(old), Some(new)] = lists else {
                continue;
            };
            let unknown = |list: &[Vec<u8>]| -> Vec<Vec<u8>> {
                let entries = list.iter().filter(|entry| entry[1] == 26);
                entries.cloned().collect()
            };
            let (before, after) = (unknown(&old), unknown(&new));
            assert!(after.starts_with(&before), "{name}, case {number}");
            kept += before.len();
            more += after.len() - before.len();
        }
        assert!(kept > 30 && more > 30, "{name}: {kept} and {more}");
    }
}
