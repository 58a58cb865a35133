//! Document 02's P2: profiles, refusals 11 and 12, rules 24 and 25, worked out
//! from the document; and its promises, by running.

use crate::common::*;
use compare::cases;
use compare::checker::Terms;
use compare::fixed;
use compare::profile::{BANNED, League};
use compare::reference::{self, Catalogue, Fit};
use compare::sketch::*;

fn banned(index: u32, group: i32) -> Vec<u8> {
    entry(1, 24, 0, index, [group as u32, 0, 0, 0])
}

fn points(used: u32, allowed: u32) -> Vec<u8> {
    entry(0, 25, 0, 0, [used, allowed, 0, 0])
}

fn assert_league(sketch: Sketch, league: &League, expected: &[Vec<u8>]) {
    let sketch = sketch.finish();
    let image = league.image();
    let terms = Terms {
        profile: &image,
        allowance: league.allowance,
        ..Terms::default()
    };
    let expected = Given::Entries(expected.to_vec());
    assert_list_with(
        &sketch.catalogue.image(),
        &sketch.fit.image(),
        terms,
        &expected,
    );
}

/// What the list call makes of a profile's bytes, on a hull without items.
fn assert_profile(profile: &[u8], refusal: Option<u8>) {
    let sketch = Sketch::hull().finish();
    let terms = Terms {
        profile,
        allowance: 0,
        ..Terms::default()
    };
    let expected = refusal.map_or(Given::Entries(Vec::new()), Given::Refusal);
    assert_list_with(
        &sketch.catalogue.image(),
        &sketch.fit.image(),
        terms,
        &expected,
    );
}

fn two_and_one() -> Sketch {
    Sketch::hull()
        .known(5, 60, CATEGORY_MODULE)
        .known(6, 464, CATEGORY_MODULE)
        .item(5, LOW, 0)
        .item(6, HIGH, 0)
        .item(5, LOW, 1)
}

#[test]
fn every_fitted_pair_of_a_banned_group_is_listed() {
    let league = League::of(&[(60, BANNED)], 0);
    assert_league(two_and_one(), &league, &[banned(0, 60), banned(2, 60)]);
    let league = League::of(&[(60, BANNED), (464, BANNED)], 0);
    let all = [banned(0, 60), banned(1, 464), banned(2, 60)];
    assert_league(two_and_one(), &league, &all);
}

#[test]
fn points_are_listed_above_the_allowance() {
    let league = |allowance| League::of(&[(60, 47), (464, 94)], allowance);
    assert_league(two_and_one(), &league(188), &[]);
    assert_league(two_and_one(), &league(u32::MAX), &[]);
    assert_league(two_and_one(), &league(187), &[points(188, 187)]);
    assert_league(two_and_one(), &league(0), &[points(188, 0)]);
    let free = League::of(&[(60, 0)], 0);
    assert_league(two_and_one(), &free, &[]);
}

#[test]
fn bans_stand_before_points_and_cost_nothing() {
    let league = League::of(&[(60, 7), (464, BANNED)], 13);
    assert_league(two_and_one(), &league, &[banned(1, 464), points(14, 13)]);
    let league = League::of(&[(60, 7), (464, BANNED)], 14);
    assert_league(two_and_one(), &league, &[banned(1, 464)]);
}

#[test]
fn a_missing_type_has_group_0_and_ids_are_their_32_bits() {
    let sketch = Sketch::hull()
        .known(7, -3, CATEGORY_MODULE)
        .item(5, HIGH, 0)
        .item(7, HIGH, 1);
    // Type 5 is not known, so it is no module either.
    let league = League::of(&[(-3, BANNED), (0, BANNED)], 0);
    let entries = [item(0, 4), banned(0, 0), banned(1, -3), unknown(0, 5)];
    assert_league(sketch, &league, &entries);
}

#[test]
fn what_is_not_fitted_is_free() {
    let mut sketch = Sketch::hull().known(5, 60, CATEGORY_MODULE);
    for kind in [
        FIGHTER_TUBE,
        FIGHTER_BAY,
        IMPLANT,
        BOOSTER,
        DRONE_BAY,
        CARGO,
    ] {
        sketch = sketch.item(5, kind, 0).quantity(90);
    }
    let rules = [6, 6, 7, 7, 5].into_iter().enumerate();
    let others: Vec<Vec<u8>> = rules.map(|(at, rule)| item(at as u32, rule)).collect();
    assert_league(sketch.clone(), &League::of(&[(60, BANNED)], 0), &others);
    assert_league(sketch, &League::of(&[(60, 9)], 0), &others);
}

#[test]
fn a_ship_that_is_no_hull_lists_that_alone() {
    let sketch = Sketch::of(30, 25, CATEGORY_MODULE)
        .known(5, 60, CATEGORY_MODULE)
        .item(5, HIGH, 0);
    let league = League::of(&[(60, BANNED)], 0);
    assert_league(sketch, &league, &[ship(19)]);
}

#[test]
fn the_longest_sum_is_256_million() {
    let mut sketch = Sketch::hull().known(5, 60, CATEGORY_MODULE);
    for index in 0..256 {
        sketch = sketch.item(5, HIGH, index);
    }
    let league = |allowance| League::of(&[(60, 1_000_000)], allowance);
    assert_league(
        sketch.clone(),
        &league(255_999_999),
        &[points(256_000_000, 255_999_999)],
    );
    assert_league(sketch, &league(256_000_000), &[]);
}

#[test]
fn refusal_11_for_a_wrong_length_and_over_4_096_groups() {
    assert_profile(&[], None);
    for length in [1, 2, 3, 5, 11, 12, 13] {
        assert_profile(&vec![0; length], Some(11));
    }
    assert_profile(&[0; 4], None);
    let rows = |count: i32| (0..count).map(|group| (group, 1)).collect::<Vec<_>>();
    assert_profile(&League::of(&rows(4_096), 0).image(), None);
    assert_profile(&League::of(&rows(4_097), 0).image(), Some(11));
    // 8 times 2^29 is 2^32, which is 0 in 32 bits.
    assert_profile(&[0, 0, 0, 0x20], Some(11));
    let mut image = League::of(&rows(2), 0).image();
    image.pop();
    assert_profile(&image, Some(11));
    image.extend([0, 0]);
    assert_profile(&image, Some(11));
}

#[test]
fn refusal_12_for_broken_order_or_points() {
    let of = |prices: &[(i32, u32)]| League::of(prices, 0).image();
    assert_profile(&of(&[(-1, 0), (0, 0), (1, 0)]), None);
    assert_profile(&of(&[(0, 0), (0, 0)]), Some(12));
    assert_profile(&of(&[(1, 0), (0, 0)]), Some(12));
    assert_profile(&of(&[(1, 0), (-1, 0)]), Some(12));
    assert_profile(&of(&[(i32::MIN, 0), (i32::MAX, 0)]), None);
    assert_profile(&of(&[(1, 1_000_000)]), None);
    assert_profile(&of(&[(1, 1_000_001)]), Some(12));
    assert_profile(&of(&[(1, 4_294_967_294)]), Some(12));
    assert_profile(&of(&[(1, 4_294_967_295)]), None);
}

/// Without a profile the list is the original's, rule 26 taken out, whatever
/// the allowance.
#[test]
fn without_a_profile_the_allowance_is_not_read() {
    let mut lists = 0;
    let fixed = fixed::count() as u64;
    for number in fixed..fixed + 400 {
        let case = cases::case(5, number);
        let Some(fit) = case.fits.first() else {
            continue;
        };
        let (catalogue, fit) = (case.catalogue.image(), fit.image());
        let decoded = (Catalogue::decode(&catalogue), Fit::decode(&fit));
        let (Ok(known), Ok(read)) = decoded else {
            continue;
        };
        let original = reference::original_list(&known, &read);
        let expected = original.entries.concat();
        for allowance in [0, 1, case.league.allowance, u32::MAX] {
            let terms = Terms {
                profile: &[],
                allowance,
                ..Terms::default()
            };
            for (name, checker) in checkers() {
                let mut out = vec![0; 135_696];
                let word = checker.list(&catalogue, &fit, terms, &mut out);
                out.truncate(24 * word as usize);
                let entries = out.chunks_exact(24);
                let before = entries.filter(|entry| entry[1] != 26);
                let before: Vec<u8> = before.flatten().copied().collect();
                assert_eq!(before.len(), expected.len(), "{name}, case {number}");
                // The sign of an empty cargo sum is free in the original.
                if original.either_zero.is_none() {
                    assert_eq!(before, expected, "{name}, case {number}");
                }
            }
        }
        lists += 1;
    }
    assert!(lists > 200, "{lists} lists");
}
