//! Leagues: lists with a profile beside the reference's, and profiles that the
//! crate builds and reads beside the comparison's.

use compare::cases;
use compare::checker::Terms;
use compare::profile::BANNED;
use compare::reference::{self, Catalogue, Fit, League};
use fitcheck::{Entry, ListOptions, Price, Profile, Reader, Refusal, Rule};

use crate::common::numbers;

#[test]
fn a_list_with_a_profile_is_the_references() {
    let (mut bans, mut points, mut refusals) = (0, 0, 0);
    for number in numbers(700) {
        let case = cases::case(17, number);
        let Some(fit) = case.fits.first() else {
            continue;
        };
        let (catalogue, fit, profile) = (case.catalogue.image(), fit.image(), case.league.image());
        let allowance = case.league.allowance;
        let terms = Terms {
            profile: &profile,
            allowance,
            ..Terms::default()
        };
        let expected = Catalogue::decode(&catalogue).and_then(|catalogue| {
            let (fit, league) = (Fit::decode(&fit)?, League::decode(terms)?);
            Ok(reference::list(&catalogue, &fit, &league))
        });
        let options = ListOptions::new(Reader::Officer).league(&profile, allowance);
        match (fitcheck::list(&catalogue, &fit, &options), expected) {
            (Ok(list), Ok(expected)) => {
                let bytes: Vec<_> = list.iter().map(Entry::to_bytes).collect();
                assert_eq!(bytes, expected.entries, "case {number}");
                let count = |is: fn(&Rule) -> bool| list.iter().filter(|it| is(&it.rule)).count();
                bans += count(|rule| matches!(rule, Rule::Banned { .. }));
                points += count(|rule| matches!(rule, Rule::Points { .. }));
            }
            (Err(refusal), Err(expected)) => {
                assert_eq!(refusal.number(), u32::from(expected), "case {number}");
                refusals += usize::from(refusal.is_of_profile());
            }
            (list, expected) => panic!("case {number}: {list:?} beside {expected:?}"),
        }
    }
    assert!(
        bans > 100 && points > 50 && refusals > 50,
        "{bans}, {points}, {refusals}"
    );
}

/// What the crate reads of a profile's bytes is what the reference reads.
#[test]
fn profiles_are_read_as_the_reference_reads_them() {
    let (mut read, mut refused) = (0, 0);
    for number in numbers(3_000) {
        let image = cases::case(19, number).league.image();
        if image.is_empty() {
            continue;
        }
        let terms = Terms {
            profile: &image,
            allowance: 0,
            ..Terms::default()
        };
        match (Profile::from_bytes(&image), League::decode(terms)) {
            (Ok(profile), Ok(league)) => {
                let prices = league.prices.expect("it has bytes");
                let points = |price| match price {
                    Price::Banned => BANNED,
                    Price::Points(points) => points,
                    other => panic!("{other:?}"),
                };
                let listed: Vec<(i32, u32)> = profile
                    .groups()
                    .map(|(group, price)| (group, points(price)))
                    .collect();
                assert_eq!(listed, prices);
                assert_eq!(profile.to_bytes(), image);
                read += 1;
            }
            (Err(refusal), Err(expected)) => {
                assert_eq!(refusal.number(), u32::from(expected));
                refused += 1;
            }
            (profile, league) => panic!("{profile:?} beside {league:?}"),
        }
    }
    assert!(
        read > 500 && refused > 100,
        "{read} read, {refused} refused"
    );
}

/// A profile in any order of its groups is never refused.
#[test]
fn what_is_built_is_accepted() {
    for number in numbers(1_500) {
        let league = cases::case(23, number).league;
        let mut profile = Profile::new();
        for price in league
            .profile
            .iter()
            .flat_map(|profile| profile.prices.iter().rev())
        {
            // What it does not take is left out.
            let _ = match price.points {
                BANNED => profile.ban(price.group),
                points => profile.price(price.group, points),
            };
        }
        let image = profile.to_bytes();
        let options = ListOptions::new(Reader::Officer).league(&image, league.allowance);
        let listed = fitcheck::list(&[0; 20], &[0; 36], &options);
        assert!(listed.is_ok(), "case {number}: {listed:?}");
        assert_eq!(Profile::from_bytes(&image), Ok(profile));
    }
    let short = ListOptions::new(Reader::Officer).league(&[0; 3], 0);
    let refused = fitcheck::list(&[0; 20], &[0; 36], &short);
    assert_eq!(refused, Err(Refusal::ProfileLength));
}
