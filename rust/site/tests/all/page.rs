//! Pages: lists and skills under the limits of generated cases beside the
//! reference's, and how far a refusal says that a limit is passed.

use compare::cases;
use compare::checker::Terms;
use compare::reference::{self, Catalogue, Fit, League};
use fitcheck::{Entry, Limits, ListOptions, Passed, Reader, Refusal, SkillOptions};

use crate::common::numbers;

fn of(limits: compare::page::Limits) -> Limits {
    Limits::main().pairs(limits.pairs).skills(limits.skills)
}

fn bytes(entries: &[Entry]) -> Vec<[u8; 24]> {
    entries.iter().map(Entry::to_bytes).collect()
}

/// Which limit is passed, by the reference's own counts.
fn passed(
    catalogue: &Catalogue,
    fit: &Fit,
    result: Option<u32>,
    limits: compare::page::Limits,
) -> Refusal {
    let pairs = fit.pairs().count() as u32;
    let wanted = result.and_then(|result| reference::wanted(catalogue, fit, result));
    let wanted = wanted.unwrap_or(0) as u32;
    Refusal::PageLimit(Some(match pairs > limits.pairs {
        true => Passed::Pairs {
            pairs,
            limit: limits.pairs,
        },
        false => Passed::Skills {
            wanted,
            limit: limits.skills,
        },
    }))
}

#[test]
fn lists_and_skills_under_limits_are_the_references() {
    let (mut answered, mut too_many_pairs, mut too_many_skills) = (0, 0, 0);
    for number in numbers(900) {
        let case = cases::case(23, number);
        let Some(fit) = case.fits.first() else {
            continue;
        };
        let (catalogue, image) = (case.catalogue.image(), fit.image());
        let (Ok(known), Ok(fit)) = (Catalogue::decode(&catalogue), Fit::decode(&image)) else {
            continue;
        };
        let profile = case.league.image();
        let terms = Terms {
            profile: &profile,
            allowance: case.league.allowance,
            limits: case.limits,
            ..Terms::default()
        };
        let limits = of(case.limits);
        let of_list = ListOptions::new(Reader::Officer)
            .league(&profile, case.league.allowance)
            .limits(limits);
        let of_skills = SkillOptions::new(Reader::Officer).limits(limits);
        let expected = reference::page::pairs(&fit, case.limits)
            .and_then(|()| League::decode(terms))
            .map(|league| reference::list(&known, &fit, &league));
        let mut calls = vec![(None, fitcheck::list(&catalogue, &image, &of_list), expected)];
        for result in 0..fit.calculation.items.len().min(4) as u32 + 3 {
            let expected = reference::skill(&known, &fit, result, case.limits);
            let given = fitcheck::skills(&catalogue, &image, result, &of_skills);
            calls.push((Some(result), given, expected));
        }
        for (result, given, expected) in calls {
            match (given, expected) {
                (Ok(given), Ok(expected)) => {
                    assert_eq!(bytes(&given), expected.entries, "case {number}");
                    answered += 1;
                }
                (Err(given), Err(13)) => {
                    let expected = passed(&known, &fit, result, case.limits);
                    assert_eq!(given, expected, "case {number}, {result:?}");
                    match given {
                        Refusal::PageLimit(Some(Passed::Pairs { .. })) => too_many_pairs += 1,
                        _ => too_many_skills += 1,
                    }
                }
                (Err(given), Err(expected)) => {
                    assert_eq!(given.number(), u32::from(expected), "case {number}");
                }
                (given, expected) => panic!("case {number}: {given:?} beside {expected:?}"),
            }
        }
    }
    assert!(
        answered > 1_000 && too_many_pairs > 100 && too_many_skills > 100,
        "{answered}, {too_many_pairs}, {too_many_skills}"
    );
}

/// The calls into a buffer say the same, and leave it as it is.
#[test]
fn a_refusal_into_a_buffer_says_as_much() {
    let (catalogue, mut fit) = ([0; 20], vec![0; 36 + 2 * 16]);
    fit[4] = 2;
    fit[8] = 2;
    let limits = Limits::main().pairs(1);
    let refused = Refusal::PageLimit(Some(Passed::Pairs { pairs: 2, limit: 1 }));
    let mut buffer = [7; 48];
    let list = ListOptions::new(Reader::Officer).limits(limits);
    let given = fitcheck::list_into(&catalogue, &fit, &list, &mut buffer);
    assert_eq!(given, Err(refused));
    let skills = SkillOptions::new(Reader::Officer).limits(limits);
    let given = fitcheck::skills_into(&catalogue, &fit, 0, &skills, &mut buffer);
    assert_eq!(given, Err(refused));
    assert_eq!(buffer, [7; 48]);
}
