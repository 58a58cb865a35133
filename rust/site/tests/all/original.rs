//! What the calls give, held against what the original gives.
//!
//! `Rule` and `Target` have the original's names, fields and order, so an
//! entry and a violation print alike.

use compare::page::Limits;
use compare::reference::{self, Catalogue, Fit};
use fitcheck::{Entry, ListOptions, Reader, Refusal, Rule, SkillOptions};
use original::{Info, Run, Target, Violation};

use crate::common::{images, numbers};

pub fn printed(entries: &[Entry]) -> Vec<String> {
    entries
        .iter()
        .map(|entry| format!("{:?} {:?}", entry.target, entry.rule))
        .collect()
}

pub fn printed_originals(found: &[Violation]) -> Vec<String> {
    found
        .iter()
        .map(|violation| format!("{:?} {:?}", violation.target, violation.rule))
        .collect()
}

/// The entries whose rules the original has, and those of rule 26, which it has
/// not and which stand behind all others.
pub fn without_unknown(mut list: Vec<Entry>) -> (Vec<Entry>, Vec<Entry>) {
    let is_unknown = |entry: &Entry| matches!(entry.rule, Rule::UnknownType { .. });
    let known = list.iter().take_while(|entry| !is_unknown(entry)).count();
    let unknown = list.split_off(known);
    assert!(unknown.iter().all(is_unknown), "{unknown:?}");
    (list, unknown)
}

/// Rule 26 for each pair whose type the original does not find.
pub fn unknown_types(run: &Run<'_, Catalogue>) -> Vec<Entry> {
    let pairs = run.fit.items.iter().zip(&run.calculation.items);
    let types = pairs.map(|(item, _)| item.type_id).enumerate();
    let missing = types.filter(|(_, type_id)| run.info.get_type(*type_id).is_none());
    let entries = missing.map(|(index, type_id)| Entry {
        target: fitcheck::Target::Item { index },
        rule: Rule::UnknownType { type_id },
    });
    match run.is_hull() {
        true => entries.collect(),
        false => Vec::new(),
    }
}

/// Document 01 sums cargo from +0; some Rust releases sum from -0.
pub fn from_plus_zero(printed: Vec<String>) -> Vec<String> {
    let minus_zero = "resource: CargoBay, used: -0.0";
    printed
        .into_iter()
        .map(|line| line.replace(minus_zero, "resource: CargoBay, used: 0.0"))
        .collect()
}

fn number<T: std::fmt::Debug>(refused: Result<T, Refusal>) -> u32 {
    refused.expect_err("it is refused").number()
}

/// Rule 26 taken out, which it does not have.
#[test]
fn a_list_is_the_originals() {
    let mut lists = 0;
    let mut refusals = 0;
    let mut hangars = 0;
    let mut missing = 0;
    for case in numbers(700) {
        let (catalogue_image, fits) = images(11, case);
        for image in fits {
            let list = fitcheck::list(&catalogue_image, &image, &ListOptions::new(Reader::Officer));
            let decoded = Catalogue::decode(&catalogue_image)
                .and_then(|catalogue| Ok((catalogue, Fit::decode(&image)?)));
            let (catalogue, fit) = match decoded {
                Ok(decoded) => decoded,
                Err(refusal) => {
                    assert_eq!(number(list), u32::from(refusal), "case {case}");
                    refusals += 1;
                    continue;
                }
            };
            let list = list.unwrap_or_else(|refusal| panic!("case {case}: {refusal}"));
            let run = Run {
                info: &catalogue,
                fit: &fit.fit,
                calculation: &fit.calculation,
            };
            let (list, unknown) = without_unknown(list);
            assert_eq!(unknown, unknown_types(&run), "case {case}");
            missing += unknown.len();
            // More drones than 32 bits hold, the original cannot add up.
            if fit.hangar(&catalogue).is_some() {
                let bytes: Vec<_> = list.iter().map(Entry::to_bytes).collect();
                let expected = reference::original_list(&catalogue, &fit).entries;
                assert_eq!(bytes, expected, "case {case}");
                hangars += 1;
                continue;
            }
            let found: Vec<Violation> = run
                .validate()
                .into_iter()
                .filter(|violation| !matches!(violation.rule, original::Rule::Skill { .. }))
                .collect();
            assert_eq!(
                printed(&list),
                from_plus_zero(printed_originals(&found)),
                "case {case}"
            );
            lists += 1;
        }
    }
    assert!(lists > 1_000 && refusals > 100, "{lists} and {refusals}");
    assert!(hangars > 20 && missing > 100, "{hangars} and {missing}");
}

#[test]
fn skills_are_the_originals() {
    let mut lists = 0;
    let mut lacking = 0;
    for case in numbers(300) {
        let (catalogue_image, fits) = images(12, case);
        let Ok(catalogue) = Catalogue::decode(&catalogue_image) else {
            continue;
        };
        // Base values finer than an f32, the original's structures cannot hold.
        if catalogue.is_fine() {
            continue;
        }
        for image in fits.iter().take(2) {
            let Ok(fit) = Fit::decode(image) else {
                continue;
            };
            for result in 0..fit.calculation.items.len().min(4) as u32 + 2 {
                let skills = fitcheck::skills(
                    &catalogue_image,
                    image,
                    result,
                    &SkillOptions::new(Reader::Officer),
                );
                if let Err(refusal) = reference::skill(&catalogue, &fit, result, Limits::MAIN) {
                    assert_eq!(number(skills), u32::from(refusal), "case {case}");
                    continue;
                }
                let run = Run {
                    info: &catalogue,
                    fit: &fit.fit,
                    calculation: &fit.calculation,
                };
                let target = match result {
                    0 | 1 => Target::Ship,
                    _ => Target::Item {
                        index: result as usize - 2,
                    },
                };
                let found = run.report(fit.result(result).unwrap(), target);
                let skills = skills.unwrap_or_else(|refusal| panic!("case {case}: {refusal}"));
                assert_eq!(printed(&skills), printed_originals(&found), "case {case}");
                lists += 1;
                lacking += found.len();
            }
        }
    }
    assert!(lists > 1_000 && lacking > 1_000, "{lists} and {lacking}");
}

#[test]
fn a_result_beyond_the_last_is_refused_by_8() {
    let skills = |result| {
        fitcheck::skills(
            &[0; 20],
            &[0; 36],
            result,
            &SkillOptions::new(Reader::Officer),
        )
    };
    assert!(skills(1).is_ok());
    for result in [2, 3, 258, u32::MAX] {
        assert_eq!(skills(result), Err(Refusal::NoSuchResult));
    }
}
