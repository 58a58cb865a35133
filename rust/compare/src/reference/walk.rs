//! The skill walk where a base value is finer than an f32, which the original
//! cannot be handed: in plain code, from document 01's "Skill walk". Where every
//! value is an f32 both give the same, which a test holds.

use original::{ItemResult, Rule, Target, Violation};

use super::{Catalogue, Fit};
use crate::names::REQUIRED;

/// The skills that a result wants, each with its level, in the order met.
pub fn wanted_skills(catalogue: &Catalogue, result: &ItemResult) -> Vec<(i32, u8)> {
    let names = (0..6).filter_map(|row| {
        let skill = catalogue.name(REQUIRED + 2 * row)?;
        let level = catalogue.name(REQUIRED + 2 * row + 1)?;
        Some((skill, level))
    });
    let names: Vec<(i32, i32)> = names.collect();
    let given = |attribute: i32| result.attributes.get(&attribute).map(|held| held.value);
    let mut wanted = Vec::new();
    note(&mut wanted, &names, given);
    let mut walked = 0;
    while let Some((skill, _)) = wanted.get(walked).copied() {
        walked += 1;
        note(&mut wanted, &names, |attribute| {
            catalogue.base(skill, attribute)
        });
    }
    wanted
}

/// Notes what a result, or a skill, demands by its values.
fn note(wanted: &mut Vec<(i32, u8)>, names: &[(i32, i32)], value: impl Fn(i32) -> Option<f64>) {
    for (skill, level) in names {
        let Some(id) = value(*skill) else {
            continue;
        };
        // Rust's casts are document 01's.
        let (id, level) = (id as i32, value(*level).unwrap_or(0.0) as u8);
        match wanted.iter_mut().find(|known| known.0 == id) {
            Some(known) => known.1 = known.1.max(level),
            None => wanted.push((id, level)),
        }
    }
}

/// What is trained lower than wanted.
pub fn report(
    catalogue: &Catalogue,
    fit: &Fit,
    result: &ItemResult,
    target: Target,
) -> Vec<Violation> {
    let trained = |skill: i32| fit.fit.character.skills.get(&skill).copied().unwrap_or(0);
    let wanted = wanted_skills(catalogue, result).into_iter();
    wanted
        .filter(|(skill, level)| trained(*skill) < *level)
        .map(|(skill, level)| Violation {
            target,
            rule: Rule::Skill {
                type_id: skill,
                required: level,
                level: trained(skill),
            },
        })
        .collect()
}

#[cfg(test)]
mod tests {
    use super::*;
    use crate::generate;
    use crate::reference::encode;

    /// On base values that are f32 the plain walk is the original's.
    #[test]
    fn the_plain_walk_is_the_original_one() {
        let mut walked = 0;
        for number in 0..3_000 {
            let case = generate::case(11, number);
            let Some(fit) = case.fits.first() else {
                continue;
            };
            let catalogue = Catalogue::decode(&case.catalogue.image());
            let fit = Fit::decode(&fit.image());
            let (Ok(catalogue), Ok(fit)) = (catalogue, fit) else {
                continue;
            };
            if catalogue.is_fine() {
                continue;
            }
            for result in (0..).map_while(|number| fit.result(number)) {
                let run = fit.run(&catalogue);
                assert_eq!(wanted_skills(&catalogue, result), run.wanted_skills(result));
                let plain = report(&catalogue, &fit, result, Target::Ship);
                let original = run.report(result, Target::Ship);
                let entries =
                    |list: &[Violation]| list.iter().map(encode::entry).collect::<Vec<_>>();
                assert_eq!(entries(&plain), entries(&original));
                walked += usize::from(!original.is_empty());
            }
        }
        assert!(walked > 1_000, "{walked} skill lists with entries");
    }
}
