//! Training of a fit for some of its results, with few steps or many; and fits
//! whose listed skills come to 1,024 by it, or to a few more.

use std::collections::BTreeSet;

use super::plant::{self, Calls};
use super::{a_room, plant::steps};
use crate::case::{Ask, Case, Room, Steps};
use crate::model::{Damage, Skill};
use crate::reference::{self, Missing};
use crate::rng::Rng;

/// No more skills than a fit lists.
const MOST: usize = 1_024;

/// A training that is refused, for one cause or for two.
pub fn planted(rng: &mut Rng) -> Case {
    let (plants, pairs) = (plant::training(), plant::training_pairs());
    plant::either(rng, &plants, &pairs, Calls::Trainings)
}

/// Has the first fit of a case trained. Cases with a planted refusal stay as they
/// are.
pub fn bring(rng: &mut Rng, case: &mut Case) {
    if case.fits.is_empty() || !case.planted.is_empty() {
        return;
    }
    let asks_for_skills = |ask: &Ask| matches!(ask, Ask::Skill(..));
    let often = match case.asks.iter().any(asks_for_skills) {
        true => 500,
        false => 100,
    };
    if !rng.chance(often) {
        return;
    }
    let results = case.fits[0].results.len();
    let result = match rng.below(4) {
        0 => 0,
        1 => 1,
        _ => rng.below(results + 3) as u32,
    };
    if rng.chance(30) && case.fits[0].damage == Damage::default() {
        crowd(rng, case, result);
    }
    case.asks
        .push(Ask::Train(result, any_steps(rng), Room::Exact));
    case.asks
        .push(Ask::Train(result, any_steps(rng), a_room(rng)));
    if rng.chance(400) {
        case.asks.push(Ask::Trained(result, any_steps(rng)));
    }
}

/// Steps that are low in 8, 16, 24 or 31 bits too.
fn any_steps(rng: &mut Rng) -> Steps {
    match rng.below(10) {
        0..=6 => steps(rng),
        7 => Steps::Of(rng.below(40) as u32),
        8 => Steps::Of(rng.pick(&[256, 257, 65_536, 65_537, 1 << 24, 1 << 31])),
        _ => Steps::Of(rng.draw() as u32),
    }
}

/// Lists so many other skills that those of the result come to about 1,024.
fn crowd(rng: &mut Rng, case: &mut Case, result: u32) {
    let Some(added) = added(case, result) else {
        return;
    };
    let wanted = MOST - 2 + rng.below(5);
    let skills = &mut case.fits[0].skills;
    let missing = wanted.saturating_sub(skills.len() + added.len());
    let mut known: BTreeSet<i32> = skills.iter().map(|skill| skill.id).collect();
    known.extend(&added);
    let mut id = rng.pick(&[i32::MIN, -500, 3_000, 2_000_000]);
    for _ in 0..missing.min(MOST.saturating_sub(skills.len())) {
        while known.contains(&id) {
            id += 1;
        }
        skills.push(Skill {
            id,
            level: rng.below(6) as u8,
        });
        id += rng.between(1, 9) as i32;
    }
    skills.sort_by_key(|skill| skill.id);
}

/// The skills that training a result adds, where the images are not refused.
fn added(case: &Case, result: u32) -> Option<Vec<i32>> {
    let catalogue = reference::Catalogue::decode(&case.catalogue.image()).ok()?;
    let fit = reference::Fit::decode(&case.fits[0].image()).ok()?;
    let first = reference::first_list(&catalogue, &fit, result).ok()?;
    let is_new = |entry: &&Missing| !fit.fit.character.skills.contains_key(&entry.skill);
    Some(
        first
            .iter()
            .filter(is_new)
            .map(|entry| entry.skill)
            .collect(),
    )
}
