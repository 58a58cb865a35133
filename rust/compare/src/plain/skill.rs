//! The walk over the skills that one result demands.

use super::Number;
use super::bytes::{to_i32, to_i32_wrapping, to_u8};
use super::context::Context;
use super::entry::{Entries, Target};
use super::fault::Fault;
use super::page::{Met, Page};

const REQUIRED: usize = 76;

/// The skills noted, in the order met.
pub struct Walk {
    pub ids: Vec<i32>,
    pub levels: Vec<u8>,
    /// How many of them the result itself demands.
    pub direct: usize,
}

impl Walk {
    fn note(&mut self, context: &Context, id: i32, level: u8) {
        match self.ids.iter().position(|known| *known == id) {
            Some(_) if context.flaw.has(Fault::LevelFirst) => {}
            Some(place) if context.flaw.has(Fault::LevelLast) => self.levels[place] = level,
            Some(place) => self.levels[place] = self.levels[place].max(level),
            None => {
                self.ids.push(id);
                self.levels.push(level);
            }
        }
    }
}

/// How many skills a result wants.
pub fn wanted(context: &Context, result: usize) -> usize {
    wanted_ids(context, result).len()
}

/// The skills that a result wants, at whatever level.
pub fn wanted_ids(context: &Context, result: usize) -> Vec<i32> {
    wanted_skills(context, result).ids
}

/// What one result lacks, or refusal 9 or 13.
pub fn report(
    context: &Context,
    result: usize,
    page: Page,
    entries: &mut Entries,
) -> Result<(), u8> {
    let flaw = context.flaw;
    let walk = wanted_skills(context, result);
    let target = match result {
        0 | 1 => Target::Ship,
        _ if flaw.has(Fault::SkillTarget) => Target::Ship,
        _ if flaw.has(Fault::SkillIndex) => Target::Pair(result),
        _ => Target::Pair(result - 2),
    };
    let mut met = Met {
        wanted: walk.ids.len(),
        at_levels: walk.levels.iter().filter(|level| **level > 0).count(),
        direct: walk.direct,
        listed: 0,
    };
    let mut wanted: Vec<(i32, u8)> = walk.ids.into_iter().zip(walk.levels).collect();
    wanted.truncate(page.looked_at(met.wanted));
    if flaw.has(Fault::SkillSorted) {
        wanted.sort();
    }
    for (id, level) in wanted {
        let trained = match context.fit.trained(id, flaw) {
            Some(trained) => trained,
            None if flaw.has(Fault::SkillUntrained) => continue,
            None => 0,
        };
        if flaw.has(Fault::MissingUnwanted) && context.catalogue.type_of(id).is_none() {
            continue;
        }
        if trained < level || (trained == level && flaw.has(Fault::SkillAtLevel)) {
            entries.add(target, 11, 0, &[id as u32, level.into(), trained.into()]);
        }
    }

    met.listed = entries.found.len();
    page.walked(context.fit, result, &met)
}

/// What a result wants, however much it is.
pub fn wanted_skills(context: &Context, result: usize) -> Walk {
    walked(context, |id| context.value(result, id))
}

/// What a type demands by its base values, and what that leads to.
pub fn demanded_skills(context: &Context, type_id: i32) -> Walk {
    walked(context, |id| context.catalogue.base(type_id, id))
}

/// The skills that some values demand, and those that these lead to.
fn walked(context: &Context, value: impl Fn(i32) -> Option<f64>) -> Walk {
    let flaw = context.flaw;
    let rows = if flaw.has(Fault::SkillSixth) { 5 } else { 6 };
    let pairs: Vec<(i32, Option<i32>)> = (0..rows)
        .filter_map(|row| {
            let skill = context.id(REQUIRED + 2 * row)?;
            match context.id(REQUIRED + 2 * row + 1) {
                None if !flaw.has(Fault::LevelNameless) => None,
                level => Some((skill, level)),
            }
        })
        .collect();

    let mut walk = Walk {
        ids: Vec::new(),
        levels: Vec::new(),
        direct: 0,
    };
    demands(context, &pairs, &mut walk, value);
    walk.direct = walk.ids.len();
    let mut next = 0;
    while next < walk.ids.len() {
        if flaw.has(Fault::WalkDirect) || (next >= walk.direct && flaw.has(Fault::WalkTwoSteps)) {
            break;
        }
        let skill = walk.ids[next];
        next += 1;
        demands(context, &pairs, &mut walk, |id| {
            context.catalogue.base(skill, id)
        });
    }
    walk
}

/// Notes what one result, or one skill, demands.
fn demands(
    context: &Context,
    pairs: &[(i32, Option<i32>)],
    walk: &mut Walk,
    value: impl Fn(i32) -> Option<f64>,
) {
    let flaw = context.flaw;
    for (skill, level) in pairs {
        let Some(id) = value(*skill) else {
            continue;
        };
        let missing = if flaw.has(Fault::LevelMissingIsOne) {
            1.0
        } else {
            0.0
        };
        let level = level.and_then(&value).unwrap_or(missing);
        let level = match flaw.has(Fault::LevelWraps) {
            true => level as i64 as u8,
            false => to_u8(level),
        };
        let id = match () {
            () if flaw.has(Fault::SkillRounded) => to_i32(id.round()),
            () if flaw.has(Fault::SkillWraps) => to_i32_wrapping(id),
            () => to_i32(id),
        };
        if id < 0 && flaw.has(Fault::WantedNegativeLost) {
            continue;
        }
        let id = flaw.id(Number::WantedId, id);
        walk.note(context, id, level);
    }
}
