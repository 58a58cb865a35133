//! Refusal 16, planted: more skills than a fit lists, once those of the first
//! list are added. No plant brings about any other refusal, and each leaves room
//! for a few listed skills more.

use super::ground::{Ground, chain};
use super::table::Dig;
use crate::model::Skill;

pub const FULL: &[(&str, Dig)] = &[
    ("1,000 skills and 25 to add", |g, _| {
        carried_over(g, 1_000, 25)
    }),
    ("1,000 skills and 400 to add", |g, _| {
        carried_over(g, 1_000, 400)
    }),
    ("700 skills and 400 to add", |g, _| {
        carried_over(g, 700, 400)
    }),
];

/// So many listed skills, and a ship that demands so many others.
fn carried_over(ground: &mut Ground, listed: usize, added: i32) {
    let skills = &mut ground.fit.skills;
    let last = skills.last().map_or(0, |skill| skill.id);
    // Behind those that the ship demands.
    let first = last.max(2_000_000) + 1;
    let missing = listed.saturating_sub(skills.len()) as i32;
    skills.extend((first..first + missing).map(|id| Skill { id, level: 1 }));
    chain(ground, added);
}
