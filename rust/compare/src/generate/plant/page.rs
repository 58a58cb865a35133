//! Refusal 13, planted: more pairs or more wanted skills than the limit. No
//! plant brings about any other refusal.

use super::ground::{Ground, chain};
use super::table::{Dig, an_item};
use crate::model::Outcome;
use crate::sketch::CARGO;

/// More pairs than the limit. Every ground has a pair.
pub const PAIRS: &[(&str, Dig)] = &[
    ("one pair more than the limit", |g, _| {
        g.limits.pairs = pairs(g) - 1
    }),
    ("a pair under a limit of 0", |g, _| g.limits.pairs = 0),
    ("65 pairs under a limit of 64", |g, _| {
        pair_up(g, 65);
        g.limits.pairs = 64;
    }),
    // Other plants put a few items or results behind these.
    ("250 pairs under a limit of 249", |g, _| {
        pair_up(g, 250);
        g.limits.pairs = 249;
    }),
    ("more items than the pairs over the limit", |g, _| {
        g.limits.pairs = pairs(g) - 1;
        g.fit.items.truncate(g.fit.results.len());
        g.fit.items.push(an_item(CARGO, 0));
    }),
    ("more results than the pairs over the limit", |g, _| {
        g.limits.pairs = pairs(g) - 1;
        g.fit.results.truncate(g.fit.items.len());
        g.fit.results.push(Outcome::default());
    }),
];

/// More skills than the limit, and no more than 512.
pub const SKILLS: &[(&str, Dig)] = &[
    ("two skills under a limit of 1", |g, _| {
        chain(g, 2);
        g.limits.skills = 1;
    }),
    ("a skill under a limit of 0", |g, _| {
        chain(g, 1);
        g.limits.skills = 0;
    }),
    ("65 skills under a limit of 64", |g, _| {
        chain(g, 65);
        g.limits.skills = 64;
    }),
    // The ground's ship may demand a few more.
    ("400 skills under a limit of 399", |g, _| {
        chain(g, 400);
        g.limits.skills = 399;
    }),
];

fn pairs(ground: &Ground) -> u32 {
    ground.fit.items.len().min(ground.fit.results.len()) as u32
}

/// So many items and as many results, cargo behind those that are there.
fn pair_up(ground: &mut Ground, count: usize) {
    ground.fit.items.resize(count, an_item(CARGO, 0));
    ground.fit.results.resize(count, Outcome::default());
}
