//! Fits that grow: items and results put behind, trained levels lowered.

use super::fit::{fit, item, result};
use super::skills;
use super::world::{Role, Style, World};
use crate::case::{Ask, Case, Growth};
use crate::model::{Fit, Item, Outcome};
use crate::rng::Rng;
use crate::sketch::CARGO;

pub fn growth(rng: &mut Rng) -> Case {
    if rng.chance(250) {
        return skills_grown(rng);
    }
    let style = match rng.chance(600) {
        true => Style::realistic(rng),
        false => Style::adversarial(rng),
    };
    let world = World::new(rng, style);
    let mut old = fit(rng, &world, style, 14);
    pair_up(&mut old);
    let mut growth = Growth {
        lowered: old.skills.iter().map(|_| fall(rng)).collect(),
        ..Growth::default()
    };
    for _ in 0..rng.below(8) {
        let added = match old.items.is_empty() || rng.chance(700) {
            true => {
                let kind = rng.below(12) as u8;
                item(rng, &world, style, &old, kind)
            }
            false => rng.pick(&old.items),
        };
        growth
            .results
            .push(result(rng, &world, style, &added, old.ship_type, 1.0));
        growth.items.push(added);
    }
    for _ in 0..rng.below(3) {
        growth.items.push(Item {
            type_id: world.a(rng, Role::Cargo),
            quantity: rng.between(0, 100_000) as u32,
            kind: CARGO,
            zero: 0,
            index: 0,
        });
        growth.results.push(Outcome::default());
    }
    match rng.below(4) {
        0 => growth.items.truncate(rng.below(growth.items.len() + 1)),
        1 => growth.results.truncate(rng.below(growth.results.len() + 1)),
        _ => {}
    }
    grown("a fit that grows", world.catalogue, old, growth)
}

/// A graph of skills whose levels fall.
fn skills_grown(rng: &mut Rng) -> Case {
    let case = skills::graph(rng);
    let mut old = case.fits[0].clone();
    pair_up(&mut old);
    let growth = Growth {
        items: vec![Item::default(); rng.below(3)],
        results: vec![Outcome::default(); rng.below(3)],
        lowered: old.skills.iter().map(|_| fall(rng)).collect(),
        ..Growth::default()
    };
    grown("skills that are lowered", case.catalogue, old, growth)
}

/// Both lists, and the skills of every old result.
pub fn grown(title: &str, catalogue: crate::model::Catalogue, old: Fit, growth: Growth) -> Case {
    let last = old.results.len() as u32 + 1;
    let mut asks = vec![Ask::GrownList];
    asks.extend((0..=last).map(Ask::GrownSkill));
    Case {
        title: title.to_string(),
        catalogue,
        fits: vec![old],
        growth,
        asks,
        ..Case::default()
    }
}

/// As many results as items.
fn pair_up(fit: &mut Fit) {
    let pairs = fit.items.len().min(fit.results.len());
    fit.items.truncate(pairs);
    fit.results.truncate(pairs);
}

fn fall(rng: &mut Rng) -> u8 {
    match rng.below(4) {
        0 => 1,
        1 => rng.below(6) as u8,
        2 => 255,
        _ => 0,
    }
}
