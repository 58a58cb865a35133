//! Cargo behind a fit with as many results as items: of types of every kind, in
//! any state, with values under any of the names.

use crate::case::{Ask, Case, Growth};
use crate::model::{Catalogue, Damage, Fit, Item, Outcome};
use crate::numbers;
use crate::page::Limits;
use crate::rng::Rng;
use crate::sketch::CARGO;

/// No more items than this are put behind a fit.
const MOST: usize = 4;

/// Loads cargo behind the first fit of a case, where it has as many results as
/// items and room for more. Cases with a planted refusal stay as they are.
pub fn bring(rng: &mut Rng, case: &mut Case) {
    let Some(fit) = case.fits.first() else {
        return;
    };
    let is_even = fit.items.len() == fit.results.len() && fit.items.len() + MOST <= 256;
    let has_room = fit.attribute_total() < 29_000 && fit.damage == Damage::default();
    if !case.planted.is_empty() || !is_even || !has_room {
        return;
    }
    let last = fit.results.len() as u32 + 1;
    case.haul = haul(rng, case, &case.fits[0]);
    case.asks.push(Ask::HauledList);
    if rng.chance(300) {
        case.asks.extend((0..=last).map(Ask::HauledSkill));
    }
}

fn haul(rng: &mut Rng, case: &Case, fit: &Fit) -> Growth {
    let count = rng.between(1, MOST as i64) as usize;
    let (items, results) = match rng.below(8) {
        0 => (count, rng.below(count)),
        1 => (rng.below(count), count),
        _ => (count, count),
    };
    let pairs = (fit.items.len() + items.min(results)) as u32;
    let limits = match rng.below(4) {
        0 => Limits::of(pairs, case.limits.skills),
        1 => Limits::of(pairs + 1, Limits::MAIN.skills),
        2 => case.limits,
        _ => Limits::MAIN,
    };
    Growth {
        items: (0..items)
            .map(|_| item(rng, &case.catalogue, fit))
            .collect(),
        results: (0..results).map(|_| result(rng, &case.catalogue)).collect(),
        limits,
        ..Growth::default()
    }
}

fn item(rng: &mut Rng, catalogue: &Catalogue, fit: &Fit) -> Item {
    let any = rng.draw() as u32;
    Item {
        type_id: type_id(rng, catalogue, fit),
        quantity: rng.pick(&[0, 1, 2, 10, 1_000, 100_000, u32::MAX, any]),
        kind: CARGO,
        ..Item::default()
    }
}

/// A type of a kind that is drawn first, so that each is met, however few
/// types are of it.
fn type_id(rng: &mut Rng, catalogue: &Catalogue, fit: &Fit) -> i32 {
    let of: Option<fn(f32) -> bool> = match rng.below(8) {
        0 => Some(f32::is_nan),
        1 => Some(|volume| volume < 0.0),
        2 => Some(f32::is_infinite),
        3 if !fit.items.is_empty() => return fit.items[rng.below(fit.items.len())].type_id,
        4 => return rng.draw() as i32,
        5 => None,
        _ => Some(|_| true),
    };
    let own = catalogue.types.iter().filter(|row| match of {
        Some(of) => row.flag == 1 && of(f32::from_bits(row.volume)),
        None => row.flag == 0,
    });
    let own: Vec<i32> = own.map(|row| row.id).collect();
    match own.is_empty() {
        true => rng.between(-1, 40_000) as i32,
        false => rng.pick(&own),
    }
}

/// Any state, and values under some of the names.
fn result(rng: &mut Rng, catalogue: &Catalogue) -> Outcome {
    let mut attributes = Vec::new();
    for _ in 0..rng.below(5) {
        if !catalogue.names.is_empty() {
            let id = catalogue.names[rng.below(catalogue.names.len())].attribute;
            let value = match rng.below(3) {
                0 => numbers::odd(rng),
                1 => f64::from(rng.below(8) as u32).to_bits(),
                // The id of a type, a group or a skill.
                _ => f64::from(a_type(rng, catalogue)).to_bits(),
            };
            attributes.push((id, value));
        }
    }
    attributes.sort_by_key(|row| row.0);
    attributes.dedup_by_key(|row| row.0);
    Outcome {
        state: rng.below(4) as u8,
        attributes,
        ..Outcome::default()
    }
}

fn a_type(rng: &mut Rng, catalogue: &Catalogue) -> i32 {
    match catalogue.types.is_empty() {
        true => 0,
        false => catalogue.types[rng.below(catalogue.types.len())].id,
    }
}
