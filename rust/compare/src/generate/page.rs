//! The limits that list and skill calls bring: most of them the main page's,
//! others around what the fit itself has.

use crate::case::{Ask, Case, Cause, Plant};
use crate::model::Fit;
use crate::page::Limits;
use crate::reference;
use crate::rng::Rng;

/// Limits of any page, low ones and those around the main page's.
const EDGES: [u32; 9] = [63, 64, 65, 255, 256, 257, 511, 512, 513];

/// Limits that are small where 8, 16 or 31 bits are left of them.
const HIGH: [u32; 6] = [
    u32::MAX,
    65_536,
    65_537,
    0x8000_0000,
    0x8000_0001,
    u32::MAX - 1,
];

/// Gives a case its limits. Where another refusal is planted they refuse
/// nothing.
pub fn bring(rng: &mut Rng, case: &mut Case) {
    let is_about_limits = |cause: Cause| matches!(cause, Cause::Pairs | Cause::Skills);
    let mut planted = case.planted.iter().map(|plant| plant.cause);
    if case.fits.is_empty() || planted.any(is_about_limits) {
        return;
    }
    if !case.planted.is_empty() {
        case.limits = generous(rng, case);
        return;
    }
    case.limits = limits(rng, case, &case.fits[0]);
    let grown = case.growth.of(&case.fits[0]);
    case.growth.limits = limits(rng, case, &grown);
}

fn pairs(fit: &Fit) -> u32 {
    fit.items.len().min(fit.results.len()) as u32
}

/// Limits that no planted refusal has to share a call with: 9 alone takes any
/// limit of skills.
fn generous(rng: &mut Rng, case: &Case) -> Limits {
    let own = pairs(&case.fits[0]);
    let has_9 = |plant: &Plant| plant.cause == Cause::Number(9);
    Limits {
        pairs: rng.pick(&[own, own, own + 1, 256, 257, u32::MAX]),
        skills: match case.planted.iter().any(has_9) {
            true => rng.pick(&[0, 1, 64, 511, 512, 513, 600, u32::MAX]),
            false => rng.pick(&[512, 512, 513, u32::MAX]),
        },
    }
}

fn limits(rng: &mut Rng, case: &Case, fit: &Fit) -> Limits {
    let asked = case.asks.iter().filter_map(|ask| match ask {
        Ask::Skill(result, _) | Ask::GrownSkill(result) => Some(*result),
        _ => None,
    });
    let asked: Vec<u32> = asked.collect();
    let wanted = |rng: &mut Rng| match asked.is_empty() {
        true => 0,
        false => wanted(case, fit, rng.pick(&asked)).unwrap_or(0),
    };
    Limits {
        pairs: limit(rng, Limits::MAIN.pairs, |_| pairs(fit)),
        skills: limit(rng, Limits::MAIN.skills, wanted),
    }
}

/// A limit beside what a fit has of its own: few refuse, so that most calls are
/// answered.
fn limit(rng: &mut Rng, main: u32, own: impl FnOnce(&mut Rng) -> u32) -> u32 {
    match rng.below(100) {
        0..=51 => main,
        52..=66 => own(rng),
        67..=73 => own(rng) + 1,
        74..=77 => own(rng).saturating_sub(1),
        78..=79 => 0,
        80 => 1,
        81..=91 => rng.pick(&EDGES),
        92..=97 => rng.pick(&HIGH),
        _ => rng.draw() as u32,
    }
}

/// How many skills a result wants, where the images are not refused.
fn wanted(case: &Case, fit: &Fit, result: u32) -> Option<u32> {
    let catalogue = reference::Catalogue::decode(&case.catalogue.image()).ok()?;
    let fit = reference::Fit::decode(&fit.image()).ok()?;
    reference::wanted(&catalogue, &fit, result).map(|wanted| wanted as u32)
}
