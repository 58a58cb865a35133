//! Which pairs to take off: of fits that have two of everything, with limits on some, so
//! that sets of every size are good.

use super::a_room;
use super::plant::{self, Calls};
use crate::case::{Ask, Case, Room};
use crate::model::{Damage, Fit};
use crate::reference::leave_out::{FEW, SETS, tries};
use crate::rng::Rng;

/// Leaving out that is refused, for one cause or for two.
pub fn planted(rng: &mut Rng) -> Case {
    let (plants, pairs) = (plant::leaving_out(), plant::leaving_out_pairs());
    plant::either(rng, &plants, &pairs, Calls::LeaveOuts)
}

/// Asks what to take off a case's first fit. Cases with a planted refusal stay as they
/// are.
pub fn bring(rng: &mut Rng, case: &mut Case) {
    if case.fits.is_empty() || !case.planted.is_empty() || !rng.chance(250) {
        return;
    }
    let pairs = case.fits[0].items.len().min(case.fits[0].results.len());
    // Sets of many pairs take long, so most fits keep few.
    let is_long = pairs > FEW && pairs <= SETS;
    if is_long && !rng.chance(150) {
        return;
    }
    if case.fits.len() == 1 && case.fits[0].damage == Damage::default() && rng.chance(600) {
        crowd(rng, &mut case.fits[0]);
    }
    let all = tries(pairs);
    let few = pairs as u32;
    let any = rng.draw() as u32;
    let budgets = [
        0,
        1,
        few.saturating_sub(1),
        few,
        few + 1,
        all - 1,
        all,
        all + 1,
        any % (all + 2),
        any,
    ];
    case.asks.push(Ask::LeaveOut(u32::MAX, Room::Exact));
    for _ in 0..3 {
        let budget = rng.pick(&budgets);
        case.asks.push(Ask::LeaveOut(budget, Room::Exact));
        case.asks.push(Ask::LeaveOut(budget, a_room(rng)));
    }
    if rng.chance(if is_long { 100 } else { 300 }) {
        case.asks.push(Ask::LeftOut);
    }
}

/// Has some pairs become like others, in their slot, their type or their values.
fn crowd(rng: &mut Rng, fit: &mut Fit) {
    let pairs = fit.items.len().min(fit.results.len());
    if pairs < 2 {
        return;
    }
    for number in 0..pairs {
        let other = rng.below(pairs);
        if rng.chance(300) {
            fit.items[number].type_id = fit.items[other].type_id;
        }
        if rng.chance(300) {
            let (kind, index) = (fit.items[other].kind, fit.items[other].index);
            (fit.items[number].kind, fit.items[number].index) = (kind, index);
        }
        let held: usize = fit
            .results
            .iter()
            .map(|result| result.attributes.len())
            .sum();
        if rng.chance(200) && held < 4_096 {
            fit.results[number] = fit.results[other].clone();
        }
    }
}
