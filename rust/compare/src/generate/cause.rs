//! Entries of a list, and which pairs make them; most often entries that others than
//! their own pair make.

use super::a_room;
use super::plant::{self, Calls};
use crate::case::{Ask, Case, Position, Room};
use crate::checker::Entry;
use crate::reference;
use crate::rng::Rng;

/// A cause that is refused, for one reason or for two.
pub fn planted(rng: &mut Rng) -> Case {
    let (plants, pairs) = (plant::causing(), plant::causing_pairs());
    plant::either(rng, &plants, &pairs, Calls::Causes)
}

/// Asks which pairs make some entries of a case's first fit. Cases with a planted
/// refusal stay as they are.
pub fn bring(rng: &mut Rng, case: &mut Case) {
    if case.fits.is_empty() || !case.planted.is_empty() || !rng.chance(300) {
        return;
    }
    let entries = entries(case);
    let (more, few): (Vec<u32>, Vec<u32>) =
        (0..entries.len() as u32).partition(|position| takes_others(&entries[*position as usize]));
    for _ in 0..3 {
        let from = match rng.chance(700) && !more.is_empty() {
            true => &more,
            false => &few,
        };
        if from.is_empty() {
            continue;
        }
        let position = Position::Of(rng.pick(from));
        case.asks.push(Ask::Cause(position, Room::Exact));
        case.asks.push(Ask::Cause(position, a_room(rng)));
        if rng.chance(300) {
            case.asks.push(Ask::Caused(position));
        }
    }
    let any = rng.draw() as u32;
    let beyond = [Position::Last, Position::Behind, Position::Of(any)];
    let position = rng.pick(&beyond);
    case.asks.push(Ask::Cause(position, a_room(rng)));
}

/// An officer's list of the first fit; nothing where an image is refused.
pub fn entries(case: &Case) -> Vec<Entry> {
    let catalogue = reference::Catalogue::decode(&case.catalogue.image());
    let fit = reference::Fit::decode(&case.fits[0].image());
    match (catalogue, fit) {
        (Ok(catalogue), Ok(fit)) => reference::officers_list(&catalogue, &fit).entries,
        _ => Vec::new(),
    }
}

/// Whether other pairs than its own may make an entry.
fn takes_others(entry: &Entry) -> bool {
    matches!(entry[1..3], [1, 5 | 11] | [2 | 8 | 10 | 17 | 18, _])
}
