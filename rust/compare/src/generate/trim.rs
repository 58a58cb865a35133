//! Catalogues trimmed to what a fit touches; in some, types are missing that stand
//! above links and base values, and records hold bytes that no number holds.

use super::a_room;
use super::plant::{self, Calls};
use crate::case::{Ask, Case, Room};
use crate::model::{Catalogue, Damage, Type};
use crate::rng::Rng;

/// A trim that is refused, for one cause or for two.
pub fn planted(rng: &mut Rng) -> Case {
    let (plants, pairs) = (plant::trimming(), plant::trimming_pairs());
    plant::either(rng, &plants, &pairs, Calls::Trims)
}

/// Has the catalogue of a case trimmed to its first fit. Cases with a planted
/// refusal stay as they are.
pub fn bring(rng: &mut Rng, case: &mut Case) {
    if case.fits.is_empty() || !case.planted.is_empty() || !rng.chance(300) {
        return;
    }
    if case.catalogue.damage == Damage::default() && rng.chance(300) {
        roughen(rng, &mut case.catalogue);
    }
    case.asks.push(Ask::Trim(Room::Exact));
    case.asks.push(Ask::Trim(a_room(rng)));
    if rng.chance(500) {
        case.asks.push(Ask::Trimmed);
    }
}

/// Types go while their links and base values stay, some are repeated, and volumes
/// get bits of every kind.
fn roughen(rng: &mut Rng, catalogue: &mut Catalogue) {
    let often = rng.pick(&[20, 100, 400]);
    catalogue.types.retain(|_| !rng.chance(often));
    for row in &mut catalogue.types {
        if rng.chance(often) {
            row.volume = rng.pick(&[1, 0x7FC0_0001, 0xFFC0_0000, 0x7F80_0001, 0x8000_0000]);
        }
    }
    if !catalogue.links.is_empty() && rng.chance(500) {
        let place = rng.below(catalogue.links.len());
        catalogue.links.insert(place, catalogue.links[place]);
    }
    // Mode 0 is no id under flag 0.
    if let Err(place) = catalogue.types.binary_search_by_key(&0, |row| row.id)
        && catalogue.types.is_sorted_by(|a, b| a.id < b.id)
    {
        let none = Type {
            id: 0,
            group: 0,
            category: 0,
            flag: 0,
            volume: 0,
        };
        catalogue.types.insert(place, none);
    }
}
