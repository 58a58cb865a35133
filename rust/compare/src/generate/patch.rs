//! What a patch of the game does to a catalogue: types go, with their links and
//! base values or without, and others lose their group and category.

use crate::case::Case;
use crate::model::Catalogue;
use crate::rng::Rng;

/// Patches some cases: types that their fits name go. Cases with a planted
/// refusal stay as they are.
pub fn apply(rng: &mut Rng, case: &mut Case) {
    if !case.planted.is_empty() || !rng.chance(150) {
        return;
    }
    let own = case.fits.iter().flat_map(|fit| &fit.items);
    let added = case.growth.items.iter();
    let named: Vec<i32> = own.chain(added).map(|item| item.type_id).collect();
    let most = rng.pick(&[100, 300, 1000]);
    for type_id in named {
        if !rng.chance(most) {
            continue;
        }
        match rng.below(4) {
            0 => empty(&mut case.catalogue, type_id),
            1 => gone(&mut case.catalogue, type_id),
            _ => case.catalogue.types.retain(|row| row.id != type_id),
        }
    }
}

/// The type stays, of group 0 and category 0.
fn empty(catalogue: &mut Catalogue, type_id: i32) {
    for row in &mut catalogue.types {
        if row.id == type_id {
            (row.group, row.category) = (0, 0);
        }
    }
}

/// The type goes, and what stands under its id.
fn gone(catalogue: &mut Catalogue, type_id: i32) {
    catalogue.types.retain(|row| row.id != type_id);
    catalogue.links.retain(|row| row.type_id != type_id);
    catalogue.bases.retain(|row| row.type_id != type_id);
}
