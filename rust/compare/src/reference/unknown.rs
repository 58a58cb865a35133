//! Document 02's P5 in plain code: rule 26, which the original does not know,
//! for every pair whose type is not among the catalogue's.

use super::{Catalogue, Fit};
use crate::checker::Entry;

/// The entries of rule 26, by pair.
pub fn entries(catalogue: &Catalogue, fit: &Fit) -> Vec<Entry> {
    let mut entries = Vec::new();
    for (index, (item, _)) in fit.pairs().enumerate() {
        if !catalogue.has_type(item.type_id) {
            entries.push(entry(index as u32, item.type_id));
        }
    }
    entries
}

/// Target Item, rule 26, sub 0, and the type id's 32 bits.
fn entry(index: u32, type_id: i32) -> Entry {
    let mut bytes = [0; 24];
    bytes[..2].copy_from_slice(&[1, 26]);
    bytes[4..8].copy_from_slice(&index.to_le_bytes());
    bytes[8..12].copy_from_slice(&type_id.to_le_bytes());
    bytes
}
