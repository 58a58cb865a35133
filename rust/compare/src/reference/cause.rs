//! Document 02's P9: the smallest part of a fit that shows an entry of its list. "Given
//! a fit and an entry's position, counted from 0, return the kept pairs, in order, such
//! that the entry is still listed, about the same item after renumbering and with the
//! same rule, sub and id. From the last pair to the first, each is dropped where the
//! entry stays without it." Whether it stays is the original's to say, of a fit that is
//! rebuilt from the pairs that are kept.

use super::{Catalogue, Fit, League, Listed, Refusal, list};
use crate::checker::Entry;

/// The rules that carry an id, which is their first word.
const WITH_ID: [u8; 5] = [11, 17, 18, 21, 26];

/// An entry of a fit, and the pairs that make it.
pub struct Cause<'a> {
    catalogue: &'a Catalogue,
    fit: &'a Fit,
    pub entry: Entry,
    /// A flag for each pair.
    pub kept: Vec<bool>,
}

/// The list in which positions count: an officer's, without a profile.
pub fn officers_list(catalogue: &Catalogue, fit: &Fit) -> Listed {
    list(catalogue, fit, &League::default())
}

/// 15: whether a pair in Cargo has a volume that is below zero, infinite or NaN.
pub fn bad_volume(catalogue: &Catalogue, fit: &Fit) -> bool {
    let mut cargo = fit
        .pairs()
        .filter(|(item, _)| item.slot == original::Slot::Cargo);
    cargo.any(|(item, _)| catalogue.volume(item.type_id).is_some_and(is_bad))
}

pub fn is_bad(volume: f32) -> bool {
    volume < 0.0 || !volume.is_finite()
}

impl<'a> Cause<'a> {
    /// What makes the entry at a position, or refusal 14 or 15.
    pub fn of(catalogue: &'a Catalogue, fit: &'a Fit, position: u32) -> Result<Cause<'a>, Refusal> {
        let listed = officers_list(catalogue, fit).entries;
        let entry = *listed.get(position as usize).ok_or(14)?;
        if bad_volume(catalogue, fit) {
            return Err(15);
        }
        let mut cause = Cause::whole(catalogue, fit, entry);
        for number in (0..cause.kept.len()).rev() {
            cause.kept[number] = false;
            if !cause.shows(&cause.kept) {
                cause.kept[number] = true;
            }
        }
        Ok(cause)
    }

    /// An entry, and every pair.
    pub fn whole(catalogue: &'a Catalogue, fit: &'a Fit, entry: Entry) -> Cause<'a> {
        Cause {
            catalogue,
            fit,
            entry,
            kept: vec![true; fit.pairs().count()],
        }
    }

    /// Whether a part still lists the entry, about the same item.
    pub fn shows(&self, kept: &[bool]) -> bool {
        let listed = officers_list(self.catalogue, &self.fit.part(kept)).entries;
        is_still_in(&listed, &self.entry, kept)
    }

    /// The numbers of the pairs that are kept.
    pub fn numbers(&self) -> Vec<u32> {
        let numbers = (0..).zip(&self.kept).filter(|(_, is_kept)| **is_kept);
        numbers.map(|(number, _)| number).collect()
    }

    /// The same, as the call writes them.
    pub fn image(&self) -> Vec<u8> {
        let numbers = self.numbers().into_iter();
        numbers.flat_map(u32::to_le_bytes).collect()
    }
}

/// Whether the list of a part has an entry of the whole fit, about the same item.
pub fn is_still_in(listed: &[Entry], entry: &Entry, kept: &[bool]) -> bool {
    let Some(wanted) = told_by(entry, |index| renumbered(kept, index)) else {
        return false;
    };
    let mut told = listed.iter().map(|entry| told_by(entry, Some));
    told.any(|told| told == Some(wanted))
}

/// What an entry is told by: its target, rule, sub and id. None where its item is in
/// no pair.
fn told_by(
    entry: &Entry,
    number: impl Fn(u32) -> Option<u32>,
) -> Option<(u8, u32, u8, u8, [u8; 4])> {
    let [target, rule, sub, ..] = *entry;
    let index = u32::from_le_bytes([entry[4], entry[5], entry[6], entry[7]]);
    let index = match target {
        0 => index,
        _ => number(index)?,
    };
    let id = match WITH_ID.contains(&rule) {
        true => [entry[8], entry[9], entry[10], entry[11]],
        false => [0; 4],
    };
    Some((target, index, rule, sub, id))
}

/// The number of a pair among those that are kept, if it is one of them.
fn renumbered(kept: &[bool], index: u32) -> Option<u32> {
    let index = index as usize;
    let before = kept[..index].iter().filter(|is_kept| **is_kept);
    kept[index].then(|| before.count() as u32)
}
