//! Document 02's P2 in plain code: the original knows no league. A profile is
//! decoded, refused by 11 and 12, and asked for what rules 24 and 25 list.

use original::{FitItem, Info, Slot};

use super::words::Reader;
use super::{Catalogue, Fit, Refusal};
use crate::checker::{Entry, Terms};

const BANNED: u32 = 4_294_967_295;

/// What a list call brings, decoded.
#[derive(Clone, Debug, Default)]
pub struct League {
    /// Every group with its points; none without a profile.
    pub prices: Option<Vec<(i32, u32)>>,
    pub allowance: u32,
}

impl League {
    /// What the bytes hold, or the first refusal of 11 and 12 that they
    /// deserve.
    pub fn decode(terms: Terms) -> Result<League, Refusal> {
        Ok(League {
            prices: decode(terms.profile)?,
            allowance: terms.allowance,
        })
    }

    /// The points of a group that is listed.
    pub fn points(&self, group: i32) -> Option<u32> {
        let mut prices = self.prices.iter().flatten();
        prices.find(|price| price.0 == group).map(|price| price.1)
    }

    /// What the fitted pairs cost together: a group that is banned or not
    /// listed costs 0.
    pub fn cost(&self, catalogue: &Catalogue, fit: &Fit) -> u64 {
        let groups = fitted(catalogue, fit).map(|(_, group)| group);
        let points = groups.filter_map(|group| self.points(group));
        let costs = points.filter(|points| *points != BANNED);
        costs.map(u64::from).sum()
    }

    /// The entries of rule 24 by pair, and then that of rule 25.
    pub fn entries(&self, catalogue: &Catalogue, fit: &Fit) -> Vec<Entry> {
        let mut entries = Vec::new();
        for (index, group) in fitted(catalogue, fit) {
            if self.points(group) == Some(BANNED) {
                entries.push(entry(1, 24, index as u32, [group as u32, 0]));
            }
        }
        let used = self.cost(catalogue, fit);
        if self.prices.is_some() && used > u64::from(self.allowance) {
            // 256 pairs of at most 1,000,000 points.
            entries.push(entry(0, 25, 0, [used as u32, self.allowance]));
        }
        entries
    }
}

/// The profile of so many bytes.
fn decode(bytes: &[u8]) -> Result<Option<Vec<(i32, u32)>>, Refusal> {
    if bytes.is_empty() {
        return Ok(None);
    }
    let mut reader = Reader::new(bytes);
    let size = reader.u32().ok_or(11)?;
    if size > 4_096 || bytes.len() != 4 + 8 * size as usize {
        return Err(11);
    }
    let groups = reader.many(size as usize, Reader::i32).ok_or(11)?;
    let points = reader.many(size as usize, Reader::u32).ok_or(11)?;
    let ascend = groups.is_sorted_by(|a, b| a < b);
    let in_range = |points: &u32| *points <= 1_000_000 || *points == BANNED;
    match ascend && points.iter().all(in_range) {
        true => Ok(Some(groups.into_iter().zip(points).collect())),
        false => Err(12),
    }
}

/// The index and the group of every pair that is fitted. A type that the
/// catalogue lacks has group 0.
pub fn fitted<'a>(
    catalogue: &'a Catalogue,
    fit: &'a Fit,
) -> impl Iterator<Item = (usize, i32)> + 'a {
    let pairs = fit.pairs().enumerate();
    let fitted = pairs.filter(|(_, (item, _))| is_fitted(item));
    fitted.map(|(index, (item, _))| (index, group(catalogue, item)))
}

pub fn group(catalogue: &Catalogue, item: &FitItem) -> i32 {
    let row = catalogue.get_type(item.type_id);
    row.map_or(0, |row| row.group_id())
}

/// Document 01: "Fitted means slot kinds 0 to 5."
fn is_fitted(item: &FitItem) -> bool {
    match item.slot {
        Slot::High(_) | Slot::Medium(_) | Slot::Low(_) => true,
        Slot::Rig(_) | Slot::Subsystem(_) | Slot::Service(_) => true,
        Slot::FighterTube(_) | Slot::FighterBay | Slot::Implant(_) => false,
        Slot::Booster(_) | Slot::DroneBay | Slot::Cargo => false,
    }
}

fn entry(target: u8, rule: u8, index: u32, words: [u32; 2]) -> Entry {
    let mut bytes = [0; 24];
    bytes[..2].copy_from_slice(&[target, rule]);
    bytes[4..8].copy_from_slice(&index.to_le_bytes());
    bytes[8..12].copy_from_slice(&words[0].to_le_bytes());
    bytes[12..16].copy_from_slice(&words[1].to_le_bytes());
    bytes
}
