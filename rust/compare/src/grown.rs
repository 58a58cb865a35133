//! Document 01's 'Two fits compared': every old entry has its own place in the
//! new list, in the old order, and no used number falls.

use crate::checker::Entry;
use crate::words;

const RESOURCE: u8 = 1;
const SLOTS: u8 = 2;
const SKILL: u8 = 11;
const MAX_GROUP: u8 = 17;
const MAX_TYPE: u8 = 18;
const POINTS: u8 = 25;

/// Where each old entry stands in the new list, or the first that has no place.
pub fn places(old: &[Entry], new: &[Entry]) -> Result<Vec<usize>, String> {
    let mut places = Vec::new();
    let mut next = 0;
    for (number, entry) in old.iter().enumerate() {
        // The earliest place leaves the most room for the entries behind, so
        // where this finds none there are no such places at all.
        match (next..new.len()).find(|place| stands_for(entry, &new[*place])) {
            Some(place) => {
                places.push(place);
                next = place + 1;
            }
            None => {
                return Err(format!(
                    "old entry {number} ({}) has no place in the new list",
                    words::entry(entry)
                ));
            }
        }
    }
    Ok(places)
}

/// Whether all bytes but used number and trained level are equal, the used
/// number is no lower and the trained level no higher.
pub(crate) fn stands_for(old: &Entry, new: &Entry) -> bool {
    let word = |entry: &Entry, at: usize| {
        u32::from_le_bytes([entry[at], entry[at + 1], entry[at + 2], entry[at + 3]])
    };
    let number = |entry: &Entry| {
        f64::from_bits(u64::from(word(entry, 8)) + (u64::from(word(entry, 12)) << 32))
    };
    let but = |from: usize, to: usize| old[..from] == new[..from] && old[to..] == new[to..];
    match old[1] {
        RESOURCE => but(8, 16) && number(new) >= number(old),
        SLOTS | POINTS => but(8, 12) && word(new, 8) >= word(old, 8),
        SKILL => but(16, 20) && word(new, 16) <= word(old, 16),
        MAX_GROUP | MAX_TYPE => but(12, 16) && word(new, 12) >= word(old, 12),
        _ => old == new,
    }
}

#[cfg(test)]
mod tests {
    use super::*;

    fn entry(rule: u8, words: [u32; 4]) -> Entry {
        let mut entry = [0; 24];
        entry[1] = rule;
        for (place, word) in entry[8..].chunks_exact_mut(4).zip(words) {
            place.copy_from_slice(&word.to_le_bytes());
        }
        entry
    }

    fn resource(used: f64, available: f64) -> Entry {
        let mut entry = [0; 24];
        entry[1] = RESOURCE;
        entry[8..16].copy_from_slice(&used.to_le_bytes());
        entry[16..].copy_from_slice(&available.to_le_bytes());
        entry
    }

    #[test]
    fn the_same_list_stands_for_itself() {
        let list = [entry(19, [0; 4]), entry(8, [0; 4])];
        assert_eq!(places(&list, &list), Ok(vec![0, 1]));
    }

    #[test]
    fn an_entry_may_not_vanish_nor_change_its_order() {
        let (a, b) = (entry(4, [0; 4]), entry(8, [0; 4]));
        assert!(places(&[a, b], &[a]).is_err());
        assert!(places(&[a, b], &[b, a]).is_err());
        assert_eq!(places(&[a, b], &[b, a, b]), Ok(vec![1, 2]));
        assert!(places(&[a, a], &[a]).is_err());
    }

    #[test]
    fn used_numbers_may_rise_and_not_fall() {
        assert!(places(&[entry(2, [3, 2, 0, 0])], &[entry(2, [4, 2, 0, 0])]).is_ok());
        assert!(places(&[entry(2, [3, 2, 0, 0])], &[entry(2, [2, 2, 0, 0])]).is_err());
        assert!(places(&[entry(2, [3, 2, 0, 0])], &[entry(2, [4, 3, 0, 0])]).is_err());
        assert!(places(&[entry(25, [9, 8, 0, 0])], &[entry(25, [10, 8, 0, 0])]).is_ok());
        assert!(places(&[entry(25, [9, 8, 0, 0])], &[entry(25, [8, 8, 0, 0])]).is_err());
        assert!(places(&[entry(25, [9, 8, 0, 0])], &[entry(25, [10, 9, 0, 0])]).is_err());
        assert!(places(&[entry(24, [9, 0, 0, 0])], &[entry(24, [10, 0, 0, 0])]).is_err());
        assert!(places(&[entry(17, [9, 3, 2, 0])], &[entry(17, [9, 4, 2, 0])]).is_ok());
        assert!(places(&[entry(17, [9, 3, 2, 0])], &[entry(17, [8, 4, 2, 0])]).is_err());
        assert!(places(&[entry(18, [9, 3, 2, 0])], &[entry(18, [9, 2, 2, 0])]).is_err());
        assert!(places(&[resource(1.5, 1.0)], &[resource(1.75, 1.0)]).is_ok());
        assert!(places(&[resource(1.5, 1.0)], &[resource(1.25, 1.0)]).is_err());
        assert!(places(&[resource(-0.0, -1.0)], &[resource(0.0, -1.0)]).is_ok());
        assert!(places(&[resource(0.0, -1.0)], &[resource(-0.0, -1.0)]).is_ok());
    }

    #[test]
    fn trained_levels_may_fall_and_not_rise() {
        let skill = |level| entry(SKILL, [3300, 4, level, 0]);
        assert!(places(&[skill(2)], &[skill(1)]).is_ok());
        assert!(places(&[skill(2)], &[skill(3)]).is_err());
        let other = entry(SKILL, [3300, 5, 2, 0]);
        assert!(places(&[skill(2)], &[other]).is_err());
    }

    #[test]
    fn the_earliest_place_is_enough() {
        // Two old entries of rule 2 against used numbers 5, 4: only in order.
        let slots = |used| entry(2, [used, 1, 0, 0]);
        assert_eq!(
            places(&[slots(3), slots(4)], &[slots(5), slots(4)]),
            Ok(vec![0, 1])
        );
        assert!(places(&[slots(3), slots(5)], &[slots(5), slots(4)]).is_err());
    }
}
