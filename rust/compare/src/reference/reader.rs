//! Document 02's P14 in plain code: who may read what. The lists are the
//! original's, whoever reads them, but for what a guest's omits.

use super::{Listed, Refusal};
use crate::reader::Reader;

/// Rule NotASkill, the last of document 01's.
const NOT_A_SKILL: u8 = 21;

/// "Refusal 19 meets a reader above 2 and 20 a guest's skill call, both before
/// all others."
pub fn judged(reader: Reader, is_skill_call: bool) -> Result<(), Refusal> {
    match reader {
        Reader(3..) => Err(19),
        Reader(0) if is_skill_call => Err(20),
        Reader(0..=2) => Ok(()),
    }
}

/// "Pilots and officers get the full list; a guest's list and count omit
/// NotASkill."
pub fn given(full: Listed, reader: Reader) -> Listed {
    if reader != Reader::GUEST {
        return full;
    }
    let is_kept = |rule: u8| rule != NOT_A_SKILL;
    let before = |place: usize| {
        let before = full.entries[..place].iter();
        before.filter(|entry| is_kept(entry[1])).count()
    };
    let either_zero = full.either_zero.map(before);
    let mut entries = full.entries;
    entries.retain(|entry| is_kept(entry[1]));
    Listed {
        entries,
        either_zero,
    }
}

#[cfg(test)]
mod tests {
    use super::*;

    #[test]
    fn nineteen_is_for_numbers_above_2_and_20_for_a_guests_skill_call() {
        for is_skill_call in [false, true] {
            assert_eq!(judged(Reader::PILOT, is_skill_call), Ok(()));
            assert_eq!(judged(Reader::OFFICER, is_skill_call), Ok(()));
            for reader in Reader::ABOVE {
                assert_eq!(judged(reader, is_skill_call), Err(19));
            }
        }
        assert_eq!(judged(Reader::GUEST, false), Ok(()));
        assert_eq!(judged(Reader::GUEST, true), Err(20));
    }

    /// A list of these rules; the sign of the entry at a place is free.
    fn listed(rules: &[u8], either_zero: Option<usize>) -> Listed {
        let entry = |rule: &u8| {
            let mut entry = [0; 24];
            entry[1] = *rule;
            entry
        };
        Listed {
            entries: rules.iter().map(entry).collect(),
            either_zero,
        }
    }

    #[test]
    fn a_guests_list_omits_rule_21_alone() {
        let full = || listed(&[20, 21, 21, 1, 8, 24, 26], Some(3));
        assert_eq!(given(full(), Reader::PILOT), full());
        assert_eq!(given(full(), Reader::OFFICER), full());
        let guests = listed(&[20, 1, 8, 24, 26], Some(1));
        assert_eq!(given(full(), Reader::GUEST), guests);
        let nothing = listed(&[], None);
        assert_eq!(given(listed(&[21], None), Reader::GUEST), nothing);
    }
}
