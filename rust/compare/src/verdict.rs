//! What a call must give, and where a checker's answer parts from it.

use crate::checker::{ENTRY, Entry, in_words, refused};
use crate::guard::Guarded;
use crate::reference::{Listed, Refusal};
use crate::words;

/// The rule that document 02's P5 puts behind a list.
const UNKNOWN_TYPE: u8 = 26;

/// What a call must give.
pub struct Expected {
    pub word: u64,
    pub listed: Listed,
}

/// The word and the entries for a buffer of so many bytes.
pub fn expected(listed: Result<Listed, Refusal>, length: usize) -> Expected {
    match listed {
        Ok(listed) if length < ENTRY * listed.entries.len() => Expected {
            word: refused(10),
            listed: Listed::default(),
        },
        Ok(listed) => Expected {
            word: listed.entries.len() as u64,
            listed,
        },
        Err(refusal) => Expected {
            word: refused(refusal),
            listed: Listed::default(),
        },
    }
}

/// The word and every byte of the buffer.
pub fn compare(expected: &Expected, word: u64, out: &Guarded) -> Result<(), String> {
    if !out.guards_hold() {
        return Err("the checker wrote beside the buffer".to_string());
    }
    let entries = &expected.listed.entries;
    if word != expected.word {
        let mut what = format!(
            "the original makes it {}, the checker {}",
            in_words(expected.word),
            in_words(word)
        );
        for entry in entries {
            what += &format!("\n  original: {}", words::entry(entry));
        }
        if word >> 32 == 0 {
            let written = (word as usize).saturating_mul(ENTRY).min(out.bytes().len());
            for entry in words::entries(&out.bytes()[..written]) {
                what += &format!("\n  checker:  {entry}");
            }
        }
        return Err(what);
    }
    same_entries(&expected.listed, out.bytes())?;
    if let Some(place) = out.first_written(ENTRY * entries.len()) {
        return Err(format!(
            "byte {place} of the buffer was written; the {} entries end before it",
            entries.len()
        ));
    }
    Ok(())
}

/// Each entry, against the bytes that begin with as many.
fn same_entries(listed: &Listed, bytes: &[u8]) -> Result<(), String> {
    for (number, entry) in listed.entries.iter().enumerate() {
        let given = &bytes[ENTRY * number..ENTRY * (number + 1)];
        if given == entry {
            continue;
        }
        if listed.either_zero == Some(number) && differs_in_zero(entry, given) {
            continue;
        }
        let place = (0..ENTRY).find(|at| given[*at] != entry[*at]).unwrap_or(0);
        return Err(format!(
            "entry {number} differs, first in its byte {place}\n  original: {}\n  checker:  {}",
            words::entry(entry),
            words::entries(given).concat()
        ));
    }
    Ok(())
}

/// Document 02's promise on rule 26: "Take those entries out and the list given
/// before, a profile's entries included, remains."
pub fn without_unknown(before: &Listed, given: &[u8]) -> Result<(), String> {
    let entries = given.chunks_exact(ENTRY);
    let kept: Vec<&[u8]> = entries.filter(|entry| entry[1] != UNKNOWN_TYPE).collect();
    if kept.len() != before.entries.len() {
        return Err(format!(
            "without rule 26 the checker lists {} entries; the list before has {}",
            kept.len(),
            before.entries.len()
        ));
    }
    let same = same_entries(before, &kept.concat());
    same.map_err(|what| format!("without rule 26, {what}"))
}

/// The word of a call that writes an image, and every byte of the buffer.
pub fn compare_bytes(
    expected: (u64, &[u8]),
    what: &str,
    word: u64,
    out: &Guarded,
) -> Result<(), String> {
    let (deserved, new) = expected;
    if !out.guards_hold() {
        return Err("the checker wrote beside the buffer".to_string());
    }
    if word != deserved {
        return Err(format!(
            "document 02 makes it {}, the checker {}",
            in_words(deserved),
            in_words(word)
        ));
    }
    let given = &out.bytes()[..new.len()];
    if let Some(place) = (0..new.len()).find(|place| given[*place] != new[*place]) {
        return Err(format!(
            "byte {place} of the {what} is {:#04x} by document 02, {:#04x} by the checker",
            new[place], given[place]
        ));
    }
    match out.first_written(new.len()) {
        Some(place) => Err(format!(
            "byte {place} of the buffer was written; the {what} ends before it"
        )),
        None => Ok(()),
    }
}

/// Whether two Resource entries differ in the sign of a zero `used` alone.
fn differs_in_zero(entry: &Entry, given: &[u8]) -> bool {
    let mut flipped = *entry;
    flipped[15] ^= 0x80;
    entry[8..15] == [0; 7] && given == flipped
}

pub fn hall_in_words(word: u64) -> String {
    if word >> 32 != 0 {
        return in_words(word);
    }
    format!(
        "clear {}, faulted {}, refused {} ({word})",
        word % 256,
        word / 256 % 256,
        word / 65_536
    )
}

#[cfg(test)]
mod tests {
    use super::*;

    #[test]
    fn only_the_sign_of_a_zero_used_is_passed_over() {
        let mut entry = [0; 24];
        entry[1..3].copy_from_slice(&[1, 11]);
        entry[16..].copy_from_slice(&(-1f64).to_le_bytes());
        let mut given = entry;
        given[15] = 0x80;
        assert!(differs_in_zero(&entry, &given));
        given[2] = 10;
        assert!(!differs_in_zero(&entry, &given));
        given[2] = 11;
        given[23] ^= 0x80;
        assert!(!differs_in_zero(&entry, &given));
        let mut one = entry;
        one[8] = 1;
        let mut other = one;
        other[15] = 0x80;
        assert!(!differs_in_zero(&one, &other));
    }

    fn listed(rules: &[u8]) -> Listed {
        let entry = |rule: &u8| {
            let mut entry = [0; ENTRY];
            entry[1] = *rule;
            entry
        };
        Listed {
            entries: rules.iter().map(entry).collect(),
            either_zero: None,
        }
    }

    #[test]
    fn without_rule_26_the_list_before_remains() {
        let holds = |before: &[u8], given: &[u8]| {
            let given = listed(given).entries.concat();
            without_unknown(&listed(before), &given).is_ok()
        };
        assert!(holds(&[], &[]));
        assert!(holds(&[], &[26, 26]));
        assert!(holds(&[4, 24], &[4, 24, 26]));
        assert!(!holds(&[4, 24], &[24, 26]));
        assert!(!holds(&[4, 24], &[24, 4, 26]));
        assert!(!holds(&[4], &[4, 24, 26]));
        assert!(!holds(&[26], &[26]));
    }

    #[test]
    fn a_short_buffer_is_refusal_10() {
        let listed = Listed {
            entries: vec![[0; 24]; 2],
            either_zero: None,
        };
        assert_eq!(expected(Ok(listed.clone()), 47).word, refused(10));
        assert_eq!(expected(Ok(listed.clone()), 48).word, 2);
        assert_eq!(expected(Ok(listed), 49).word, 2);
        assert_eq!(expected(Ok(Listed::default()), 0).word, 0);
        assert_eq!(expected(Err(9), 0).word, refused(9));
    }
}
