//! What a difference is about: the rules whose entries differ, or the refusals.

use std::collections::BTreeSet;
use std::fmt;

use super::{Readers, Source, Stage, Subject, caught};
use crate::case::{Ask, Lists, Room};
use crate::checker::{Checker, ENTRY, Entry};
use crate::guard::Fill;
use crate::words::RULES;

/// What a difference is about.
#[derive(Clone, Debug, PartialEq, Eq)]
pub enum Shown {
    /// Rules with entries that are missing, added, changed or moved.
    Rules(BTreeSet<u8>),
    /// The refusal that the call deserves and the one that it is given; 0
    /// where it is answered.
    Refusals(u8, u8),
    /// How many fits of a hall are clear, faulted and refused.
    HallNumber,
    /// The bytes of a widened catalogue, or how many they are.
    Widened,
    /// The bytes of a trained fit, or how many they are.
    Trained,
    /// What is promised of the skill lists along a training.
    Training,
    /// The bytes of a trimmed catalogue, or how many they are.
    Trimmed,
    /// What is promised of the lists under a trimmed catalogue, and of a second trim.
    UnderTrimmed,
    /// The pairs that make an entry, or how many they are.
    Cause,
    /// What is promised of them.
    Least,
    /// The pairs to take off, or what is written before them.
    LeftOut,
    /// What is promised of them.
    Enough,
    /// Bytes of the buffer that are not the entries', or the count alone.
    Buffer,
    Panic,
}

impl fmt::Display for Shown {
    fn fmt(&self, out: &mut fmt::Formatter) -> fmt::Result {
        let word = |refusal: &u8| match refusal {
            0 => "an answer".to_string(),
            refusal => format!("refusal {refusal}"),
        };
        match self {
            Shown::Rules(rules) => {
                let names: Vec<&str> = rules.iter().map(|rule| RULES[usize::from(*rule)]).collect();
                match names.len() {
                    0..=3 => out.write_str(&names.join(", ")),
                    more => write!(out, "{}, {} and {} more", names[0], names[1], more - 2),
                }
            }
            Shown::Refusals(expected, given) => {
                write!(out, "{} instead of {}", word(given), word(expected))
            }
            Shown::HallNumber => out.write_str("the hall number"),
            Shown::Widened => out.write_str("the widened catalogue"),
            Shown::Trained => out.write_str("the trained fit"),
            Shown::Training => out.write_str("the skills after a step"),
            Shown::Trimmed => out.write_str("the trimmed catalogue"),
            Shown::UnderTrimmed => out.write_str("the lists under a trimmed catalogue"),
            Shown::Cause => out.write_str("the pairs that make an entry"),
            Shown::Least => out.write_str("the lists of parts"),
            Shown::LeftOut => out.write_str("what to take off"),
            Shown::Enough => out.write_str("what the budgets come to"),
            Shown::Buffer => out.write_str("the buffer"),
            Shown::Panic => out.write_str("a panic"),
        }
    }
}

/// More than any list takes, so that the buffer does not come between.
const ANY_LIST: usize = 196_608;

impl Stage<'_> {
    /// What a checker's difference in a call is about.
    pub fn shown(&self, ask: Ask, readers: Readers, checker: &dyn Checker) -> Shown {
        match ask {
            Ask::Hall => return self.shown_in_hall(checker),
            Ask::Widen(room) => return self.shown_in_widen(room, checker),
            Ask::Train(result, steps, room) => {
                return self.shown_in_train((result, steps), room, checker);
            }
            Ask::Trained(..) => return Shown::Training,
            Ask::Trim(room) => return self.shown_in_trim(room, checker),
            Ask::Trimmed => return Shown::UnderTrimmed,
            Ask::Cause(position, room) => return self.shown_in_cause(position, room, checker),
            Ask::Caused(_) => return Shown::Least,
            Ask::LeaveOut(budget, room) => return self.shown_in_leave_out(budget, room, checker),
            Ask::LeftOut => return Shown::Enough,
            _ => {}
        }
        let calls = self.lists(ask, readers).into_iter();
        let shown =
            calls.map(|(source, subject, call)| self.shown_in_list(source, subject, call, checker));
        let mut different = shown.filter(|shown| *shown != Shown::Buffer);
        different.next().unwrap_or(Shown::Buffer)
    }

    fn shown_in_hall(&self, checker: &dyn Checker) -> Shown {
        let catalogue = self.source.held.copy(Fill::First).bytes();
        let input = self.hall().held.copy(Fill::First).bytes();
        let Ok(word) = caught(|| checker.hall(catalogue, input)) else {
            return Shown::Panic;
        };
        match (self.expected_hall() >> 32, word >> 32) {
            (0, 0) => Shown::HallNumber,
            (expected, given) => Shown::Refusals(expected as u8, given as u8),
        }
    }

    fn shown_in_widen(&self, room: Room, checker: &dyn Checker) -> Shown {
        let (expected, new, length) = self.expected_wide(room);
        let old = self.old().held.copy(Fill::First).bytes();
        let mut out = vec![0; length];
        let Ok(word) = caught(|| checker.widen(old, &mut out)) else {
            return Shown::Panic;
        };
        image_shown(Shown::Widened, (expected, new), (word, &out))
    }

    /// With a buffer for any list first: what differs there is no matter of
    /// the buffer's length.
    fn shown_in_list(
        &self,
        source: &Source,
        subject: &Subject,
        call: Lists,
        checker: &dyn Checker,
    ) -> Shown {
        let long = Lists {
            room: Room::Of(ANY_LIST),
            ..call
        };
        match self.shown_with(source, subject, long, checker) {
            Shown::Buffer => self.shown_with(source, subject, call, checker),
            shown => shown,
        }
    }

    fn shown_with(
        &self,
        source: &Source,
        subject: &Subject,
        call: Lists,
        checker: &dyn Checker,
    ) -> Shown {
        let (expected, length) = self.expected(source, subject, call);
        let mut out = vec![0; length];
        let called = self.called((source, subject, call), checker, Fill::First, &mut out);
        let Ok(word) = called else {
            return Shown::Panic;
        };
        match ((expected.word >> 32) as u8, (word >> 32) as u8) {
            (0, 0) => {}
            (deserved, given) if deserved == given => return Shown::Buffer,
            (deserved, given) => return Shown::Refusals(deserved, given),
        }
        let written = (ENTRY * word as usize).min(length);
        let given: Vec<Entry> = out[..written]
            .chunks_exact(ENTRY)
            .map(|bytes| bytes.try_into().expect("24 bytes"))
            .collect();
        match rules(&expected.listed.entries, &given) {
            rules if rules.is_empty() => Shown::Buffer,
            rules => Shown::Rules(rules),
        }
    }
}

/// What is about the image that a call writes: it, the refusals, or the buffer.
pub(super) fn image_shown(image: Shown, expected: (u64, &[u8]), given: (u64, &[u8])) -> Shown {
    let ((word, new), (given, out)) = (expected, given);
    match ((word >> 32) as u8, (given >> 32) as u8) {
        (0, 0) if given != word || out[..new.len()] != *new => image,
        (deserved, given) if deserved == given => Shown::Buffer,
        (deserved, given) => Shown::Refusals(deserved, given),
    }
}

/// The rules of the entries that one list has more often than the other, or
/// of the first that stands elsewhere.
fn rules(expected: &[Entry], given: &[Entry]) -> BTreeSet<u8> {
    let (mut left, mut right) = (expected.to_vec(), given.to_vec());
    left.sort();
    right.sort();
    let only = |in_this: &[Entry], not_in: &[Entry]| -> Vec<u8> {
        let count = |list: &[Entry], entry: &Entry| {
            list.partition_point(|other| other <= entry)
                - list.partition_point(|other| other < entry)
        };
        let more = |entry: &&Entry| count(in_this, entry) > count(not_in, entry);
        let rules = in_this.iter().filter(more).map(|entry| entry[1]);
        // 0 is no rule: an entry that was never written.
        rules.filter(|rule| *rule != 0).collect()
    };
    let mut rules: BTreeSet<u8> = only(&left, &right).into_iter().collect();
    rules.extend(only(&right, &left));
    if rules.is_empty() {
        let moved = expected.iter().zip(given).find(|(a, b)| a != b);
        rules.extend(moved.map(|(entry, _)| entry[1]));
    }
    rules
}

#[cfg(test)]
mod tests {
    use super::*;

    fn entry(rule: u8, index: u8) -> Entry {
        let mut entry = [0; 24];
        entry[1] = rule;
        entry[4] = index;
        entry
    }

    #[test]
    fn entries_missing_added_and_moved() {
        let list = [entry(3, 0), entry(8, 0), entry(8, 1)];
        let found = |given: &[Entry]| rules(&list, given).into_iter().collect::<Vec<_>>();
        assert_eq!(found(&list[..2]), [8]);
        assert_eq!(found(&list[1..]), [3]);
        assert_eq!(found(&[list[0], list[2], list[1]]), [8]);
        assert_eq!(found(&[list[0], list[1], list[1]]), [8]);
        assert_eq!(found(&[entry(19, 0)]), [3, 8, 19]);
        assert_eq!(found(&[list[0], entry(0, 0), list[2]]), [8]);
    }
}
