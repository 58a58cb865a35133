//! An entry's 24 bytes.

use super::fault::Fault;
use super::{Flaw, Number};
use crate::checker::Entry;

/// What an entry is about.
#[derive(Clone, Copy)]
pub enum Target {
    Ship,
    Pair(usize),
}

/// The list as it grows.
pub struct Entries {
    pub found: Vec<Entry>,
    flaw: Flaw,
}

impl Entries {
    pub fn new(flaw: Flaw) -> Entries {
        Entries {
            found: Vec::new(),
            flaw,
        }
    }

    /// An entry with up to four words of payload.
    pub fn add(&mut self, target: Target, rule: u8, sub: u8, words: &[u32]) {
        let mut payload = [0; 16];
        for number in 0..4 {
            let word = match words.get(number) {
                Some(word) => *word,
                None if self.flaw.has(Fault::PayloadRepeats) => *words.first().unwrap_or(&0),
                None => 0,
            };
            payload[4 * number..4 * number + 4].copy_from_slice(&word.to_le_bytes());
        }
        self.push(target, rule, sub, payload);
    }

    /// A Resource entry on the ship.
    pub fn add_resource(&mut self, resource: u8, used: f64, available: f64) {
        let (first, second) = match self.flaw.has(Fault::UsedAvailableSwapped) {
            true => (available, used),
            false => (used, available),
        };
        let mut payload = [0; 16];
        payload[..8].copy_from_slice(&first.to_bits().to_le_bytes());
        payload[8..].copy_from_slice(&second.to_bits().to_le_bytes());
        self.push(Target::Ship, 1, resource, payload);
    }

    fn push(&mut self, target: Target, rule: u8, sub: u8, payload: [u8; 16]) {
        let (target, index) = match target {
            Target::Ship if self.flaw.has(Fault::ShipIndex) => (0, u32::MAX),
            Target::Ship => (0, 0),
            Target::Pair(index) if self.flaw.has(Fault::IndexFromOne) => (1, index as u32 + 1),
            Target::Pair(index) => (1, self.flaw.number(Number::PairIndex, index) as u32),
        };
        let fourth = u8::from(self.flaw.has(Fault::FourthByte));
        let mut entry = [0; 24];
        entry[..4].copy_from_slice(&[target, rule, sub, fourth]);
        entry[4..8].copy_from_slice(&index.to_le_bytes());
        entry[8..].copy_from_slice(&payload);
        self.found.push(entry);
    }
}
