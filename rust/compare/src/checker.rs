//! What a checker is: the calls of documents 01 and 02 over raw slices, and the
//! word that each of them returns.

use crate::page::Limits;
use crate::reader::Reader;

/// The calls. Each returns the refusal number (0 where answered) times
/// 4,294,967,296 plus the count (0 where refused).
pub trait Checker: Sync {
    /// The list of a fit's violations, written from byte 0 of `out`.
    fn list(&self, catalogue: &[u8], fit: &[u8], terms: Terms, out: &mut [u8]) -> u64;

    /// The skills that one result lacks: 0 ship, 1 character, 2 first item. No
    /// profile is taken.
    fn skill(&self, catalogue: &[u8], fit: &[u8], result: u32, terms: Terms, out: &mut [u8])
    -> u64;

    /// The numbers of clear, faulted and refused fits; no buffer is lent.
    fn hall(&self, catalogue: &[u8], input: &[u8]) -> u64;

    /// An old catalogue in the new form, written from byte 0 of `out`; its
    /// bytes are counted.
    fn widen(&self, old: &[u8], out: &mut [u8]) -> u64;

    /// The fit that so many steps of training for one result lead to, written
    /// from byte 0 of `out`; its bytes are counted.
    fn train(&self, catalogue: &[u8], fit: &[u8], result: u32, steps: u32, out: &mut [u8]) -> u64;

    /// The catalogue that a fit touches, written from byte 0 of `out`; its bytes
    /// are counted.
    fn trim(&self, catalogue: &[u8], fit: &[u8], out: &mut [u8]) -> u64;

    /// The numbers of the pairs that make the entry at a position, four bytes each,
    /// written from byte 0 of `out`; the bytes are counted.
    fn cause(&self, catalogue: &[u8], fit: &[u8], position: u32, out: &mut [u8]) -> u64;

    /// The tries that a budget allows, how far off their answer is at most, and the
    /// numbers of the pairs to take off, four bytes each, written from byte 0 of `out`;
    /// the bytes are counted.
    fn leave_out(&self, catalogue: &[u8], fit: &[u8], budget: u32, out: &mut [u8]) -> u64;
}

/// What a list or skill call brings beside its images and its buffer.
#[derive(Clone, Copy, Debug, Default)]
pub struct Terms<'a> {
    pub reader: Reader,
    /// A league's profile; no bytes are none.
    pub profile: &'a [u8],
    pub allowance: u32,
    pub limits: Limits,
}

/// Bytes of one entry.
pub const ENTRY: usize = 24;

/// An entry as document 01 lays it out.
pub type Entry = [u8; ENTRY];

/// The word of a refusal.
pub fn refused(number: u8) -> u64 {
    u64::from(number) << 32
}

/// A word in words.
pub fn in_words(word: u64) -> String {
    let (refusal, count) = (word >> 32, word & 0xFFFF_FFFF);
    match refusal {
        0 => format!("answered, count {count}"),
        _ if count == 0 => format!("refusal {refusal}"),
        _ => format!("refusal {refusal} with count {count}"),
    }
}

#[cfg(test)]
mod tests {
    use super::*;

    #[test]
    fn a_refusal_stands_above_32_bits() {
        assert_eq!(refused(1), 4_294_967_296);
        assert_eq!(refused(10), 42_949_672_960);
        assert_eq!(in_words(refused(9)), "refusal 9");
        assert_eq!(in_words(3), "answered, count 3");
        assert_eq!(in_words(refused(4) + 2), "refusal 4 with count 2");
    }
}
