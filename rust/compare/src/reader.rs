//! Who a call is for (document 02, P14): every list and skill call names a
//! reader, by any number.

use std::fmt;

/// The number that a call names.
#[derive(Clone, Copy, Debug, PartialEq, Eq, PartialOrd, Ord)]
pub struct Reader(pub u32);

impl Reader {
    pub const GUEST: Reader = Reader(0);
    pub const PILOT: Reader = Reader(1);
    pub const OFFICER: Reader = Reader(2);

    /// The readers that there are.
    pub const ALL: [Reader; 3] = [Reader::GUEST, Reader::PILOT, Reader::OFFICER];

    /// Numbers that are no reader's: the first ones and the last, those that are
    /// a reader's again where 2, 8, 16, 24 or 31 bits are left of them, and those
    /// that are negative with a sign.
    pub const ABOVE: [Reader; 16] = [
        Reader(3),
        Reader(4),
        Reader(255),
        Reader(256),
        Reader(257),
        Reader(258),
        Reader(65_535),
        Reader(65_536),
        Reader(65_537),
        Reader(65_538),
        Reader(0x0100_0000),
        Reader(0x7FFF_FFFF),
        Reader(0x8000_0000),
        Reader(0x8000_0001),
        Reader(0x8000_0002),
        Reader(u32::MAX),
    ];

    /// The other readers that there are.
    pub fn others(self) -> impl Iterator<Item = Reader> {
        let all = Reader::ALL.into_iter();
        all.filter(move |reader| *reader != self)
    }
}

/// The hall and every other call are the officer's, and so is a call of which
/// nothing is said.
impl Default for Reader {
    fn default() -> Reader {
        Reader::OFFICER
    }
}

impl fmt::Display for Reader {
    fn fmt(&self, out: &mut fmt::Formatter) -> fmt::Result {
        match *self {
            Reader::GUEST => out.write_str("a guest"),
            Reader::PILOT => out.write_str("a pilot"),
            Reader::OFFICER => out.write_str("an officer"),
            Reader(number) => write!(out, "reader {number}"),
        }
    }
}

#[cfg(test)]
mod tests {
    use super::*;

    #[test]
    fn each_reader_has_two_others_and_any_number_above_has_three() {
        for reader in Reader::ALL {
            assert_eq!(reader.others().count(), 2);
        }
        for reader in Reader::ABOVE {
            assert!(reader > Reader::OFFICER);
            assert_eq!(reader.others().count(), 3);
        }
        assert_eq!(Reader::default(), Reader::OFFICER);
    }
}
