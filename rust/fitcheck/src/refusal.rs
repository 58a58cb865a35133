//! Why a call gives no list.

use std::error::Error;
use std::fmt;

use crate::{BadVolume, Passed};

/// Why a call gives no list: document 01's refusals, by their number.
///
/// As text it is one sentence. There is no 7: it stood for over 4,294,967,295
/// drones, which are answered, and its number is not used again.
///
/// ```
/// use fitcheck::Refusal;
///
/// let refusal = fitcheck::hall(&[0; 3], &[]).unwrap_err();
/// assert_eq!(refusal, Refusal::CatalogueLength);
/// assert_eq!(refusal.number(), 1);
/// ```
#[non_exhaustive]
#[derive(Debug, Clone, Copy, PartialEq, Eq, Hash)]
pub enum Refusal {
    /// 1: the catalogue is over 16,777,216 bytes or its length is unlike its
    /// sizes.
    CatalogueLength,
    /// 2: the catalogue's keys are not in order.
    CatalogueOrder,
    /// 3: a name number over 87, a mark over 8 or a volume flag over 1.
    CatalogueField,
    /// 4: the fit passes a limit, its length is unlike its sizes, or its
    /// attribute counts do not add up.
    FitLength,
    /// 5: ids of the fit do not ascend.
    FitOrder,
    /// 6: a byte, index, state or mode of the fit has no meaning.
    FitField,
    /// 8: the fit has no result of that number.
    NoSuchResult,
    /// 9: a result wants more than 512 skills.
    WantedSkills,
    /// 10: the entries, or what else is to be written, do not fit into the
    /// buffer.
    BufferLength,
    /// 11: the league profile has over 4,096 groups or its length is unlike its
    /// size.
    ProfileLength,
    /// 12: the league profile's groups do not ascend, or its points are over
    /// 1,000,000 and no ban.
    ProfilePrices,
    /// 13: the fit has more pairs, or the result wants more skills, than the page
    /// takes. Which, and how many, is said by the calls that are made under
    /// limits; of the number alone it cannot be told.
    PageLimit(Option<Passed>),
    /// 14: the list has no entry at that position. No call of this crate asks for one:
    /// a [`ListedEntry`](crate::ListedEntry) is in its list.
    NoSuchEntry,
    /// 15: an item in Cargo has a volume that is below zero, infinite or NaN, so that
    /// which items make an entry is not told. Which item, is said by the calls; of the
    /// number alone it cannot be told.
    CargoVolume(Option<BadVolume>),
    /// 16: with the skills that the result lacks, the fit would list more than
    /// 1,024.
    ListedSkills,
    /// 19: the call names a reader that there is not. No call of this crate does:
    /// a [`Reader`](crate::Reader) is one of three.
    NoSuchReader,
    /// 20: a guest asks for skills, which are private.
    GuestSkills,
    /// The library returned a word that document 01 does not have. It never
    /// does; this stands here so that nothing can panic or be misread.
    Unexpected {
        /// The word, whole.
        word: u64,
    },
}

impl Refusal {
    /// Every refusal that a call may give, by ascending number.
    pub const ALL: &'static [Refusal] = &[
        Refusal::CatalogueLength,
        Refusal::CatalogueOrder,
        Refusal::CatalogueField,
        Refusal::FitLength,
        Refusal::FitOrder,
        Refusal::FitField,
        Refusal::NoSuchResult,
        Refusal::WantedSkills,
        Refusal::BufferLength,
        Refusal::ProfileLength,
        Refusal::ProfilePrices,
        Refusal::PageLimit(None),
        Refusal::NoSuchEntry,
        Refusal::CargoVolume(None),
        Refusal::ListedSkills,
        Refusal::NoSuchReader,
        Refusal::GuestSkills,
    ];

    /// The documents' number, from 1 to 16 and never 7, or 19 or 20. Of an
    /// unexpected word it is the upper half.
    pub fn number(self) -> u32 {
        match self {
            Refusal::CatalogueLength => 1,
            Refusal::CatalogueOrder => 2,
            Refusal::CatalogueField => 3,
            Refusal::FitLength => 4,
            Refusal::FitOrder => 5,
            Refusal::FitField => 6,
            Refusal::NoSuchResult => 8,
            Refusal::WantedSkills => 9,
            Refusal::BufferLength => 10,
            Refusal::ProfileLength => 11,
            Refusal::ProfilePrices => 12,
            Refusal::PageLimit(_) => 13,
            Refusal::NoSuchEntry => 14,
            Refusal::CargoVolume(_) => 15,
            Refusal::ListedSkills => 16,
            Refusal::NoSuchReader => 19,
            Refusal::GuestSkills => 20,
            Refusal::Unexpected { word } => (word >> 32) as u32,
        }
    }

    /// The refusal of a number, if there is one.
    ///
    /// ```
    /// use fitcheck::Refusal;
    ///
    /// assert_eq!(Refusal::from_number(4), Some(Refusal::FitLength));
    /// assert_eq!(Refusal::from_number(7), None);
    /// assert_eq!(Refusal::from_number(0), None);
    /// ```
    pub fn from_number(number: u32) -> Option<Refusal> {
        let of_number = |refusal: &&Refusal| refusal.number() == number;
        Refusal::ALL.iter().find(of_number).copied()
    }

    /// Whether the catalogue is to blame, so that no fit can be checked by it.
    pub fn is_of_catalogue(self) -> bool {
        matches!(
            self,
            Refusal::CatalogueLength | Refusal::CatalogueOrder | Refusal::CatalogueField
        )
    }

    /// Whether the league profile is to blame.
    pub fn is_of_profile(self) -> bool {
        matches!(self, Refusal::ProfileLength | Refusal::ProfilePrices)
    }

    /// The refusal in a call's word, and the count that stands where there is
    /// none.
    pub(crate) fn or_count(word: u64) -> Result<u32, Refusal> {
        let count = (word & 0xFFFF_FFFF) as u32;
        let number = (word >> 32) as u32;
        match (Refusal::from_number(number), count) {
            (None, count) if number == 0 => Ok(count),
            (Some(refusal), 0) => Err(refusal),
            _ => Err(Refusal::Unexpected { word }),
        }
    }
}

impl fmt::Display for Refusal {
    fn fmt(&self, formatter: &mut fmt::Formatter<'_>) -> fmt::Result {
        formatter.pad(match self {
            Refusal::CatalogueLength => {
                "the catalogue is over 16,777,216 bytes, or its length is not what its sizes make it"
            }
            Refusal::CatalogueOrder => {
                "the catalogue's names, effects or types do not ascend, or its links or bases descend"
            }
            Refusal::CatalogueField => {
                "the catalogue has a name number over 87, a mark over 8 or a volume flag over 1"
            }
            Refusal::FitLength => {
                "the fit passes a limit (1,024 skills, 256 items, 256 results, 30,000 attributes), \
                 its length is not what its sizes make it, or its attribute counts do not add up"
            }
            Refusal::FitOrder => "the fit's skill ids, or one result's attribute ids, do not ascend",
            Refusal::FitField => {
                "the fit has a slot kind, slot index, state, mode or zero byte outside its range"
            }
            Refusal::NoSuchResult => "the fit has no result of that number",
            Refusal::WantedSkills => "a result wants more than 512 skills",
            Refusal::BufferLength => "the buffer is shorter than what is to be written",
            Refusal::ProfileLength => {
                "the league profile has over 4,096 groups, or its length is not what its size \
                 makes it"
            }
            Refusal::ProfilePrices => {
                "the league profile's groups do not ascend, or it has points over 1,000,000 that \
                 are no ban"
            }
            Refusal::PageLimit(Some(passed)) => return passed.fmt(formatter),
            Refusal::PageLimit(None) => {
                "the fit has more items with a result, or the result wants more skills, than this \
                 page takes"
            }
            Refusal::NoSuchEntry => "the list has no entry at that position",
            Refusal::CargoVolume(Some(bad)) => return bad.fmt(formatter),
            Refusal::CargoVolume(None) => {
                "an item in Cargo has a volume that is below 0, infinite or no number"
            }
            Refusal::ListedSkills => {
                "with the skills that the result lacks, the fit would list more than 1,024 skills"
            }
            Refusal::NoSuchReader => {
                "the call names a reader that there is not: 0 is a guest, 1 a pilot, 2 an officer"
            }
            Refusal::GuestSkills => "skills are private, and a guest may not ask for them",
            Refusal::Unexpected { word } => {
                return write!(
                    formatter,
                    "the library returned 0x{word:016X}, which no call returns"
                );
            }
        })
    }
}

impl Error for Refusal {}

#[cfg(test)]
mod tests {
    use super::*;

    /// Document 01: "the refusal number (0 where answered) times
    /// 4,294,967,296, plus the count (0 where refused)".
    #[test]
    fn a_word_is_a_refusal_or_a_count() {
        assert_eq!(Refusal::or_count(0), Ok(0));
        assert_eq!(Refusal::or_count(5_654), Ok(5_654));
        assert_eq!(Refusal::or_count(4_294_967_295), Ok(u32::MAX));
        for number in [1, 2, 3, 4, 5, 6, 8, 9, 10, 11, 12, 13, 14, 15, 16, 19, 20] {
            let word = number * 4_294_967_296;
            let refusal = Refusal::or_count(word).unwrap_err();
            assert_eq!(u64::from(refusal.number()), number);
            assert!(!matches!(refusal, Refusal::Unexpected { .. }));
            let word = word + 1;
            assert_eq!(
                Refusal::or_count(word),
                Err(Refusal::Unexpected { word }),
                "a refusal with a count"
            );
        }
        for number in [7, 17, 18, 21, 272, 275, 0x8000_0000, 0xFFFF_FFFF] {
            let word = number * 4_294_967_296;
            assert_eq!(Refusal::or_count(word), Err(Refusal::Unexpected { word }));
        }
        let word = u64::MAX;
        assert_eq!(Refusal::or_count(word), Err(Refusal::Unexpected { word }));
    }

    #[test]
    fn every_refusal_has_a_sentence_of_its_own() {
        let mut sentences: Vec<String> = Refusal::ALL.iter().map(Refusal::to_string).collect();
        sentences.sort();
        sentences.dedup();
        assert_eq!(sentences.len(), 17);
        let word = 77 << 32;
        let sentence = Refusal::Unexpected { word }.to_string();
        assert!(sentence.contains("0x0000004D00000000"), "{sentence}");
    }

    #[test]
    fn refusals_1_to_3_are_the_catalogues() {
        for refusal in Refusal::ALL {
            assert_eq!(refusal.is_of_catalogue(), refusal.number() <= 3);
            assert_eq!(
                refusal.is_of_profile(),
                [11, 12].contains(&refusal.number())
            );
        }
    }
}
