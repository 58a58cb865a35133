//! How much a page takes, and by how much a call passes it.

use std::fmt;

use crate::{Reader, exported};

/// How much a page takes: so many pairs (items that have a result) of a fit, and
/// so many wanted skills of a result. A page for newcomers may take less than
/// the main one, and then has fewer rows to show.
///
/// Every list call and every skill call is made under limits, the main page's
/// where none are named. What a smaller page answers is what the main page
/// answers for the same input (that is proved); what passes a limit is
/// [`Refusal::PageLimit`]. A limit above the main page's counts as that.
///
/// [`Refusal::PageLimit`]: crate::Refusal::PageLimit
///
/// ```
/// use fitcheck::Limits;
///
/// let room = Limits::main().pairs(64).skills(64);
/// assert_eq!((room.most_pairs(), room.most_skills()), (64, 64));
/// let main = Limits::main();
/// assert_eq!((main.most_pairs(), main.most_skills()), (256, 512));
/// assert_eq!(main.pairs(1_000).skills(u32::MAX), main);
/// ```
#[derive(Debug, Clone, Copy, PartialEq, Eq, Hash)]
pub struct Limits {
    pairs: u32,
    skills: u32,
}

impl Limits {
    /// The main page's: 256 pairs, as many as a fit may have, and 512 wanted
    /// skills. Nothing is refused by these alone.
    pub const fn main() -> Limits {
        Limits {
            pairs: 256,
            skills: 512,
        }
    }

    /// So many pairs; 0 takes none.
    pub const fn pairs(self, most: u32) -> Limits {
        let main = Limits::main().pairs;
        let pairs = if most < main { most } else { main };
        Limits { pairs, ..self }
    }

    /// So many wanted skills of a result, those at level 0 and those that are
    /// trained counted too; 0 takes none. No list call asks for it.
    pub const fn skills(self, most: u32) -> Limits {
        let main = Limits::main().skills;
        let skills = if most < main { most } else { main };
        Limits { skills, ..self }
    }

    /// How many pairs it takes.
    pub const fn most_pairs(self) -> u32 {
        self.pairs
    }

    /// How many wanted skills it takes.
    pub const fn most_skills(self) -> u32 {
        self.skills
    }

    /// A reader's page of these limits, as the library takes it.
    pub(crate) fn page(self, reader: Reader) -> exported::Page {
        let Limits { pairs, skills } = self;
        exported::Page {
            reader: reader.number().into(),
            pairs,
            skills,
        }
    }
}

impl Default for Limits {
    fn default() -> Limits {
        Limits::main()
    }
}

/// Which limit of a page is passed, and by how much; see
/// [`Refusal::PageLimit`]. As text it is a sentence.
///
/// [`Refusal::PageLimit`]: crate::Refusal::PageLimit
///
/// ```
/// use fitcheck::Passed;
///
/// let passed = Passed::Skills { wanted: 65, limit: 64 };
/// assert_eq!(passed.to_string(), "the result wants 65 skills, and this page takes 64");
/// ```
#[non_exhaustive]
#[derive(Debug, Clone, Copy, PartialEq, Eq, Hash)]
pub enum Passed {
    /// The fit has more pairs.
    Pairs {
        /// How many items of the fit have a result.
        pairs: u32,
        /// How many the page takes.
        limit: u32,
    },
    /// The result wants more skills.
    Skills {
        /// How many skills the result wants.
        wanted: u32,
        /// How many the page takes.
        limit: u32,
    },
}

impl fmt::Display for Passed {
    fn fmt(&self, formatter: &mut fmt::Formatter<'_>) -> fmt::Result {
        let limit = match *self {
            Passed::Pairs { pairs: 1, limit } => {
                formatter.write_str("the fit has 1 item with a result")?;
                limit
            }
            Passed::Pairs { pairs, limit } => {
                write!(formatter, "the fit has {pairs} items with a result")?;
                limit
            }
            Passed::Skills { wanted: 1, limit } => {
                formatter.write_str("the result wants 1 skill")?;
                limit
            }
            Passed::Skills { wanted, limit } => {
                write!(formatter, "the result wants {wanted} skills")?;
                limit
            }
        };
        match limit {
            0 => formatter.write_str(", and this page takes none"),
            limit => write!(formatter, ", and this page takes {limit}"),
        }
    }
}

/// How many skills a result wants, more than the limit: the lowest limit under
/// which a call is not refused. Nothing else tells it, as a list has the
/// skills alone that are lacking.
pub(crate) fn wanted(limit: u32, is_refused: impl Fn(u32) -> bool) -> u32 {
    let (mut low, mut high) = (limit, Limits::main().skills);
    while low + 1 < high {
        let middle = low.midpoint(high);
        match is_refused(middle) {
            true => low = middle,
            false => high = middle,
        }
    }
    high
}

#[cfg(test)]
mod tests {
    use super::*;

    #[test]
    fn one_and_none_are_said_otherwise() {
        for (passed, said) in [
            (
                Passed::Pairs {
                    pairs: 65,
                    limit: 64,
                },
                "the fit has 65 items with a result, and this page takes 64",
            ),
            (
                Passed::Pairs { pairs: 1, limit: 0 },
                "the fit has 1 item with a result, and this page takes none",
            ),
            (
                Passed::Skills {
                    wanted: 1,
                    limit: 0,
                },
                "the result wants 1 skill, and this page takes none",
            ),
            (
                Passed::Skills {
                    wanted: 2,
                    limit: 1,
                },
                "the result wants 2 skills, and this page takes 1",
            ),
        ] {
            assert_eq!(passed.to_string(), said);
        }
    }

    #[test]
    fn every_number_of_wanted_skills_is_found_in_ten_calls() {
        for limit in [0, 1, 63, 64, 65, 300, 510, 511] {
            for skills in limit + 1..=512 {
                let calls = std::cell::Cell::new(0);
                let is_refused = |limit: u32| {
                    calls.set(calls.get() + 1);
                    skills > limit
                };
                assert_eq!(wanted(limit, is_refused), skills, "over {limit}");
                assert!(calls.get() < 10, "{} calls", calls.get());
            }
        }
    }
}
