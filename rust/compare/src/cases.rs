//! Every case by its name: the fixed ones and the generated ones by a number,
//! the large ones behind a letter.

use std::fmt;

use crate::case::Case;
use crate::large::drawn;
use crate::{fixed, generate, large};

/// Which case.
#[derive(Clone, Copy, Debug, PartialEq, Eq, PartialOrd, Ord)]
pub enum Which {
    /// First the fixed ones, then the generated ones.
    Numbered(u64),
    /// A large one, the same under every seed.
    Large(u64),
    /// A large one that follows from the seed.
    Drawn(u64),
}

impl Which {
    /// The case under a seed; a large one that there is not is none.
    pub fn case(self, seed: u64) -> Option<Case> {
        match self {
            Which::Numbered(number) => Some(case(seed, number)),
            Which::Large(number) => large::case(number as usize),
            Which::Drawn(number) => Some(drawn::case(seed, number)),
        }
    }

    /// The case of a name, as it is printed.
    pub fn named(name: &str) -> Option<Which> {
        let kind: fn(u64) -> Which = match name.chars().next()? {
            'L' => Which::Large,
            'D' => Which::Drawn,
            _ => return name.parse().ok().map(Which::Numbered),
        };
        name[1..].parse().ok().map(kind)
    }
}

impl fmt::Display for Which {
    fn fmt(&self, out: &mut fmt::Formatter) -> fmt::Result {
        match self {
            Which::Numbered(number) => write!(out, "{number}"),
            Which::Large(number) => write!(out, "L{number}"),
            Which::Drawn(number) => write!(out, "D{number}"),
        }
    }
}

/// The numbered case of a number under a seed.
pub fn case(seed: u64, number: u64) -> Case {
    match fixed::case(number as usize) {
        Some(case) => case,
        None => generate::case(seed, number),
    }
}

/// Every large case of a run with so many numbered ones.
pub fn large_ones(numbered: u64) -> Vec<Which> {
    let made = (0..large::count() as u64).map(Which::Large);
    let drawn = (0..numbered / drawn::EVERY).map(Which::Drawn);
    made.chain(drawn).collect()
}

#[cfg(test)]
mod tests {
    use super::*;

    #[test]
    fn a_case_is_found_by_the_name_that_is_printed() {
        for which in [Which::Numbered(7), Which::Large(0), Which::Drawn(12)] {
            assert_eq!(Which::named(&which.to_string()), Some(which));
        }
        for name in ["", "L", "X3", "Lé", "-1"] {
            assert_eq!(Which::named(name), None, "{name}");
        }
    }
}
