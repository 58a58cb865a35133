//! The limits of a page (document 02, P8): every list and skill call brings
//! them, whatever it is asked.

/// How many pairs a fit may have, and how many skills a result may want.
#[derive(Clone, Copy, Debug, PartialEq, Eq, PartialOrd, Ord)]
pub struct Limits {
    pub pairs: u32,
    pub skills: u32,
}

impl Limits {
    /// The main page's, which no call passes but by a refusal of document 01.
    pub const MAIN: Limits = Limits {
        pairs: 256,
        skills: 512,
    };

    pub fn of(pairs: u32, skills: u32) -> Limits {
        Limits { pairs, skills }
    }

    /// Whether either is below the main page's.
    pub fn are_smaller(self) -> bool {
        self.pairs < Limits::MAIN.pairs || self.skills < Limits::MAIN.skills
    }
}

impl Default for Limits {
    fn default() -> Limits {
        Limits::MAIN
    }
}

#[cfg(test)]
mod tests {
    use super::*;

    #[test]
    fn a_page_is_smaller_by_either_limit() {
        assert!(!Limits::default().are_smaller());
        assert!(!Limits::of(u32::MAX, 513).are_smaller());
        assert!(Limits::of(255, 512).are_smaller());
        assert!(Limits::of(256, 511).are_smaller());
    }
}
