//! Items without a result, and results without an item.

use std::fmt;

/// What of a fit has no counterpart. Rules look at pairs, an item and its
/// result; where a fit has more of one than of the other, the last ones stand
/// alone. No rule looks at these, so such a fit is not clear, however short
/// its list is. As text it is the sentence that says so.
///
/// ```
/// use fitcheck::Unpaired;
///
/// let unpaired = Unpaired::of(5, 2);
/// assert_eq!(unpaired, Some(Unpaired::Items(3)));
/// assert_eq!(
///     unpaired.unwrap().to_string(),
///     "3 items have no result, so not all of it was checked",
/// );
/// assert_eq!(Unpaired::of(5, 5), None);
/// ```
#[non_exhaustive]
#[derive(Debug, Clone, Copy, PartialEq, Eq)]
pub enum Unpaired {
    /// So many items, the last ones, have no result.
    Items(usize),
    /// So many results, the last ones, have no item.
    Results(usize),
}

impl Unpaired {
    /// What is left over of so many items and results; nothing where there
    /// are as many of one as of the other. The ship's and the character's
    /// results are not counted.
    pub fn of(items: usize, results: usize) -> Option<Unpaired> {
        if items > results {
            Some(Unpaired::Items(items - results))
        } else if items < results {
            Some(Unpaired::Results(results - items))
        } else {
            None
        }
    }
}

impl fmt::Display for Unpaired {
    fn fmt(&self, formatter: &mut fmt::Formatter<'_>) -> fmt::Result {
        match self {
            Unpaired::Items(1) => formatter.write_str("1 item has no result")?,
            Unpaired::Items(count) => write!(formatter, "{count} items have no result")?,
            Unpaired::Results(1) => formatter.write_str("1 result has no item")?,
            Unpaired::Results(count) => write!(formatter, "{count} results have no item")?,
        }
        formatter.write_str(", so not all of it was checked")
    }
}

#[cfg(test)]
mod tests {
    use super::*;

    #[test]
    fn one_is_said_otherwise_than_two() {
        let said = |items, results| Unpaired::of(items, results).map(|it| it.to_string());
        let rest = "so not all of it was checked";
        for (items, results, begins) in [
            (1, 0, "1 item has no result"),
            (256, 255, "1 item has no result"),
            (2, 0, "2 items have no result"),
            (0, 1, "1 result has no item"),
            (0, 256, "256 results have no item"),
        ] {
            assert_eq!(said(items, results), Some(format!("{begins}, {rest}")));
        }
        for same in [0, 1, 256] {
            assert_eq!(said(same, same), None);
        }
    }
}
