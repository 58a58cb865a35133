//! Document 02's P8 in plain code: refusal 13. The lists are the original's,
//! whatever the limits.

use super::{Fit, Refusal};
use crate::page::Limits;

/// Refused by 13 where a fit has more pairs than the limit. One above 256
/// counts as 256.
pub fn pairs(fit: &Fit, limits: Limits) -> Result<(), Refusal> {
    let limit = limits.pairs.min(256) as usize;
    match fit.pairs().count() <= limit {
        true => Ok(()),
        false => Err(13),
    }
}

/// Refused by 9 for over 512 wanted skills, and else by 13 for more than the
/// limit. One above 512 counts as 512.
pub fn skills(wanted: usize, limits: Limits) -> Result<(), Refusal> {
    let limit = limits.skills.min(512) as usize;
    match wanted {
        513.. => Err(9),
        _ if wanted > limit => Err(13),
        _ => Ok(()),
    }
}

#[cfg(test)]
mod tests {
    use super::*;

    #[test]
    fn over_the_main_limit_is_9_and_over_a_smaller_one_13() {
        let of = |limit: u32, wanted: usize| skills(wanted, Limits::of(256, limit));
        assert_eq!(of(64, 64), Ok(()));
        assert_eq!(of(64, 65), Err(13));
        assert_eq!(of(64, 512), Err(13));
        assert_eq!(of(64, 513), Err(9));
        assert_eq!(of(512, 512), Ok(()));
        assert_eq!(of(u32::MAX, 513), Err(9));
        assert_eq!(of(0, 0), Ok(()));
        assert_eq!(of(0, 1), Err(13));
    }
}
