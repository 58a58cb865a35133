//! The Rattle library behind the calls, where it was there to link.

use crate::checker::Checker;

/// What to do where the library is missing.
pub const MISSING: &str = "This `compare` was built without the Rattle library.\n\
    Run `tools/staticlib` at the repository root, which puts libfitcheck.a into\n\
    target/staticlib (or name another directory in FITCHECK_LIB_DIR), and build again.\n\
    Until then `--against plain` compares the plain port.";

/// The library, if this build has it.
pub fn library() -> Option<Box<dyn Checker>> {
    linked::library()
}

#[cfg(not(fitcheck))]
mod linked {
    use super::Checker;

    pub fn library() -> Option<Box<dyn Checker>> {
        None
    }
}

#[cfg(fitcheck)]
#[path = "../../fitcheck/src/exported.rs"]
#[allow(dead_code)]
mod exported;

#[cfg(fitcheck)]
mod linked {
    use super::{Checker, exported};
    use crate::checker::Terms;
    use crate::page::Limits;
    use crate::reader::Reader;

    struct Rattle;

    fn of(terms: Terms) -> exported::Page {
        let Reader(reader) = terms.reader;
        let Limits { pairs, skills } = terms.limits;
        exported::Page {
            reader,
            pairs,
            skills,
        }
    }

    pub fn library() -> Option<Box<dyn Checker>> {
        Some(Box::new(Rattle))
    }

    impl Checker for Rattle {
        fn list(&self, catalogue: &[u8], fit: &[u8], terms: Terms, out: &mut [u8]) -> u64 {
            let (profile, allowance) = (terms.profile, terms.allowance);
            exported::list(of(terms), catalogue, fit, profile, allowance, out)
        }

        fn skill(
            &self,
            catalogue: &[u8],
            fit: &[u8],
            result: u32,
            terms: Terms,
            out: &mut [u8],
        ) -> u64 {
            exported::skill(of(terms), catalogue, fit, result, out)
        }

        fn hall(&self, catalogue: &[u8], input: &[u8]) -> u64 {
            exported::hall(catalogue, input)
        }

        fn widen(&self, old: &[u8], out: &mut [u8]) -> u64 {
            exported::widen(old, out)
        }

        fn train(
            &self,
            catalogue: &[u8],
            fit: &[u8],
            result: u32,
            steps: u32,
            out: &mut [u8],
        ) -> u64 {
            exported::train(catalogue, fit, result, steps, out)
        }

        fn trim(&self, catalogue: &[u8], fit: &[u8], out: &mut [u8]) -> u64 {
            exported::trim(catalogue, fit, out)
        }

        fn cause(&self, catalogue: &[u8], fit: &[u8], position: u32, out: &mut [u8]) -> u64 {
            exported::cause(catalogue, fit, position, out)
        }

        fn leave_out(&self, catalogue: &[u8], fit: &[u8], budget: u32, out: &mut [u8]) -> u64 {
            exported::leave_out(catalogue, fit, budget, out)
        }
    }
}
