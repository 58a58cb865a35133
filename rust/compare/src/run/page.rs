//! Document 02, P8: "Each list that the smaller page answers is the main page's
//! for the same input."

use super::{Source, Stage, Subject};
use crate::case::Lists;
use crate::checker::{Checker, in_words};
use crate::guard::Guarded;
use crate::page::Limits;

impl Stage<'_> {
    /// Has the checker answer a call on the main page too, where it answered
    /// under other limits: the word and every byte of the buffer are the same.
    pub(super) fn as_on_the_main_page(
        &self,
        (source, subject, call): (&Source, &Subject, Lists),
        checker: &dyn Checker,
        (word, out): (u64, &Guarded),
    ) -> Result<(), String> {
        if word >> 32 != 0 || call.limits == Limits::MAIN {
            return Ok(());
        }
        let limits = Limits::MAIN;
        let main = Lists { limits, ..call };
        let mut other = Guarded::buffer(out.bytes().len(), out.fill());
        let called = (source, subject, main);
        let given = self.called(called, checker, out.fill(), other.bytes_mut())?;
        match given == word && other.bytes() == out.bytes() {
            true => Ok(()),
            false => Err(format!(
                "{} under limits of {} pairs and {} skills, on the main page {}",
                in_words(word),
                call.limits.pairs,
                call.limits.skills,
                in_words(given)
            )),
        }
    }
}
