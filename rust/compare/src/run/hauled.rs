//! Document 02, P7: "adding only Cargo pairs [..] leaves [..] each entry outside
//! CargoBay and rule 26 byte for byte in its order." Held of the original's
//! lists and of the checker's own, for every reader that both calls name.

use super::{Readers, Source, Stage, Subject};
use crate::case::{Lists, Room};
use crate::checker::{Checker, ENTRY, Entry};
use crate::guard::{Fill, Guarded};
use crate::hauled;
use crate::reader::Reader;
use crate::sketch::CARGO;
use crate::tally::{Haul, Tally};

/// The list of a fit and that of the hauled one.
type Both = (Vec<Entry>, Vec<Entry>);

impl Stage<'_> {
    fn hauled_fit(&self) -> &Subject {
        self.hauled
            .get_or_init(|| Subject::new(&self.case.haul.of(&self.case.fits[0])))
    }

    /// A reader's call on the fit as it was, and the one with cargo behind it.
    pub(super) fn haul_calls(
        &self,
        reader: Reader,
        result: Option<u32>,
    ) -> Vec<(&Source, &Subject, Lists)> {
        let (old, new) = (self.case.limits, self.case.haul.limits);
        let call = |room, limits| Lists {
            reader,
            result,
            room,
            limits,
        };
        vec![
            (&self.source, self.fit(), call(Room::Exact, old)),
            (&self.source, self.hauled_fit(), call(Room::Longer(24), new)),
        ]
    }

    /// The original's lists for a reader, where the premises hold and both are
    /// answered.
    fn hauled_lists(&self, reader: Reader, result: Option<u32>) -> Option<Both> {
        if !self.is_haul(result) {
            return None;
        }
        let calls = self.haul_calls(reader, result).into_iter();
        let mut lists =
            calls.map(|(source, subject, call)| self.listed(source, subject, call).ok());
        let (old, new) = (lists.next()??, lists.next()??);
        Some((old.entries, new.entries))
    }

    /// Document 02's premises: as many results as items, Cargo alone behind
    /// them, the levels the same; of the skills an old result.
    fn is_haul(&self, result: Option<u32>) -> bool {
        let (old, haul) = (&self.case.fits[0], &self.case.haul);
        let results = old.results.len();
        old.items.len() == results
            && haul.items.iter().all(|item| item.kind == CARGO)
            && haul.lowered.iter().all(|fall| *fall == 0)
            && result.is_none_or(|result| result as usize <= results + 1)
    }

    /// Whether every added volume is finite and not below zero, or there is
    /// none.
    fn volumes_grow(&self) -> bool {
        let Ok(catalogue) = &self.source.catalogue else {
            return false;
        };
        self.case.haul.items.iter().all(|item| {
            let volume = catalogue.volume(item.type_id);
            volume.is_none_or(|volume| volume.is_finite() && volume >= 0.0)
        })
    }

    /// The property for some readers.
    pub(super) fn hold_hauled(
        &self,
        result: Option<u32>,
        readers: Readers,
        checker: &dyn Checker,
    ) -> Result<(), String> {
        let own = self.case.reader;
        let others = own.others().filter(|_| readers == Readers::All);
        for reader in [own].into_iter().chain(others) {
            let held = self.hold_hauled_for(reader, result, checker);
            held.map_err(|what| format!("for {reader}, {what}"))?;
        }
        Ok(())
    }

    /// The property for one reader, of the original's lists and of the checker's.
    fn hold_hauled_for(
        &self,
        reader: Reader,
        result: Option<u32>,
        checker: &dyn Checker,
    ) -> Result<(), String> {
        let Some((old, new)) = self.hauled_lists(reader, result) else {
            return Ok(());
        };
        let holds = |(old, new): (&[Entry], &[Entry]), whose: &str| {
            let held = match result {
                None => hauled::lists(old, new, self.volumes_grow()),
                Some(_) => hauled::skills(old, new),
            };
            held.map_err(|what| format!("in {whose} lists, {what}"))
        };
        holds((&old, &new), "the original's")?;
        let calls = self.haul_calls(reader, result);
        match self.lists_given(calls, (old.len(), new.len()), checker)? {
            Some((old, new)) => holds((&old, &new), "the checker's"),
            None => Ok(()),
        }
    }

    /// What the checker lists for both fits, where it answers both, with room
    /// for a few entries more than there are.
    fn lists_given(
        &self,
        calls: Vec<(&Source, &Subject, Lists)>,
        counts: (usize, usize),
        checker: &dyn Checker,
    ) -> Result<Option<Both>, String> {
        let mut given = Vec::new();
        for (called, count) in calls.into_iter().zip([counts.0, counts.1]) {
            let mut out = Guarded::buffer(ENTRY * (count + 8), Fill::First);
            let word = self.called(called, checker, Fill::First, out.bytes_mut())?;
            if word >> 32 != 0 {
                return Ok(None);
            }
            let entries = out.bytes().chunks_exact(ENTRY).take(word as usize);
            let entries = entries.map(|entry| entry.try_into().expect("24 bytes"));
            given.push(entries.collect());
        }
        let new = given.pop().unwrap_or_default();
        Ok(given.pop().map(|old| (old, new)))
    }

    pub(super) fn count_hauled(&self, result: Option<u32>, tally: &mut Tally) {
        let full = self.hauled_lists(Reader::OFFICER, result);
        let full = full.map(|(old, _)| old).unwrap_or_default();
        for reader in Reader::ALL {
            if self.hauled_lists(reader, result).is_some() {
                tally.hauled_for(reader, result.is_some(), &full);
            }
        }
        let lists = self.hauled_lists(self.case.reader, result);
        let fits = (&self.fit().decoded, &self.hauled_fit().decoded);
        let (Some((old, new)), Ok(catalogue), (Ok(before), Ok(after))) =
            (lists, &self.source.catalogue, fits)
        else {
            return;
        };
        let haul = Haul {
            catalogue,
            case: self.case,
            fits: (before, after),
            league: self.brought.league.as_ref().ok(),
        };
        match result {
            None => tally.hauled(&haul, &old, &new),
            Some(_) => tally.hauled_skills(&haul, &old),
        }
    }
}
