//! Document 02, P1: the trimmed catalogue, byte by byte, and what is promised of
//! it: "The list and each skill list of that fit are the same bytes under both
//! catalogues. Trimming a second time gives the same catalogue again."

use std::collections::BTreeSet;

use super::shown::image_shown;
use super::{Readers, Shown, Stage, caught, expected_image};
use crate::case::{Lists, Room};
use crate::checker::{Checker, in_words};
use crate::guard::{Fill, Guarded};
use crate::reader::Reader;
use crate::reference::{self, Refusal};
use crate::tally::{Call, Tally, Trimming};
use crate::verdict::compare_bytes;

/// Where the last result has a higher number, five are asked for, and one that is none.
const FEW: u32 = 16;

/// What is left of a catalogue, and the ids that it is left for.
pub(super) struct Trimmed {
    ids: BTreeSet<i32>,
    image: Vec<u8>,
}

impl Stage<'_> {
    /// What the fit touches, or the refusal before 10.
    fn touched(&self) -> Result<&Trimmed, Refusal> {
        let made = self.trimmed.get_or_init(|| {
            let catalogue = self.source.catalogue.as_ref().map_err(|refusal| *refusal)?;
            let fit = self.fit().decoded.as_ref().map_err(|refusal| *refusal)?;
            let ids = reference::touched(catalogue, fit)?;
            let image = reference::trimmed(&self.source.held.image, &ids);
            Ok(Trimmed { ids, image })
        });
        made.as_ref().map_err(|refusal| *refusal)
    }

    /// What is left of the catalogue.
    fn trimmed(&self) -> Result<&[u8], Refusal> {
        Ok(&self.touched()?.image)
    }

    fn expected_trim(&self, room: Room) -> (u64, &[u8], usize) {
        expected_image(self.trimmed(), room, self.source.held.image.len())
    }

    /// The trim's word and every byte of the buffer.
    pub(super) fn hold_trim(&self, room: Room, checker: &dyn Checker) -> Result<(), String> {
        let (expected, new, length) = self.expected_trim(room);
        self.planted(expected)?;
        let (catalogue, fit) = (&self.source.held, &self.fit().held);
        for fill in [Fill::First, Fill::Second] {
            let mut out = Guarded::buffer(length, fill);
            let images = (catalogue.copy(fill).bytes(), fit.copy(fill).bytes());
            let word = caught(|| checker.trim(images.0, images.1, out.bytes_mut()))?;
            catalogue.unharmed(fill, "catalogue")?;
            fit.unharmed(fill, "fit")?;
            compare_bytes((expected, new), "trimmed catalogue", word, &out)?;
        }
        Ok(())
    }

    pub(super) fn shown_in_trim(&self, room: Room, checker: &dyn Checker) -> Shown {
        let (expected, new, length) = self.expected_trim(room);
        let catalogue = self.source.held.copy(Fill::First).bytes();
        let fit = self.fit().held.copy(Fill::First).bytes();
        let mut out = vec![0; length];
        match caught(|| checker.trim(catalogue, fit, &mut out)) {
            Ok(word) => image_shown(Shown::Trimmed, (expected, new), (word, &out)),
            Err(_) => Shown::Panic,
        }
    }

    /// What is promised, of the reference and of the checker's own calls.
    pub(super) fn hold_trimmed(
        &self,
        readers: Readers,
        checker: &dyn Checker,
    ) -> Result<(), String> {
        let Ok(small) = self.trimmed() else {
            return Ok(());
        };
        self.same_by_the_original(small)
            .map_err(|what| format!("of the original's, {what}"))?;
        let whole = self.source.held.copy(Fill::First).bytes();
        let small = self.trimmed_by(checker, whole)?;
        for call in self.calls_under(readers) {
            let under = |catalogue: &[u8]| self.answer_under(catalogue, call, checker);
            let (whole, small) = (under(whole)?, under(&small)?);
            if whole != small {
                return Err(format!(
                    "of the checker's, {} for {} under the whole catalogue is {}, under the \
                     trimmed one {}, or other bytes",
                    what(call.result),
                    call.reader,
                    in_words(whole.0),
                    in_words(small.0)
                ));
            }
        }
        match self.trimmed_by(checker, &small)? == small {
            true => Ok(()),
            false => Err("trimmed again, the checker's catalogue is another one".to_string()),
        }
    }

    /// The original's lists under both, and a second trim.
    fn same_by_the_original(&self, small: &[u8]) -> Result<(), String> {
        let decoded = reference::Catalogue::decode(small)
            .map_err(|refusal| format!("the trimmed catalogue is refused by {refusal}"))?;
        let (Ok(whole), Ok(fit)) = (&self.source.catalogue, &self.fit().decoded) else {
            return Err("a refused catalogue or fit is trimmed".to_string());
        };
        if let Ok(league) = &self.brought.league
            && reference::list(whole, fit, league) != reference::list(&decoded, fit, league)
        {
            return Err("the list under the trimmed catalogue is another one".to_string());
        }
        let limits = self.case.limits;
        for result in self.results_under() {
            let of = |catalogue| reference::skill(catalogue, fit, result, limits);
            if of(whole) != of(&decoded) {
                return Err(format!("{} differ under both", what(Some(result))));
            }
        }
        let again = reference::trim(small, &self.fit().held.image);
        match again.is_ok_and(|again| again == small) {
            true => Ok(()),
            false => Err("trimmed again, the catalogue is another one".to_string()),
        }
    }

    /// The results whose skills are asked for, and a number that no result has.
    fn results_under(&self) -> Vec<u32> {
        let last = self.case.fits[0].results.len() as u32 + 1;
        match last <= FEW {
            true => (0..=last + 1).collect(),
            false => vec![0, 1, 2, last / 2, last, last + 1],
        }
    }

    /// The calls that are made under both catalogues.
    fn calls_under(&self, readers: Readers) -> Vec<Lists> {
        let own = self.case.reader;
        let others = match readers {
            Readers::Own => Vec::new(),
            Readers::All => own.others().into_iter().collect(),
        };
        let call = |reader: Reader, result: Option<u32>, room: Room| Lists {
            reader,
            result,
            room,
            limits: self.case.limits,
        };
        let mut calls = Vec::new();
        for reader in [vec![own], others].concat() {
            let results = self.results_under().into_iter().map(Some);
            for result in [None].into_iter().chain(results) {
                calls.push(call(reader, result, Room::Exact));
                calls.push(call(reader, result, Room::OneShort));
            }
        }
        calls
    }

    /// The word and the whole buffer of a call under a catalogue.
    fn answer_under(
        &self,
        catalogue: &[u8],
        call: Lists,
        checker: &dyn Checker,
    ) -> Result<(u64, Vec<u8>), String> {
        let (_, length) = self.expected(&self.source, self.fit(), call);
        let mut out = Guarded::buffer(length, Fill::First);
        let fit = self.fit().held.copy(Fill::First).bytes();
        let terms = self.brought.terms(call, Fill::First);
        let word = caught(|| match call.result {
            None => checker.list(catalogue, fit, terms, out.bytes_mut()),
            Some(result) => checker.skill(catalogue, fit, result, terms, out.bytes_mut()),
        })?;
        Ok((word, out.bytes().to_vec()))
    }

    /// What the checker leaves of a catalogue, in a buffer as long as that.
    fn trimmed_by(&self, checker: &dyn Checker, catalogue: &[u8]) -> Result<Vec<u8>, String> {
        let fit = self.fit().held.copy(Fill::First).bytes();
        let mut out = Guarded::buffer(catalogue.len(), Fill::First);
        let word = caught(|| checker.trim(catalogue, fit, out.bytes_mut()))?;
        let length = word as u32 as usize;
        match word >> 32 == 0 && length <= catalogue.len() {
            true => Ok(out.bytes()[..length].to_vec()),
            false => Err(format!("the checker's trim is {}", in_words(word))),
        }
    }

    pub(super) fn count_trim(&self, room: Room, tally: &mut Tally) {
        let (expected, new, length) = self.expected_trim(room);
        tally.trim(room, length, expected);
        tally.trim_pair(self.case);
        let (Ok(catalogue), Ok(fit)) = (&self.source.catalogue, &self.fit().decoded) else {
            return;
        };
        let refusal = (expected >> 32) as u8;
        if refusal == 0 {
            tally.catalogue(Call::Trim, catalogue);
        }
        tally.trimming(&Trimming {
            catalogue,
            fit,
            case: self.case,
            whole: &self.source.held.image,
            small: new,
            ids: self.touched().map(|trimmed| &trimmed.ids).ok(),
            refusal,
            length,
        });
    }

    pub(super) fn count_trimmed(&self, tally: &mut Tally) {
        if self.trimmed().is_err() {
            return;
        }
        for call in self.calls_under(Readers::All) {
            let (expected, _) = self.expected(&self.source, self.fit(), call);
            tally.under_trimmed(call, expected.word);
        }
    }
}

/// What is asked for.
fn what(result: Option<u32>) -> String {
    match result {
        None => "the list".to_string(),
        Some(result) => format!("the skills of result {result}"),
    }
}
