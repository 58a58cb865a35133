//! Document 02, P9: the pairs that make an entry, byte by byte, and what is promised of
//! them: "Drop any one or more of the kept pairs and it is gone."

use std::cell::{OnceCell, RefCell};
use std::collections::BTreeMap;
use std::rc::Rc;

use super::shown::image_shown;
use super::{Shown, Stage, caught, expected_image};
use crate::case::{Position, Room};
use crate::checker::{Checker, ENTRY, Entry, Terms, in_words};
use crate::guard::{Fill, Guarded};
use crate::model::{Damage, Fit};
use crate::reference::{self, Cause, Refusal, is_still_in};
use crate::tally::{Call, Causing, Tally};
use crate::verdict::compare_bytes;

/// Every part of so many kept pairs is listed; of more, those that lack one.
const FEW: usize = 10;

/// More than any list takes, and than any entry's pairs do.
const ANY_LIST: usize = 196_608;
const ANY_CAUSE: usize = 4_096;

/// What makes the entries of the first fit, as far as it was asked.
#[derive(Default)]
pub(super) struct Causes {
    /// An officer's list.
    listed: OnceCell<Vec<Entry>>,
    made: RefCell<BTreeMap<u32, Result<Rc<Made>, Refusal>>>,
}

/// What makes an entry.
pub(super) struct Made {
    entry: Entry,
    kept: Vec<bool>,
    image: Vec<u8>,
}

impl Stage<'_> {
    /// Both images, or the first refusal of 1 to 6.
    pub(super) fn decoded(&self) -> Result<(&reference::Catalogue, &reference::Fit), Refusal> {
        let catalogue = self.source.catalogue.as_ref().map_err(|refusal| *refusal)?;
        let fit = self.fit().decoded.as_ref().map_err(|refusal| *refusal)?;
        Ok((catalogue, fit))
    }

    /// The list in which positions count; nothing where an image is refused.
    pub(super) fn officers_list(&self) -> &[Entry] {
        self.causes.listed.get_or_init(|| match self.decoded() {
            Ok((catalogue, fit)) => reference::officers_list(catalogue, fit).entries,
            Err(_) => Vec::new(),
        })
    }

    fn number_of(&self, position: Position) -> u32 {
        position.number(self.officers_list().len())
    }

    /// What makes the entry at a position, or the refusal before 10.
    fn made(&self, position: u32) -> Result<Rc<Made>, Refusal> {
        let make = || {
            let (catalogue, fit) = self.decoded()?;
            let cause = Cause::of(catalogue, fit, position)?;
            let image = cause.image();
            Ok(Rc::new(Made {
                entry: cause.entry,
                kept: cause.kept,
                image,
            }))
        };
        let mut made = self.causes.made.borrow_mut();
        made.entry(position).or_insert_with(make).clone()
    }

    /// The word that the call must give, the bytes, and the length of its buffer.
    fn expected_cause(&self, position: u32, room: Room) -> (u64, Vec<u8>, usize) {
        let made = self.made(position);
        let image = match &made {
            Ok(made) => Ok(&made.image[..]),
            Err(refusal) => Err(*refusal),
        };
        let (word, image, length) = expected_image(image, room, 40);
        (word, image.to_vec(), length)
    }

    /// The call's word and every byte of the buffer.
    pub(super) fn hold_cause(
        &self,
        position: Position,
        room: Room,
        checker: &dyn Checker,
    ) -> Result<(), String> {
        let position = self.number_of(position);
        let (expected, new, length) = self.expected_cause(position, room);
        self.planted(expected)?;
        for fill in [Fill::First, Fill::Second] {
            let mut out = Guarded::buffer(length, fill);
            let word = self.cause_called(checker, fill, position, out.bytes_mut())?;
            self.source.held.unharmed(fill, "catalogue")?;
            self.fit().held.unharmed(fill, "fit")?;
            compare_bytes((expected, &new), "list of pairs", word, &out)?;
        }
        Ok(())
    }

    /// The word of a call on one of the copies, or that the checker panicked.
    fn cause_called(
        &self,
        checker: &dyn Checker,
        fill: Fill,
        position: u32,
        out: &mut [u8],
    ) -> Result<u64, String> {
        let catalogue = self.source.held.copy(fill).bytes();
        let fit = self.fit().held.copy(fill).bytes();
        caught(|| checker.cause(catalogue, fit, position, out))
    }

    /// With a buffer for all pairs first: what differs there is no matter of the
    /// buffer's length.
    pub(super) fn shown_in_cause(
        &self,
        position: Position,
        room: Room,
        checker: &dyn Checker,
    ) -> Shown {
        let position = self.number_of(position);
        match self.shown_with_room(position, Room::Of(ANY_CAUSE), checker) {
            Shown::Buffer => self.shown_with_room(position, room, checker),
            shown => shown,
        }
    }

    fn shown_with_room(&self, position: u32, room: Room, checker: &dyn Checker) -> Shown {
        let (expected, new, length) = self.expected_cause(position, room);
        let mut out = vec![0; length];
        match self.cause_called(checker, Fill::First, position, &mut out) {
            Ok(word) => image_shown(Shown::Cause, (expected, &new), (word, &out)),
            Err(_) => Shown::Panic,
        }
    }

    /// What is promised, of the reference and of the checker's own calls.
    pub(super) fn hold_caused(
        &self,
        position: Position,
        checker: &dyn Checker,
    ) -> Result<(), String> {
        let position = self.number_of(position);
        let Ok(made) = self.made(position) else {
            return Ok(());
        };
        let (catalogue, fit) = self.decoded().map_err(|_| "a refused image has causes")?;
        let whole = Cause::whole(catalogue, fit, made.entry);
        least(&made.kept, |kept| Ok(whole.shows(kept)))
            .map_err(|what| format!("of the original's, {what}"))?;
        let model = &self.case.fits[0];
        if model.damage != Damage::default() {
            return Ok(());
        }
        let entries = self.listed_by(checker, model)?;
        let entry = entries.get(position as usize);
        let entry = entry.ok_or("the checker's list ends before the position")?;
        let kept = self.kept_by(checker, position)?;
        least(&kept, |kept| {
            let entries = self.listed_by(checker, &part(model, kept))?;
            Ok(is_still_in(&entries, entry, kept))
        })
        .map_err(|what| format!("of the checker's, {what}"))
    }

    /// An officer's list of a fit, as the checker makes it.
    pub(super) fn listed_by(&self, checker: &dyn Checker, fit: &Fit) -> Result<Vec<Entry>, String> {
        let catalogue = self.source.held.copy(Fill::First).bytes();
        let (fit, mut out) = (fit.image(), vec![0; ANY_LIST]);
        let word = caught(|| checker.list(catalogue, &fit, Terms::default(), &mut out))?;
        let bytes = match word >> 32 {
            0 => out.get(..ENTRY * word as usize),
            _ => None,
        };
        let bytes = bytes.ok_or_else(|| format!("the checker's list is {}", in_words(word)))?;
        let (entries, _) = bytes.as_chunks::<ENTRY>();
        Ok(entries.to_vec())
    }

    /// The pairs that the checker keeps, as a flag for each.
    fn kept_by(&self, checker: &dyn Checker, position: u32) -> Result<Vec<bool>, String> {
        let model = &self.case.fits[0];
        let pairs = model.items.len().min(model.results.len());
        let mut out = vec![0; 4 * pairs];
        let word = self.cause_called(checker, Fill::First, position, &mut out)?;
        let bytes = match word >> 32 {
            0 => out.get(..word as usize),
            _ => None,
        };
        let bytes = bytes.ok_or_else(|| format!("the checker's cause is {}", in_words(word)))?;
        let (numbers, _) = bytes.as_chunks::<4>();
        let mut kept = vec![false; pairs];
        for number in numbers.iter().map(|number| u32::from_le_bytes(*number)) {
            let flag = kept.get_mut(number as usize);
            *flag.ok_or_else(|| format!("the checker keeps pair {number} of {pairs}"))? = true;
        }
        Ok(kept)
    }

    pub(super) fn count_cause(&self, position: Position, room: Room, tally: &mut Tally) {
        let number = self.number_of(position);
        let (expected, _, length) = self.expected_cause(number, room);
        tally.cause(room, length, expected);
        tally.cause_pair(self.case);
        let Ok((catalogue, fit)) = self.decoded() else {
            return;
        };
        let refusal = (expected >> 32) as u8;
        if refusal == 0 {
            tally.catalogue(Call::Cause, catalogue);
        }
        let made = self.made(number).ok();
        tally.causing(&Causing {
            catalogue,
            fit,
            case: self.case,
            listed: self.officers_list(),
            position: number,
            made: made.as_ref().map(|made| (&made.entry, &made.kept[..])),
            refusal,
        });
    }

    pub(super) fn count_caused(&self, position: Position, tally: &mut Tally) {
        if let Ok(made) = self.made(self.number_of(position)) {
            let kept = made.kept.iter().filter(|is_kept| **is_kept);
            tally.least(kept.count());
        }
    }
}

/// A fit with some of its pairs alone.
fn part(fit: &Fit, kept: &[bool]) -> Fit {
    let pairs = fit.items.iter().zip(&fit.results).zip(kept);
    let kept = pairs.filter(|(_, is_kept)| **is_kept);
    let (items, results) = kept
        .map(|((item, result), _)| (*item, result.clone()))
        .unzip();
    Fit {
        items,
        results,
        ..fit.clone()
    }
}

/// Whether the kept pairs show an entry, and no part of them does: of few every part is
/// asked, of more each that lacks one, and none.
fn least(kept: &[bool], shows: impl Fn(&[bool]) -> Result<bool, String>) -> Result<(), String> {
    let numbers: Vec<usize> = (0..kept.len()).filter(|number| kept[*number]).collect();
    if !shows(kept)? {
        return Err("the kept pairs do not show the entry".to_string());
    }
    let flags = |left: &dyn Fn(usize) -> bool| {
        let mut flags = vec![false; kept.len()];
        for (place, number) in numbers.iter().enumerate() {
            flags[*number] = left(place);
        }
        flags
    };
    let parts: Vec<Vec<bool>> = match numbers.len() <= FEW {
        true => (0..(1 << numbers.len()) - 1)
            .map(|part: u32| flags(&|place| part >> place & 1 == 1))
            .collect(),
        false => {
            let lacking = (0..numbers.len()).map(|lacks| flags(&|place| place != lacks));
            lacking.chain([flags(&|_| false)]).collect()
        }
    };
    for part in parts {
        if shows(&part)? {
            let numbers: Vec<usize> = (0..part.len()).filter(|number| part[*number]).collect();
            return Err(format!(
                "pairs {numbers:?} of {kept:?} show the entry alone"
            ));
        }
    }
    Ok(())
}
