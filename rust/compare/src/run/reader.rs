//! Document 02, P14: every call is made for each reader, and "for two fits that
//! pass the image checks and differ only in listed skills and levels, a guest's
//! calls, else alike, give the same bytes, count and refusal."

use super::{Source, Stage, Subject};
use crate::case::{Ask, Lists, Room};
use crate::checker::{Checker, in_words};
use crate::guard::{Fill, Guarded};
use crate::reader::Reader;
use crate::tally::{Retrained, Tally};

impl Stage<'_> {
    /// What a call for a reader is made with: for the case's own both fills, for
    /// the others one.
    pub(super) fn fills(&self, reader: Reader) -> &'static [Fill] {
        match reader == self.case.reader {
            true => &[Fill::First, Fill::Second],
            false => &[Fill::First],
        }
    }

    /// A guest's calls on the fit and on the one with other training.
    pub(super) fn retrained(&self, ask: Ask) -> [(&Source, &Subject, Lists); 2] {
        let (result, room) = match ask {
            Ask::RetrainedSkill(result, room) => (Some(result), room),
            Ask::RetrainedList(room) => (None, room),
            other => unreachable!("{other:?} is about one training"),
        };
        let call = self.guests(result, room);
        [self.fit(), self.retrained_fit()].map(|subject| (&self.source, subject, call))
    }

    fn guests(&self, result: Option<u32>, room: Room) -> Lists {
        Lists {
            reader: Reader::GUEST,
            result,
            room,
            limits: self.case.limits,
        }
    }

    /// Whether both fits pass the image checks.
    fn both_are_fits(&self) -> bool {
        self.fit().decoded.is_ok() && self.retrained_fit().decoded.is_ok()
    }

    /// Has the checker make a guest's call on both fits with the same buffer:
    /// the word and every byte are the same.
    pub(super) fn same_for_a_guest(&self, ask: Ask, checker: &dyn Checker) -> Result<(), String> {
        if !self.both_are_fits() {
            return Ok(());
        }
        let [(source, own, call), (_, other, _)] = self.retrained(ask);
        let (_, length) = self.expected(source, own, call);
        for fill in [Fill::First, Fill::Second] {
            let mut outs = [(); 2].map(|()| Guarded::buffer(length, fill));
            let [first, second] = &mut outs;
            let one = self.called((source, own, call), checker, fill, first.bytes_mut())?;
            let two = self.called((source, other, call), checker, fill, second.bytes_mut())?;
            if one != two || first.bytes() != second.bytes() {
                return Err(format!(
                    "a guest gets {} of the one training and {} of the other",
                    in_words(one),
                    in_words(two)
                ));
            }
        }
        Ok(())
    }

    /// Who makes a call and what comes of it.
    pub(super) fn count_reader(
        &self,
        source: &Source,
        subject: &Subject,
        call: Lists,
        tally: &mut Tally,
    ) {
        let (expected, length) = self.expected(source, subject, call);
        tally.reader(call, expected.word);
        let (Ok(catalogue), Ok(fit)) = (&source.catalogue, &subject.decoded) else {
            return;
        };
        if call.result.is_some() {
            tally.private_skills(fit, call, expected.word);
            return;
        }
        let officer = Lists {
            reader: Reader::OFFICER,
            ..call
        };
        if let Ok(full) = self.listed(source, subject, officer) {
            tally.private_list((catalogue, fit), call, (expected.word, length), &full);
        }
    }

    /// Two fits that a guest reads, and what their training differs in.
    pub(super) fn count_retrained(&self, result: Option<u32>, room: Room, tally: &mut Tally) {
        if !self.both_are_fits() {
            return;
        }
        let call = self.guests(result, room);
        let (expected, _) = self.expected(&self.source, self.fit(), call);
        let officer = Lists {
            reader: Reader::OFFICER,
            ..call
        };
        let full = |subject: &Subject| self.listed(&self.source, subject, officer);
        tally.retrained(&Retrained {
            call,
            word: expected.word,
            own: &self.case.fits[0].skills,
            other: &self.case.training,
            full: [full(self.fit()), full(self.retrained_fit())],
        });
    }
}
