//! Runs one case: the original's answer and the checker's, held together.

mod cause;
mod hauled;
mod leave_out;
mod page;
mod reader;
mod shown;
mod train;
mod trim;

use std::cell::{Cell, OnceCell, RefCell};
use std::collections::BTreeMap;
use std::panic::{self, AssertUnwindSafe};
use std::rc::Rc;

use crate::case::{Ask, Case, Lists, Room};
use crate::checker::{Checker, ENTRY, Entry, Terms, in_words, refused};
use crate::grown;
use crate::guard::{Fill, Guarded, Held};
use crate::model::{Fit, hall_image};
use crate::page::Limits;
use crate::profile::League;
use crate::reader::Reader;
use crate::reference::{self, Fate, LIMIT, LeaveOut, Listed, Plan, Refusal};
use crate::tally::{Call, Hangar, Point, Tally, Zeros};
use crate::verdict::{Expected, compare, compare_bytes, expected, hall_in_words, without_unknown};

pub use shown::Shown;

/// Who calls are made for: the case's own reader, or all that there are.
#[derive(Clone, Copy, Debug, PartialEq)]
pub enum Readers {
    Own,
    All,
}

/// Where the two part.
#[derive(Clone, Debug)]
pub struct Difference {
    pub ask: Ask,
    pub what: String,
}

/// A catalogue's image, and what the reference reads in it.
struct Source {
    held: Held,
    catalogue: Result<reference::Catalogue, Refusal>,
}

/// A fit's image, and what the reference makes of it under one catalogue.
struct Subject {
    held: Held,
    decoded: Result<reference::Fit, Refusal>,
    listed: OnceCell<Listed>,
    /// The list without rule 26.
    before: OnceCell<Listed>,
    skills: RefCell<BTreeMap<(u32, Limits), Result<Listed, Refusal>>>,
    /// What training it for a result comes to.
    plans: RefCell<BTreeMap<u32, Result<Rc<Plan>, Refusal>>>,
}

impl Subject {
    fn new(fit: &Fit) -> Subject {
        let image = fit.image();
        let decoded = reference::Fit::decode(&image);
        Subject {
            held: Held::new(image),
            decoded,
            listed: OnceCell::new(),
            before: OnceCell::new(),
            skills: RefCell::default(),
            plans: RefCell::default(),
        }
    }
}

/// An old catalogue, and what the reference widens it to.
struct Old {
    held: Held,
    widened: Result<Vec<u8>, Refusal>,
}

/// A profile's image, and what the reference reads in it.
struct Brought {
    held: Held,
    allowance: u32,
    league: Result<reference::League, Refusal>,
}

impl Brought {
    fn new(league: &League) -> Brought {
        let (image, allowance) = (league.image(), league.allowance);
        let terms = Terms {
            profile: &image,
            allowance,
            ..Terms::default()
        };
        let league = reference::League::decode(terms);
        Brought {
            held: Held::new(image),
            allowance,
            league,
        }
    }

    fn has_profile(&self) -> bool {
        !self.held.image.is_empty()
    }

    fn terms(&self, call: Lists, fill: Fill) -> Terms<'_> {
        Terms {
            reader: call.reader,
            profile: self.held.copy(fill).bytes(),
            allowance: self.allowance,
            limits: call.limits,
        }
    }
}

/// A hall input, and what the reference makes of it.
struct Hall {
    held: Held,
    fates: Result<Vec<Fate>, Refusal>,
}

/// One case as both sides see it. What the original answers is worked out
/// once, however many checkers are held against it.
pub struct Stage<'a> {
    case: &'a Case,
    source: Source,
    brought: Brought,
    fit: OnceCell<Subject>,
    grown: OnceCell<Subject>,
    retrained: OnceCell<Subject>,
    hauled: OnceCell<Subject>,
    hall: OnceCell<Hall>,
    old: OnceCell<Old>,
    widened: OnceCell<Option<(Source, Subject)>>,
    trimmed: OnceCell<Result<trim::Trimmed, Refusal>>,
    causes: cause::Causes,
    left_out: OnceCell<Result<LeaveOut, Refusal>>,
}

/// Runs every call of a case; the first difference, if there is one.
pub fn run(case: &Case, checker: &dyn Checker, tally: &mut Tally) -> Result<(), Difference> {
    let stage = Stage::new(case);
    stage.count(tally);
    stage.hold(checker, &mut tally.zeros)
}

impl<'a> Stage<'a> {
    pub fn new(case: &'a Case) -> Stage<'a> {
        let image = case.catalogue.image();
        let catalogue = reference::Catalogue::decode(&image);
        let held = Held::new(image);
        Stage {
            case,
            source: Source { held, catalogue },
            brought: Brought::new(&case.league),
            fit: OnceCell::new(),
            grown: OnceCell::new(),
            retrained: OnceCell::new(),
            hauled: OnceCell::new(),
            hall: OnceCell::new(),
            old: OnceCell::new(),
            widened: OnceCell::new(),
            trimmed: OnceCell::new(),
            causes: cause::Causes::default(),
            left_out: OnceCell::new(),
        }
    }

    fn fit(&self) -> &Subject {
        self.fit.get_or_init(|| Subject::new(&self.case.fits[0]))
    }

    fn grown_fit(&self) -> &Subject {
        self.grown
            .get_or_init(|| Subject::new(&self.case.growth.of(&self.case.fits[0])))
    }

    fn retrained_fit(&self) -> &Subject {
        self.retrained
            .get_or_init(|| Subject::new(&self.case.retrained()))
    }

    fn hall(&self) -> &Hall {
        self.hall.get_or_init(|| {
            let held = Held::new(hall_image(&self.case.fits, &self.case.frame));
            let catalogue = self.source.catalogue.as_ref().map_err(|refusal| *refusal);
            let fates = catalogue.and_then(|catalogue| reference::fates(catalogue, &held.image));
            Hall { held, fates }
        })
    }

    fn old(&self) -> &Old {
        self.old.get_or_init(|| {
            let image = self.case.catalogue.old_image();
            let widened = reference::widen(&image);
            Old {
                held: Held::new(image),
                widened,
            }
        })
    }

    /// What the reference widens the old catalogue to, with what the original
    /// reads in the old one: nothing where that is refused, and refusal 1 where
    /// the new one is too long.
    fn widened(&self) -> Option<&(Source, Subject)> {
        let made = self.widened.get_or_init(|| {
            let old = self.old();
            let new = old.widened.as_ref().ok()?;
            let catalogue = match new.len() > LIMIT {
                true => Err(1),
                false => reference::Catalogue::decode_old(&old.held.image),
            };
            let held = Held::new(new.clone());
            Some((Source { held, catalogue }, Subject::new(&self.case.fits[0])))
        });
        made.as_ref()
    }

    /// What a call must give, and the length of the buffer that it is lent.
    fn expected(&self, source: &Source, subject: &Subject, call: Lists) -> (Expected, usize) {
        let listed = self.listed(source, subject, call);
        let length = match &listed {
            Ok(listed) => call.room.length(ENTRY * listed.entries.len()),
            // A refusal has to leave something untouched.
            Err(_) => call.room.length(2 * ENTRY),
        };
        (expected(listed, length), length)
    }

    /// The word that the hall call must give.
    fn expected_hall(&self) -> u64 {
        match &self.hall().fates {
            Ok(fates) => u64::from(reference::numbers(fates).number()),
            Err(refusal) => refused(*refusal),
        }
    }

    /// What widening must give, and the length of the buffer that it is lent.
    fn expected_wide(&self, room: Room) -> (u64, &[u8], usize) {
        let widened = self.old().widened.as_ref();
        let new = widened.map(Vec::as_slice).map_err(|refusal| *refusal);
        expected_image(new, room, 40)
    }

    /// The list and skill calls of an ask, with the catalogue and fit of each:
    /// those for the case's own reader first.
    fn lists(&self, ask: Ask, readers: Readers) -> Vec<(&Source, &Subject, Lists)> {
        if let Ask::RetrainedList(_) | Ask::RetrainedSkill(..) = ask {
            return self.retrained(ask).to_vec();
        }
        let own = self.case.reader;
        let mut calls = self.lists_for(own, ask);
        if readers == Readers::All {
            for reader in own.others() {
                calls.extend(self.lists_for(reader, ask));
            }
        }
        calls
    }

    /// The same for one reader.
    fn lists_for(&self, reader: Reader, ask: Ask) -> Vec<(&Source, &Subject, Lists)> {
        let limits = self.case.limits;
        let call = |result, room| Lists {
            reader,
            result,
            room,
            limits,
        };
        let own = |result, room| vec![(&self.source, self.fit(), call(result, room))];
        let both = |result| {
            let new = Lists {
                limits: self.case.growth.limits,
                ..call(result, Room::Longer(24))
            };
            vec![
                (&self.source, self.fit(), call(result, Room::Exact)),
                (&self.source, self.grown_fit(), new),
            ]
        };
        let wide = |result| {
            let made = self.widened().into_iter();
            made.map(|(source, fit)| (source, fit, call(result, Room::Longer(24))))
                .collect()
        };
        match ask {
            Ask::List(room) => own(None, room),
            Ask::Skill(result, room) => own(Some(result), room),
            Ask::GrownList => both(None),
            Ask::GrownSkill(result) => both(Some(result)),
            Ask::HauledList => self.haul_calls(reader, None),
            Ask::HauledSkill(result) => self.haul_calls(reader, Some(result)),
            Ask::WidenedList => wide(None),
            Ask::WidenedSkill(result) => wide(Some(result)),
            Ask::Hall | Ask::Widen(_) => Vec::new(),
            Ask::RetrainedList(_) | Ask::RetrainedSkill(..) => Vec::new(),
            Ask::Train(..) | Ask::Trained(..) => Vec::new(),
            Ask::Trim(_) | Ask::Trimmed => Vec::new(),
            Ask::Cause(..) | Ask::Caused(_) => Vec::new(),
            Ask::LeaveOut(..) | Ask::LeftOut => Vec::new(),
        }
    }

    /// Counts what the calls meet.
    pub fn count(&self, tally: &mut Tally) {
        tally.case(self.case, self.source.held.image.len());
        for ask in &self.case.asks {
            for (source, subject, call) in self.lists(*ask, Readers::All) {
                self.count_call(*ask, source, subject, call, tally);
            }
            match *ask {
                Ask::Hall => self.count_hall(tally),
                Ask::GrownList => self.count_grown(None, tally),
                Ask::GrownSkill(result) => self.count_grown(Some(result), tally),
                Ask::HauledList => self.count_hauled(None, tally),
                Ask::HauledSkill(result) => self.count_hauled(Some(result), tally),
                Ask::Widen(room) => self.count_widen(room, tally),
                Ask::WidenedList => self.count_widened(None, tally),
                Ask::WidenedSkill(result) => self.count_widened(Some(result), tally),
                Ask::RetrainedList(room) => self.count_retrained(None, room, tally),
                Ask::RetrainedSkill(result, room) => {
                    self.count_retrained(Some(result), room, tally);
                }
                Ask::Train(result, steps, room) => {
                    self.count_train((result, steps), room, tally);
                }
                Ask::Trained(result, steps) => self.count_trained((result, steps), tally),
                Ask::Trim(room) => self.count_trim(room, tally),
                Ask::Trimmed => self.count_trimmed(tally),
                Ask::Cause(position, room) => self.count_cause(position, room, tally),
                Ask::Caused(position) => self.count_caused(position, tally),
                Ask::LeaveOut(budget, room) => self.count_leave_out(budget, room, tally),
                Ask::LeftOut => self.count_left_out(tally),
                Ask::List(_) | Ask::Skill(..) => {}
            }
        }
    }

    /// A call: who makes it, and for the case's own reader all that it meets.
    fn count_call(
        &self,
        ask: Ask,
        source: &Source,
        subject: &Subject,
        call: Lists,
        tally: &mut Tally,
    ) {
        self.count_reader(source, subject, call, tally);
        if !self.is_own(ask, call) {
            return;
        }
        let (expected, length) = self.expected(source, subject, call);
        tally.call(call, length, expected.word);
        if ![refused(19), refused(20)].contains(&expected.word) {
            self.count_lists((source, subject, call), (&expected, length), tally);
        }
    }

    /// Whether a call is for the case's own reader, on its own training.
    fn is_own(&self, ask: Ask, call: Lists) -> bool {
        let is_retrained = matches!(ask, Ask::RetrainedList(_) | Ask::RetrainedSkill(..));
        call.reader == self.case.reader && !is_retrained
    }

    /// A call that its reader may make.
    fn count_lists(
        &self,
        (source, subject, call): (&Source, &Subject, Lists),
        (expected, length): (&Expected, usize),
        tally: &mut Tally,
    ) {
        let (Ok(catalogue), Ok(fit)) = (&source.catalogue, &subject.decoded) else {
            return;
        };
        tally.page(catalogue, fit, call, expected.word);
        if call.result.is_none() && expected.word != refused(13) {
            tally.brought(catalogue, fit, &self.brought.league);
        }
        if let Some(result) = call.result {
            if expected.word != refused(13) {
                tally.walk(catalogue, fit, result);
            }
        } else if expected.word == refused(10) {
            if fit.hangar(catalogue).is_some() {
                tally.meet(Point::Hangar(Hangar::NoRoom));
            }
            if let Ok(listed) = self.listed(source, subject, call) {
                tally.no_room(&listed, length);
            }
        }
        if expected.word >> 32 == 0 {
            tally.catalogue(Call::of(call), catalogue);
            match call.result {
                None => self.count_listed((catalogue, fit), call.limits, &expected.listed, tally),
                Some(result) => tally.skill(catalogue, fit, result, &expected.listed),
            }
        }
    }

    /// A list call that was answered.
    fn count_listed(
        &self,
        (catalogue, fit): (&reference::Catalogue, &reference::Fit),
        limits: Limits,
        listed: &Listed,
        tally: &mut Tally,
    ) {
        tally.list(catalogue, fit, listed);
        if let Ok(league) = &self.brought.league {
            tally.unknown(catalogue, fit, league, listed);
        }
        if self.brought.has_profile() && fit.is_hull(catalogue) {
            tally.league(limits, listed);
        }
    }

    fn count_hall(&self, tally: &mut Tally) {
        let hall = self.hall();
        if let (Ok(catalogue), Ok(fates)) = (&self.source.catalogue, &hall.fates) {
            tally.catalogue(Call::Hall, catalogue);
            tally.hall(fates, hall.held.image.len());
            let images = reference::hall_fits(&hall.held.image).into_iter().flatten();
            for (image, fate) in images.zip(fates) {
                if let Ok(fit) = reference::Fit::decode(image) {
                    let listed = reference::list(catalogue, &fit, &reference::League::default());
                    tally.hall_fit(catalogue, &fit, *fate, &listed);
                }
            }
        }
        tally.hall_word(self.expected_hall());
    }

    fn count_grown(&self, result: Option<u32>, tally: &mut Tally) {
        if !self.premises_hold(result) {
            return;
        }
        let full = self.both_lists(Reader::OFFICER, result);
        let full = full.map(|(old, _)| old).unwrap_or_default();
        for reader in Reader::ALL {
            let Some((old, new)) = self.both_lists(reader, result) else {
                continue;
            };
            tally.grown_for(reader, result.is_some(), &full);
            if reader == self.case.reader {
                tally.grown(self.case, result.is_some(), &old, &new);
                if result.is_none() && self.grows_past_32_bits(&old) {
                    tally.meet(Point::Hangar(Hangar::Grown));
                }
            }
        }
    }

    /// Whether an old list has launched drones, and the grown fit more of them
    /// than 32 bits hold.
    fn grows_past_32_bits(&self, old: &[Entry]) -> bool {
        let passes = |subject: &Subject| match (&self.source.catalogue, &subject.decoded) {
            (Ok(catalogue), Ok(fit)) => fit.hangar(catalogue).is_some(),
            _ => false,
        };
        let listed = old.iter().any(|entry| entry[1..3] == [1, 5]);
        listed && !passes(self.fit()) && passes(self.grown_fit())
    }

    fn count_widen(&self, room: Room, tally: &mut Tally) {
        let (word, written, length) = self.expected_wide(room);
        tally.widen(room, length, word);
        tally.widen_pair(self.case);
        let old = &self.old().held.image;
        if let Ok(new) = &self.old().widened {
            tally.widen_room(old, new, length);
        }
        if !written.is_empty() {
            tally.widened(old, written);
            let catalogue = reference::Catalogue::decode_old(old);
            tally.catalogue(Call::Widen, &catalogue.expect("it was widened"));
        }
    }

    fn count_widened(&self, result: Option<u32>, tally: &mut Tally) {
        let Some((source, fit)) = self.widened() else {
            return;
        };
        let call = Lists {
            reader: self.case.reader,
            result,
            room: Room::Exact,
            limits: self.case.limits,
        };
        let listed = self.listed(source, fit, call);
        if listed.is_ok_and(|listed| !listed.entries.is_empty()) {
            let call = if result.is_some() {
                Call::Skill
            } else {
                Call::List
            };
            tally.under_widened(call);
        }
    }

    /// The lists of both fits for a reader, where both are answered.
    fn both_lists(&self, reader: Reader, result: Option<u32>) -> Option<(Vec<Entry>, Vec<Entry>)> {
        let of = |subject: &Subject, limits: Limits| {
            let call = Lists {
                reader,
                result,
                room: Room::Exact,
                limits,
            };
            let listed = self.listed(&self.source, subject, call);
            listed.map(|listed| listed.entries).ok()
        };
        let old = of(self.fit(), self.case.limits)?;
        Some((old, of(self.grown_fit(), self.case.growth.limits)?))
    }

    /// Has a checker make every call; the first difference, if there is one.
    pub fn hold(&self, checker: &dyn Checker, zeros: &mut Zeros) -> Result<(), Difference> {
        self.hold_for(Readers::All, checker, zeros)
    }

    /// The same for some readers.
    pub fn hold_for(
        &self,
        readers: Readers,
        checker: &dyn Checker,
        zeros: &mut Zeros,
    ) -> Result<(), Difference> {
        for ask in &self.case.asks {
            self.ask(*ask, readers, checker, zeros)
                .map_err(|what| Difference { ask: *ask, what })?;
        }
        Ok(())
    }

    fn ask(
        &self,
        ask: Ask,
        readers: Readers,
        checker: &dyn Checker,
        zeros: &mut Zeros,
    ) -> Result<(), String> {
        // First the property, so that its own words are what is reported.
        match ask {
            Ask::HauledList => self.hold_hauled(None, readers, checker)?,
            Ask::HauledSkill(result) => self.hold_hauled(Some(result), readers, checker)?,
            _ => {}
        }
        for (source, subject, call) in self.lists(ask, readers) {
            if self.is_own(ask, call) && !self.case.planted.is_empty() {
                self.planted(self.expected(source, subject, call).0.word)?;
            }
            let held = self.hold_lists(source, subject, call, checker, zeros);
            held.map_err(|what| format!("for {}, {what}", call.reader))?;
        }
        match ask {
            Ask::Hall => self.hold_hall(checker),
            Ask::GrownList => self.grown_keeps(None),
            Ask::GrownSkill(result) => self.grown_keeps(Some(result)),
            Ask::Widen(room) => self.hold_widen(room, checker),
            Ask::Train(result, steps, room) => self.hold_train((result, steps), room, checker),
            Ask::Trained(result, steps) => self.hold_trained((result, steps), checker),
            Ask::Trim(room) => self.hold_trim(room, checker),
            Ask::Trimmed => self.hold_trimmed(readers, checker),
            Ask::Cause(position, room) => self.hold_cause(position, room, checker),
            Ask::Caused(position) => self.hold_caused(position, checker),
            Ask::LeaveOut(budget, room) => self.hold_leave_out(budget, room, checker),
            Ask::LeftOut => self.hold_left_out(checker),
            Ask::RetrainedList(_) | Ask::RetrainedSkill(..) => self.same_for_a_guest(ask, checker),
            Ask::List(_) | Ask::Skill(..) => Ok(()),
            Ask::HauledList | Ask::HauledSkill(_) => Ok(()),
            Ask::WidenedList | Ask::WidenedSkill(_) => Ok(()),
        }
    }

    /// The list call, or the skill call of a result: every byte compared.
    fn hold_lists(
        &self,
        source: &Source,
        subject: &Subject,
        call: Lists,
        checker: &dyn Checker,
        zeros: &mut Zeros,
    ) -> Result<(), String> {
        let (expected, length) = self.expected(source, subject, call);
        for fill in self.fills(call.reader).iter().copied() {
            let mut out = Guarded::buffer(length, fill);
            let word = self.called((source, subject, call), checker, fill, out.bytes_mut())?;
            source.held.unharmed(fill, "catalogue")?;
            subject.held.unharmed(fill, "fit")?;
            self.brought.held.unharmed(fill, "profile")?;
            compare(&expected, word, &out)?;
            self.as_on_the_main_page((source, subject, call), checker, (word, &out))?;
            zeros.note(&expected.listed, out.bytes());
            if call.result.is_none() && word >> 32 == 0 {
                let written = &out.bytes()[..ENTRY * word as usize];
                self.less_unknown(source, subject, call.reader, written)?;
            }
        }
        Ok(())
    }

    /// An answered list without its entries of rule 26 is the one given before.
    fn less_unknown(
        &self,
        source: &Source,
        subject: &Subject,
        reader: Reader,
        written: &[u8],
    ) -> Result<(), String> {
        let parts = (&source.catalogue, &subject.decoded, &self.brought.league);
        let (Ok(catalogue), Ok(fit), Ok(league)) = parts else {
            return Err("the checker answers what is refused".to_string());
        };
        let before = || reference::list_before(catalogue, fit, league);
        let before = subject.before.get_or_init(before).clone();
        without_unknown(&reference::reader::given(before, reader), written)
    }

    /// The word of a call on one of the copies, or that the checker panicked.
    fn called(
        &self,
        (source, subject, call): (&Source, &Subject, Lists),
        checker: &dyn Checker,
        fill: Fill,
        out: &mut [u8],
    ) -> Result<u64, String> {
        let catalogue = source.held.copy(fill).bytes();
        let fit = subject.held.copy(fill).bytes();
        let terms = self.brought.terms(call, fill);
        caught(|| match call.result {
            None => checker.list(catalogue, fit, terms, out),
            Some(result) => checker.skill(catalogue, fit, result, terms, out),
        })
    }

    fn hold_hall(&self, checker: &dyn Checker) -> Result<(), String> {
        let input = &self.hall().held;
        let expected = self.expected_hall();
        self.planted(expected)?;
        for fill in [Fill::First, Fill::Second] {
            let catalogue = self.source.held.copy(fill).bytes();
            let word = caught(|| checker.hall(catalogue, input.copy(fill).bytes()))?;
            self.source.held.unharmed(fill, "catalogue")?;
            input.unharmed(fill, "hall input")?;
            if word != expected {
                return Err(format!(
                    "the original makes it {}, the checker {}",
                    hall_in_words(expected),
                    hall_in_words(word)
                ));
            }
        }
        Ok(())
    }

    /// The widening: its word and every byte of the buffer.
    fn hold_widen(&self, room: Room, checker: &dyn Checker) -> Result<(), String> {
        let (expected, new, length) = self.expected_wide(room);
        self.planted(expected)?;
        let old = &self.old().held;
        for fill in [Fill::First, Fill::Second] {
            let mut out = Guarded::buffer(length, fill);
            let word = caught(|| checker.widen(old.copy(fill).bytes(), out.bytes_mut()))?;
            old.unharmed(fill, "old catalogue")?;
            compare_bytes((expected, new), "new catalogue", word, &out)?;
        }
        Ok(())
    }

    /// The new list keeps the old one, for every reader: both are the
    /// original's, byte by byte.
    fn grown_keeps(&self, result: Option<u32>) -> Result<(), String> {
        if !self.premises_hold(result) {
            return Ok(());
        }
        for reader in Reader::ALL {
            if let Some((old, new)) = self.both_lists(reader, result) {
                let places = grown::places(&old, &new);
                places.map_err(|what| format!("for {reader}, {what}"))?;
            }
        }
        Ok(())
    }

    /// Document 01's premises on a fit that grows, but for the two answers.
    fn premises_hold(&self, result: Option<u32>) -> bool {
        let old = &self.case.fits[0];
        if old.items.len() != old.results.len() {
            return false;
        }
        if let Some(result) = result {
            return result as usize <= old.results.len() + 1;
        }
        let Ok(catalogue) = &self.source.catalogue else {
            return false;
        };
        let added = &self.case.growth.items;
        added.iter().filter(|item| item.kind == 11).all(|item| {
            let volume = catalogue.volume(item.type_id);
            volume.is_none_or(|volume| volume.is_finite() && volume >= 0.0)
        })
    }

    /// What the reference lists, or the refusal before 10.
    fn listed(&self, source: &Source, subject: &Subject, call: Lists) -> Result<Listed, Refusal> {
        let Lists { reader, limits, .. } = call;
        reference::reader::judged(reader, call.result.is_some())?;
        let catalogue = source.catalogue.as_ref().map_err(|refusal| *refusal)?;
        let fit = subject.decoded.as_ref().map_err(|refusal| *refusal)?;
        match call.result {
            None => {
                reference::page::pairs(fit, limits)?;
                let league = self.brought.league.as_ref().map_err(|refusal| *refusal)?;
                let listed = || reference::list(catalogue, fit, league);
                let full = subject.listed.get_or_init(listed).clone();
                Ok(reference::reader::given(full, reader))
            }
            Some(result) => subject
                .skills
                .borrow_mut()
                .entry((result, limits))
                .or_insert_with(|| reference::skill(catalogue, fit, result, limits))
                .clone(),
        }
    }

    /// A planted refusal must be what the reference gives.
    fn planted(&self, word: u64) -> Result<(), String> {
        match self.case.expected_refusal() {
            Some(refusal) if word != refused(refusal) => Err(format!(
                "refusal {refusal} was planted, the reference gives {}",
                in_words(word)
            )),
            _ => Ok(()),
        }
    }
}

/// What a call that writes an image must give, and the length of the buffer that it
/// is lent; a refusal has so much to leave untouched.
fn expected_image(
    new: Result<&[u8], Refusal>,
    room: Room,
    untouched: usize,
) -> (u64, &[u8], usize) {
    match new {
        Ok(new) => match room.length(new.len()) {
            length if length < new.len() => (refused(10), &[], length),
            length => (new.len() as u64, new, length),
        },
        Err(refusal) => (refused(refusal), &[], room.length(untouched)),
    }
}

thread_local! {
    /// Whether the checker is at work.
    static CALLED: Cell<bool> = const { Cell::new(false) };
}

/// Has a panic of the checker's print nothing: it is reported as a difference.
/// A panic of ours prints as ever.
pub fn quiet_checker_panics() {
    let usual = panic::take_hook();
    panic::set_hook(Box::new(move |panic| {
        if !CALLED.get() {
            usual(panic);
        }
    }));
}

/// The checker's word, or that it panicked.
fn caught(call: impl FnOnce() -> u64) -> Result<u64, String> {
    CALLED.set(true);
    let word = panic::catch_unwind(AssertUnwindSafe(call));
    CALLED.set(false);
    word.map_err(|_| "the checker panicked".to_string())
}
