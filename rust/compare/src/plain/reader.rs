//! Document 02's P14: refusals 19 and 20, and what a guest gets. What a call
//! gives is worked out as for an officer; the two numbers stand before all that.

use std::borrow::Cow;

use super::bytes::u32_at;
use super::catalogue::Catalogue;
use super::fault::Fault;
use super::fit::Fit;
use super::page::Asked;
use super::{Flaw, Number, answer};
use crate::checker::{ENTRY, Entry, Terms, refused};
use crate::page::Limits;
use crate::reader;

const NOT_A_SKILL: u8 = 21;

#[derive(Clone, Copy, PartialEq)]
enum Who {
    Guest,
    Pilot,
    Officer,
}

/// Who a call is for, and what is asked.
#[derive(Clone, Copy)]
pub struct Reader {
    /// Nobody where the number is no reader's.
    who: Option<Who>,
    asked: Asked,
    /// The result number of a skill call.
    result: u32,
    flaw: Flaw,
}

/// What a call is worked out with.
pub struct Worked<'a> {
    pub fit: Cow<'a, [u8]>,
    pub terms: Terms<'a>,
    pub flaw: Flaw,
}

/// The wrong turns for which the rest of a call is worked out, though it is
/// refused by 19 or 20.
const LATE: &[Fault] = &[
    Fault::ReaderAfterCatalogue,
    Fault::ReaderAfterFit,
    Fault::ReaderAfterPage,
    Fault::ReaderAfterProfile,
    Fault::ReaderAfterResult,
    Fault::ReaderAfterWalk,
    Fault::ReaderAfterRoom,
    Fault::ReaderCounts,
    Fault::GuestAfterCatalogue,
    Fault::GuestAfterFit,
    Fault::GuestAfterPage,
    Fault::GuestAfterResult,
    Fault::GuestAfterWalk,
    Fault::GuestAfterRoom,
    Fault::GuestSkillsAnswered,
    Fault::GuestSkillsUntrained,
    Fault::GuestSkillsNoneListed,
    Fault::GuestSkillsNoneLacking,
    Fault::GuestSkillsOfShip,
    Fault::GuestSkillsOfCharacter,
    Fault::GuestSkillsOfItems,
    Fault::GuestSkillsCounted,
    Fault::GuestSkillsWritten,
];

impl Reader {
    pub fn of_list(terms: Terms, flaw: Flaw) -> Reader {
        Reader::new(terms.reader, Asked::List, 0, flaw)
    }

    pub fn of_skill(terms: Terms, result: u32, flaw: Flaw) -> Reader {
        Reader::new(terms.reader, Asked::Skill, result, flaw)
    }

    fn new(number: reader::Reader, asked: Asked, result: u32, flaw: Flaw) -> Reader {
        let number = flaw.number(Number::Reader, number.0 as usize);
        Reader {
            who: who(number as u32, asked, flaw),
            asked,
            result,
            flaw,
        }
    }

    fn is_guest(self) -> bool {
        self.who == Some(Who::Guest)
    }

    /// What the call is worked out with: the wrong turns that a guest's brings
    /// something else.
    pub fn worked<'a>(self, fit: &'a [u8], terms: Terms<'a>) -> Worked<'a> {
        let flaw = self.flaw;
        let mut worked = Worked {
            fit: Cow::Borrowed(fit),
            terms,
            flaw,
        };
        let Limits { pairs, skills } = terms.limits;
        match () {
            () if !self.is_guest() => {}
            () if flaw.has(Fault::GuestNoProfile) => worked.terms.profile = &[],
            () if flaw.has(Fault::GuestNoLimits) => worked.terms.limits = Limits::MAIN,
            () if flaw.has(Fault::GuestSmallPage) => {
                worked.terms.limits = Limits::of(pairs.min(64), skills);
            }
            () if flaw.has(Fault::GuestSkillTwice) => {
                worked.flaw = Flaw::Fault(Fault::SkillsMayRepeat);
            }
            () if flaw.has(Fault::GuestSkillsUntrained) => {
                worked.fit = untrained(fit).map_or(Cow::Borrowed(fit), Cow::Owned);
            }
            () => {}
        }
        worked
    }

    /// The word of a call on these images that gives this to an officer, and what
    /// it leaves in the buffer.
    pub fn answer(
        self,
        images: (&[u8], &[u8]),
        listed: impl FnOnce() -> Result<Vec<Entry>, u8>,
        out: &mut [u8],
    ) -> u64 {
        let flaw = self.flaw;
        let deserved = self.deserved();
        let is_late = LATE.iter().any(|fault| flaw.has(*fault));
        if let Some(number) = deserved
            && !is_late
        {
            return self.refuse(number, out);
        }
        let listed = listed();
        let number = match deserved {
            None if !self.refuses_lists(&listed) => return self.give(images, listed, out),
            None => 20,
            Some(_) if self.is_passed_over(images.1, &listed) => return answer(listed, out, flaw),
            Some(number) => number,
        };
        match else_given(&listed, out.len()) {
            other if self.comes_behind(number, other) => answer(Err(other), out, flaw),
            _ => self.refuse_late(number, listed.unwrap_or_default(), out),
        }
    }

    /// 19 or 20, where the reader deserves it.
    fn deserved(self) -> Option<u8> {
        let flaw = self.flaw;
        let number = match (self.who, self.asked) {
            (None, _) => 19,
            (Some(Who::Guest), Asked::Skill) => 20,
            (Some(Who::Pilot), Asked::Skill) if flaw.has(Fault::PilotSkillsRefused) => 20,
            (Some(Who::Officer), Asked::Skill) if flaw.has(Fault::OfficerSkillsRefused) => 20,
            _ => return None,
        };
        match number {
            19 if flaw.has(Fault::ReaderAboveAs20) => Some(20),
            20 if flaw.has(Fault::GuestSkillsAs19) => Some(19),
            20 if flaw.has(Fault::GuestSkillsAs8) => Some(8),
            number => Some(number),
        }
    }

    /// The wrong turns that refuse a guest's list by 20.
    fn refuses_lists(self, listed: &Result<Vec<Entry>, u8>) -> bool {
        let mut entries = listed.iter().flatten();
        let omits = entries.any(|entry| entry[1] == NOT_A_SKILL);
        self.is_guest()
            && (self.flaw.has(Fault::GuestListRefused)
                || (self.flaw.has(Fault::GuestListRefusedToOmit) && omits))
    }

    /// The wrong turns that answer a guest's skill call.
    fn is_passed_over(self, fit: &[u8], listed: &Result<Vec<Entry>, u8>) -> bool {
        let flaw = self.flaw;
        let listed_skills = fit.get(..4).map_or(1, |bytes| u32_at(bytes, 0));
        let is_empty = listed.as_ref().is_ok_and(Vec::is_empty);
        self.is_guest()
            && (flaw.has(Fault::GuestSkillsAnswered)
                || flaw.has(Fault::GuestSkillsUntrained)
                || (flaw.has(Fault::GuestSkillsNoneListed) && listed_skills == 0)
                || (flaw.has(Fault::GuestSkillsNoneLacking) && is_empty)
                || (flaw.has(Fault::GuestSkillsOfShip) && self.result == 0)
                || (flaw.has(Fault::GuestSkillsOfCharacter) && self.result == 1)
                || (flaw.has(Fault::GuestSkillsOfItems) && self.result > 1))
    }

    /// Whether another refusal is given before 19 or 20: none is.
    fn comes_behind(self, number: u8, other: u8) -> bool {
        use Fault::*;
        // From which refusal on each of these is right.
        let late: &[Fault] = match number {
            19 => &[
                ReaderAfterCatalogue,
                ReaderAfterFit,
                ReaderAfterPage,
                ReaderAfterProfile,
                ReaderAfterResult,
                ReaderAfterWalk,
                ReaderAfterRoom,
            ],
            _ => &[
                GuestAfterCatalogue,
                GuestAfterFit,
                GuestAfterPage,
                GuestAfterPage,
                GuestAfterResult,
                GuestAfterWalk,
                GuestAfterRoom,
            ],
        };
        let first = match other {
            1..=3 => 0,
            4..=6 => 1,
            13 => 2,
            11 | 12 => 3,
            8 => 4,
            9 => 5,
            10 => 6,
            _ => return false,
        };
        late[first..].iter().any(|fault| self.flaw.has(*fault))
    }

    /// A refusal by 19 or 20 for which nothing is worked out.
    fn refuse(self, number: u8, out: &mut [u8]) -> u64 {
        let flaw = self.flaw;
        let clears = match number {
            19 => Fault::ReaderClears,
            _ => Fault::GuestSkillsClear,
        };
        if flaw.has(clears) {
            out.fill(0);
        }
        match number {
            19 if flaw.has(Fault::ReaderAboveGetsNothing) => 0,
            20 if flaw.has(Fault::GuestSkillsEmpty) => 0,
            _ => answer(Err(number), out, flaw),
        }
    }

    /// The same where the entries are there.
    fn refuse_late(self, number: u8, entries: Vec<Entry>, out: &mut [u8]) -> u64 {
        let flaw = self.flaw;
        let counts = match number {
            19 => Fault::ReaderCounts,
            _ => Fault::GuestSkillsCounted,
        };
        if number == 20 && flaw.has(Fault::GuestSkillsWritten) {
            copy(&entries.concat(), out);
        }
        match flaw.has(counts) {
            true => refused(number) + entries.len() as u64,
            false => refused(number),
        }
    }

    /// Writes what the reader gets of a full list; the word of the call.
    fn give(self, images: (&[u8], &[u8]), listed: Result<Vec<Entry>, u8>, out: &mut [u8]) -> u64 {
        let flaw = self.flaw;
        let full = match listed {
            Ok(full) if self.omits() => full,
            other => return self.give_full(other, out),
        };
        let kept = self.kept(images, &full);
        let has_room = out.len() >= ENTRY * kept.len();
        match () {
            () if flaw.has(Fault::GuestRoomOfAll) && out.len() < ENTRY * full.len() => {
                return refused(10);
            }
            () if flaw.has(Fault::GuestTailFull) && has_room => copy(&full.concat(), out),
            () if flaw.has(Fault::GuestLeavesGaps) && has_room => {
                in_their_places(&full, out);
                return kept.len() as u64;
            }
            () => {}
        }
        let count = kept.len();
        let word = answer(Ok(kept), out, flaw);
        if word >> 32 != 0 {
            return word;
        }
        let behind = &mut out[ENTRY * count..];
        let omitted = parted(&full).1.concat();
        match () {
            () if flaw.has(Fault::GuestTailOmitted) => copy(&omitted, behind),
            () if flaw.has(Fault::GuestTailCleared) => copy(&vec![0; omitted.len()], behind),
            () if flaw.has(Fault::GuestCountsAll) => return full.len() as u64,
            () => {}
        }
        word
    }

    /// What a pilot and an officer get.
    fn give_full(self, listed: Result<Vec<Entry>, u8>, out: &mut [u8]) -> u64 {
        let Ok(full) = &listed else {
            return answer(listed, out, self.flaw);
        };
        let guests = ENTRY * parted(full).0.len();
        match self.flaw.has(Fault::RoomOfGuest) && out.len() >= guests {
            true => {
                copy(&full.concat(), out);
                full.len() as u64
            }
            false => answer(listed, out, self.flaw),
        }
    }

    /// Whether something is left out of the reader's list.
    fn omits(self) -> bool {
        match self.who {
            _ if self.asked == Asked::Skill => false,
            Some(Who::Guest) => !self.flaw.has(Fault::GuestListFull),
            Some(Who::Pilot) => self.flaw.has(Fault::PilotListOmits),
            Some(Who::Officer) => self.flaw.has(Fault::OfficerListOmits),
            None => false,
        }
    }

    /// What a guest's list keeps of a full one.
    fn kept(self, images: (&[u8], &[u8]), full: &[Entry]) -> Vec<Entry> {
        let flaw = self.flaw;
        let mut kept = Vec::new();
        for (place, entry) in full.iter().enumerate() {
            let is_private = entry[1] == NOT_A_SKILL;
            match () {
                () if !is_private && !omits_too(entry, flaw) => kept.push(*entry),
                () if is_private && self.keeps(images, full, place) => {
                    kept.push(hidden(entry, flaw));
                }
                () => {}
            }
        }
        if flaw.has(Fault::GuestOmitsRest)
            && let Some(first) = full.iter().position(|entry| entry[1] == NOT_A_SKILL)
        {
            kept.truncate(first);
        }
        if flaw.has(Fault::GuestListsLast) {
            kept.extend(parted(full).1);
        }
        kept
    }

    /// Whether a NotASkill entry is kept all the same.
    fn keeps(self, (catalogue, fit): (&[u8], &[u8]), full: &[Entry], place: usize) -> bool {
        let flaw = self.flaw;
        let is_private = |entry: &&Entry| entry[1] == NOT_A_SKILL;
        let before = full[..place].iter().filter(is_private).count();
        let behind = full[place + 1..].iter().filter(is_private).count();
        let id = u32_at(&full[place], 8) as i32;
        match () {
            () if flaw.has(Fault::GuestHidesIds) || flaw.has(Fault::GuestBlanks) => true,
            () if flaw.has(Fault::GuestOmitsFirst) => before > 0,
            () if flaw.has(Fault::GuestOmitsLast) => behind > 0,
            () if flaw.has(Fault::GuestKeepsFirst) => before == 0,
            () if flaw.has(Fault::GuestKeepsLast) => behind == 0,
            () if flaw.has(Fault::GuestKeepsNegative) => id < 0,
            () if flaw.has(Fault::GuestKeepsMissing) => !is_known(catalogue, id),
            () if flaw.has(Fault::GuestKeepsKnown) => is_known(catalogue, id),
            () if flaw.has(Fault::GuestKeepsUntrained) => trained(fit, id) == Some(0),
            () if flaw.has(Fault::GuestOmitsOneAlone) => before + behind > 0,
            () => false,
        }
    }
}

/// The reader of a number; none is above 2.
fn who(number: u32, asked: Asked, flaw: Flaw) -> Option<Who> {
    use Who::{Guest, Officer, Pilot};
    match number {
        _ if flaw.has(Fault::ReaderUnread) => Some(Officer),
        3 if flaw.has(Fault::Reader3Taken) => Some(Officer),
        3.. if flaw.has(Fault::ReadersUnlimited) => Some(Officer),
        3.. if flaw.has(Fault::ReadersAboveGuests) => Some(Guest),
        0x8000_0000.. if flaw.has(Fault::ReaderSigned) => Some(Officer),
        3.. if asked == Asked::List && flaw.has(Fault::ReaderUnaskedByList) => Some(Officer),
        3.. if asked == Asked::Skill && flaw.has(Fault::ReaderUnaskedBySkill) => Some(Officer),
        0 if flaw.has(Fault::GuestRefused) => None,
        1 if flaw.has(Fault::PilotRefused) => None,
        2 if flaw.has(Fault::OfficerRefused) => None,
        0 if flaw.has(Fault::ReadersBackwards) => Some(Officer),
        2 if flaw.has(Fault::ReadersBackwards) => Some(Guest),
        1 if flaw.has(Fault::PilotIsGuest) => Some(Guest),
        2 if flaw.has(Fault::OfficerIsGuest) => Some(Guest),
        0 => Some(Guest),
        1 => Some(Pilot),
        2 => Some(Officer),
        _ => None,
    }
}

/// The wrong turns that leave out of a guest's list what is no NotASkill.
fn omits_too(entry: &Entry, flaw: Flaw) -> bool {
    let [target, rule, sub] = [entry[0], entry[1], entry[2]];
    match () {
        () if flaw.has(Fault::GuestOmitsHull) => rule == 19,
        () if flaw.has(Fault::GuestOmitsMode) => rule == 20,
        () if flaw.has(Fault::GuestOmitsDrones) => [rule, sub] == [1, 5],
        () if flaw.has(Fault::GuestOmitsBans) => rule == 24,
        () if flaw.has(Fault::GuestOmitsPoints) => rule == 25,
        () if flaw.has(Fault::GuestOmitsUnknown) => rule == 26,
        () if flaw.has(Fault::GuestOmitsShip) => target == 0,
        () if flaw.has(Fault::GuestOmitsItems) => target == 1,
        () => false,
    }
}

/// What is left of a NotASkill entry that is kept.
fn hidden(entry: &Entry, flaw: Flaw) -> Entry {
    let mut hidden = *entry;
    match () {
        () if flaw.has(Fault::GuestHidesIds) => hidden[8..12].fill(0),
        () if flaw.has(Fault::GuestBlanks) => hidden.fill(0),
        () => {}
    }
    hidden
}

/// What a guest's list keeps, and what it omits.
fn parted(full: &[Entry]) -> (Vec<Entry>, Vec<Entry>) {
    full.iter().partition(|entry| entry[1] != NOT_A_SKILL)
}

/// The refusal that is given but for readers; 0 where the call is answered.
fn else_given(listed: &Result<Vec<Entry>, u8>, room: usize) -> u8 {
    match listed {
        Ok(entries) if room < ENTRY * entries.len() => 10,
        Ok(_) => 0,
        Err(number) => *number,
    }
}

/// Each entry that is kept at the place that it has in the full list.
fn in_their_places(full: &[Entry], out: &mut [u8]) {
    for (entry, place) in full.iter().zip(out.chunks_exact_mut(ENTRY)) {
        if entry[1] != NOT_A_SKILL {
            place.copy_from_slice(entry);
        }
    }
}

fn is_known(catalogue: &[u8], id: i32) -> bool {
    let catalogue = Catalogue::open(catalogue, Flaw::None);
    catalogue.is_ok_and(|catalogue| catalogue.type_of(id).is_some())
}

fn trained(fit: &[u8], id: i32) -> Option<u8> {
    Fit::open(fit, Flaw::None).ok()?.trained(id, Flaw::None)
}

/// As many bytes as there is room for.
fn copy(bytes: &[u8], out: &mut [u8]) {
    let written = bytes.len().min(out.len());
    out[..written].copy_from_slice(&bytes[..written]);
}

/// The image of a fit without its skills, where its length allows for them.
fn untrained(fit: &[u8]) -> Option<Vec<u8>> {
    let listed = u32_at(fit.get(..4)?, 0) as usize;
    let behind = fit.get(28_usize.checked_add(listed.checked_mul(5)?)?..)?;
    Some([&[0; 4], &fit[4..28], behind].concat())
}
