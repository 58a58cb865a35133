//! A plain port of the documents' calls, straight over the images, with a
//! switch for one deliberate fault. Without a fault it agrees with the
//! original; with one, the comparison must tell it apart.

mod bytes;
mod catalogue;
mod cause;
mod context;
mod entry;
mod fault;
mod fit;
mod flaw;
mod hall;
mod item;
mod league;
mod leave_out;
mod page;
mod reader;
mod resource;
mod skill;
mod slot;
mod train;
mod trim;
mod unknown;
mod widen;

use catalogue::Catalogue;
use context::Context;
use entry::{Entries, Target};
use fit::Fit;
use league::League;
use page::{Asked, Page};
use reader::{Reader, Worked};
use unknown::Place;

use crate::checker::{Checker, ENTRY, Entry, Terms, refused};

pub use fault::{FAULTS, Fault};
pub use flaw::{Flaw, Measure, Number, Rows};

/// The port, with at most one fault.
#[derive(Clone, Copy, Default)]
pub struct Plain {
    flaw: Flaw,
}

impl Plain {
    pub fn with(flaw: Flaw) -> Plain {
        Plain { flaw }
    }
}

impl Checker for Plain {
    fn list(&self, catalogue: &[u8], fit: &[u8], terms: Terms, out: &mut [u8]) -> u64 {
        let reader = Reader::of_list(terms, self.flaw);
        let (worked, room) = (reader.worked(fit, terms), out.len());
        reader.answer((catalogue, fit), || listed(catalogue, &worked, room), out)
    }

    fn skill(
        &self,
        catalogue: &[u8],
        fit: &[u8],
        result: u32,
        terms: Terms,
        out: &mut [u8],
    ) -> u64 {
        let reader = Reader::of_skill(terms, result, self.flaw);
        let (worked, room) = (reader.worked(fit, terms), out.len());
        let listed = || skills(catalogue, &worked, result, room);
        reader.answer((catalogue, fit), listed, out)
    }

    fn hall(&self, catalogue: &[u8], input: &[u8]) -> u64 {
        hall::hall(catalogue, input, self.flaw)
    }

    fn widen(&self, old: &[u8], out: &mut [u8]) -> u64 {
        widen::widen(old, out, self.flaw)
    }

    fn train(&self, catalogue: &[u8], fit: &[u8], result: u32, steps: u32, out: &mut [u8]) -> u64 {
        train::train((catalogue, fit), result, steps, out, self.flaw)
    }

    fn trim(&self, catalogue: &[u8], fit: &[u8], out: &mut [u8]) -> u64 {
        trim::trim((catalogue, fit), out, self.flaw)
    }

    fn cause(&self, catalogue: &[u8], fit: &[u8], position: u32, out: &mut [u8]) -> u64 {
        cause::cause((catalogue, fit), position, out, self.flaw)
    }

    fn leave_out(&self, catalogue: &[u8], fit: &[u8], budget: u32, out: &mut [u8]) -> u64 {
        leave_out::leave_out((catalogue, fit), budget, out, self.flaw)
    }
}

/// What the list call gives to an officer, but for refusal 10.
fn listed(catalogue: &[u8], worked: &Worked, room: usize) -> Result<Vec<Entry>, u8> {
    let Worked { fit, terms, flaw } = worked;
    let (terms, flaw) = (*terms, *flaw);
    let page = Page::new(terms.limits, Asked::List, flaw);
    let listed = opened_list(catalogue, fit, terms, page, room, flaw).and_then(
        |(catalogue, fit, league)| {
            page.asks_all(&Context::new(&catalogue, &fit, flaw))?;
            list(&catalogue, &fit, &league, flaw)
        },
    );
    let listed = page.judged(listed, (catalogue, fit), room);
    listed.map(|entries| page.answered(entries))
}

/// The same of the skill call.
fn skills(catalogue: &[u8], worked: &Worked, result: u32, room: usize) -> Result<Vec<Entry>, u8> {
    let Worked { fit, terms, flaw } = worked;
    let (fit, flaw): (&[u8], Flaw) = (fit, *flaw);
    let page = Page::new(terms.limits, Asked::Skill, flaw);
    let results = fit.get(8..12).map_or(0, |bytes| bytes::u32_at(bytes, 0));
    let too_high = u64::from(result) > u64::from(results) + 1;
    if flaw.has(Fault::ResultBeforeFit)
        && too_high
        && Catalogue::open(catalogue, flaw).is_ok()
        && !matches!(Fit::open(fit, flaw), Err(4))
    {
        return Err(8);
    }
    let listed = opened(catalogue, fit, flaw).and_then(|(catalogue, fit)| {
        let result = flaw.number(Number::Result, result as usize);
        match skill(&catalogue, &fit, result, page, flaw) {
            Err(9) if flaw.has(Fault::RoomBeforeWalk) && room < ENTRY => Err(10),
            Err(13) if flaw.has(Fault::SkillsAfterRoom) && room < ENTRY => Err(10),
            listed => listed,
        }
    });
    let listed = page.judged(listed, (catalogue, fit), room);
    listed.map(|entries| page.answered(entries))
}

/// Both images, or the first refusal of 1 to 6.
fn opened<'a>(
    catalogue: &'a [u8],
    fit: &'a [u8],
    flaw: Flaw,
) -> Result<(Catalogue<'a>, Fit<'a>), u8> {
    if flaw.has(Fault::FitBeforeCatalogue) {
        Fit::open(fit, flaw)?;
    }
    Ok((Catalogue::open(catalogue, flaw)?, Fit::open(fit, flaw)?))
}

/// What the list call brings, or the first refusal of 1 to 6, 11 and 12.
fn opened_list<'a>(
    catalogue: &'a [u8],
    fit: &'a [u8],
    terms: Terms<'a>,
    page: Page,
    room: usize,
    flaw: Flaw,
) -> Result<(Catalogue<'a>, Fit<'a>, League<'a>), u8> {
    if flaw.has(Fault::ProfileFirst) {
        League::judged(terms, flaw)?;
    }
    if flaw.has(Fault::ProfileBeforeFit) {
        Catalogue::open(catalogue, flaw)?;
        League::judged(terms, flaw)?;
    }
    let (catalogue, fit) = opened(catalogue, fit, flaw)?;
    let is_hull = context::is_hull(&catalogue, &fit, flaw);
    let league = match League::judged(terms, flaw) {
        _ if !page.reads_profiles() => League::none(flaw),
        Err(_) if flaw.has(Fault::ProfileOnHulls) && !is_hull => League::none(flaw),
        Err(number) if flaw.has(Fault::ProfileAfterRoom) => {
            let entries = list(&catalogue, &fit, &League::none(flaw), flaw)?;
            return Err(if room < ENTRY * entries.len() {
                10
            } else {
                number
            });
        }
        judged => judged?,
    };
    Ok((catalogue, fit, league))
}

/// The entries of a fit; a refusal is a flaw's.
fn list(catalogue: &Catalogue, fit: &Fit, league: &League, flaw: Flaw) -> Result<Vec<Entry>, u8> {
    let context = Context::new(catalogue, fit, flaw);
    let mut entries = Entries::new(flaw);
    let hull = context::is_hull(catalogue, fit, flaw);
    if hull && flaw.has(Fault::HangarRefused) && resource::is_hangar(&context) {
        return Err(7);
    }
    if !hull || flaw.has(Fault::FixedList) {
        entries.add(Target::Ship, 19, 0, &[]);
        if flaw.has(Fault::LeagueWithoutHull) {
            league.validate(&context, &mut entries);
        }
        if flaw.has(Fault::UnknownWithoutHull) {
            unknown::validate(&context, Place::End, &mut entries);
        }
        if !flaw.has(Fault::HullGoesOn) {
            return Ok(entries.found);
        }
    }
    unknown::validate(&context, Place::Front, &mut entries);
    if flaw.has(Fault::LeagueFirst) {
        league.validate(&context, &mut entries);
    }
    context::kind(&context, &mut entries);
    if flaw.has(Fault::SlotsBeforeResources) {
        slot::validate(&context, &mut entries);
        resource::validate(&context, &mut entries);
    } else {
        resource::validate(&context, &mut entries);
        slot::validate(&context, &mut entries);
    }
    unknown::validate(&context, Place::BeforeItems, &mut entries);
    item::validate(&context, &mut entries);
    unknown::validate(&context, Place::BeforeLeague, &mut entries);
    if !flaw.has(Fault::LeagueFirst) {
        league.validate(&context, &mut entries);
    }
    unknown::validate(&context, Place::End, &mut entries);
    shortened(entries, flaw, Rows::ListEntries, Measure::ListEntries)
}

/// The entries, where the flaw is not about how many they are.
fn shortened(
    mut entries: Entries,
    flaw: Flaw,
    rows: Rows,
    measure: Measure,
) -> Result<Vec<Entry>, u8> {
    if flaw.refuses(measure, entries.found.len()) {
        return Err(10);
    }
    let kept = flaw.rows(rows, entries.found.len());
    entries.found.truncate(kept);
    Ok(entries.found)
}

/// The entries of one result's skills, or refusal 8, 9 or 13.
fn skill(
    catalogue: &Catalogue,
    fit: &Fit,
    result: usize,
    page: Page,
    flaw: Flaw,
) -> Result<Vec<Entry>, u8> {
    let last = match () {
        () if flaw.has(Fault::ResultOneLess) => fit.results(),
        () if flaw.has(Fault::UnpairedResultRefused) => fit.pairs() + 1,
        () => fit.results() + 1,
    };
    if flaw.has(Fault::ResultOneMore) && result == last + 1 {
        return Ok(Vec::new());
    }
    if result > last {
        return Err(8);
    }
    let context = Context::new(catalogue, fit, flaw);
    if flaw.has(Fault::HangarRefusedForSkills)
        && context::is_hull(catalogue, fit, flaw)
        && resource::is_hangar(&context)
    {
        return Err(7);
    }
    let mut entries = Entries::new(flaw);
    page.asks_all(&context)?;
    skill::report(&context, result, page, &mut entries)?;
    shortened(entries, flaw, Rows::SkillEntries, Measure::SkillEntries)
}

/// Writes the entries where they have room; the word of the call.
fn answer(listed: Result<Vec<Entry>, u8>, out: &mut [u8], flaw: Flaw) -> u64 {
    let entries = match listed {
        Ok(entries) => entries,
        Err(number) => {
            if flaw.has(Fault::RefusalClears) {
                out.fill(0);
            }
            return refused(number);
        }
    };
    let bytes: Vec<u8> = entries.concat();
    let count = entries.len() as u64;
    let needed = match () {
        () if flaw.has(Fault::RoomMustExceed) && count > 0 => bytes.len() + 1,
        () if flaw.has(Fault::RoomRefusesEmpty) => bytes.len().max(1),
        () if flaw.has(Fault::RoomOneShort) => bytes.len().saturating_sub(1),
        () => bytes.len(),
    };
    let room = flaw.number(Number::OutLength, out.len());
    if room < needed || flaw.refuses(Measure::OutBytes, out.len()) {
        if flaw.has(Fault::ShortRoomFilled) {
            let whole = (out.len() / ENTRY * ENTRY).min(bytes.len());
            out[..whole].copy_from_slice(&bytes[..whole]);
        }
        let counted = if flaw.has(Fault::RefusalCounts) {
            count
        } else {
            0
        };
        return refused(10) + counted;
    }
    write(&bytes, out, flaw);
    flaw.number(Number::Count, count as usize) as u64
}

/// Writes the entries' bytes from byte 0 on.
fn write(bytes: &[u8], out: &mut [u8], flaw: Flaw) {
    if !flaw.has(Fault::NothingWritten) {
        let written = bytes.len().min(out.len());
        for (at, byte) in bytes[..written].iter().enumerate() {
            out[flaw.number(Number::OutPlace, at)] = *byte;
        }
    }
    if flaw.has(Fault::TailCleared) {
        out[bytes.len()..].fill(0);
    }
}
