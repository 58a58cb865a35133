//! The reference: document 01's calls, answered by the original.
//!
//! The images are decoded here, from documents 01 and 02 alone; the rules are
//! run by the crate `original`, which is compiled as published. What the
//! original cannot say or hold is plain code: the total of drones over 32 bits
//! in `drones`, base values finer than an f32 in `walk`, the widening of old
//! catalogues in `widen`, the league's rules in `league`, rule 26 in `unknown`,
//! a page's limits in `page`, who may read what in `reader`, what a step of
//! training changes in `train`, what a trimmed catalogue keeps in `trim`, which pairs
//! make an entry in `cause`, which to take off in `leave_out`.

mod catalogue;
mod cause;
mod drones;
mod encode;
mod fit;
pub mod league;
pub mod leave_out;
pub mod page;
pub mod reader;
mod train;
mod trim;
mod unknown;
mod walk;
mod widen;
mod words;

use std::cmp::Ordering;

use original::{Rule, Run, Target, Violation};

use crate::checker::{Checker, ENTRY, Entry, Terms, refused};
use crate::page::Limits;

pub use catalogue::{Catalogue, LIMIT};
pub use cause::{Cause, bad_volume, is_bad, is_still_in, officers_list};
pub use encode::entry;
pub use fit::Fit;
pub use league::League;
pub use leave_out::{Judge, LeaveOut};
pub use train::{Missing, Plan, Skills, first_list, would_list};
pub use trim::{named, touched, trim, trimmed};
pub use widen::widen;

/// A refusal's number.
pub type Refusal = u8;

/// The reference as a checker, for whoever wants its word and bytes.
#[derive(Clone, Copy, Default)]
pub struct Original;

impl Checker for Original {
    fn list(&self, catalogue: &[u8], fit: &[u8], terms: Terms, out: &mut [u8]) -> u64 {
        let listed = || {
            reader::judged(terms.reader, false)?;
            let catalogue = Catalogue::decode(catalogue)?;
            let fit = Fit::decode(fit)?;
            page::pairs(&fit, terms.limits)?;
            let league = League::decode(terms)?;
            Ok(reader::given(list(&catalogue, &fit, &league), terms.reader))
        };
        written(listed(), out)
    }

    fn skill(
        &self,
        catalogue: &[u8],
        fit: &[u8],
        result: u32,
        terms: Terms,
        out: &mut [u8],
    ) -> u64 {
        let listed = || {
            reader::judged(terms.reader, true)?;
            let catalogue = Catalogue::decode(catalogue)?;
            let fit = Fit::decode(fit)?;
            skill(&catalogue, &fit, result, terms.limits)
        };
        written(listed(), out)
    }

    fn hall(&self, catalogue: &[u8], input: &[u8]) -> u64 {
        let numbers = Catalogue::decode(catalogue).and_then(|catalogue| hall(&catalogue, input));
        match numbers {
            Ok(numbers) => numbers.number().into(),
            Err(refusal) => refused(refusal),
        }
    }

    fn widen(&self, old: &[u8], out: &mut [u8]) -> u64 {
        written_bytes(widen(old), out)
    }

    fn train(&self, catalogue: &[u8], fit: &[u8], result: u32, steps: u32, out: &mut [u8]) -> u64 {
        let trained = || {
            let catalogue = Catalogue::decode(catalogue)?;
            let plan = Plan::of(&catalogue, fit, result)?;
            Ok(plan.image(steps))
        };
        written_bytes(trained(), out)
    }

    fn trim(&self, catalogue: &[u8], fit: &[u8], out: &mut [u8]) -> u64 {
        written_bytes(trim(catalogue, fit), out)
    }

    fn cause(&self, catalogue: &[u8], fit: &[u8], position: u32, out: &mut [u8]) -> u64 {
        let image = || {
            let catalogue = Catalogue::decode(catalogue)?;
            let fit = Fit::decode(fit)?;
            Ok(Cause::of(&catalogue, &fit, position)?.image())
        };
        written_bytes(image(), out)
    }

    fn leave_out(&self, catalogue: &[u8], fit: &[u8], budget: u32, out: &mut [u8]) -> u64 {
        let image = || {
            let catalogue = Catalogue::decode(catalogue)?;
            let fit = Fit::decode(fit)?;
            let all = LeaveOut::of(&Judge::new(&catalogue, &fit));
            Ok(all.within(budget).image())
        };
        written_bytes(image(), out)
    }
}

/// Writes an image where it has room; the word of the call.
fn written_bytes(image: Result<Vec<u8>, Refusal>, out: &mut [u8]) -> u64 {
    let image = match image {
        Ok(image) => image,
        Err(refusal) => return refused(refusal),
    };
    match out.get_mut(..image.len()) {
        Some(room) => {
            room.copy_from_slice(&image);
            image.len() as u64
        }
        None => refused(10),
    }
}

/// Writes the entries where they have room; the word of the call.
fn written(listed: Result<Listed, Refusal>, out: &mut [u8]) -> u64 {
    let entries = match listed {
        Ok(listed) => listed.entries,
        Err(refusal) => return refused(refusal),
    };
    match out.get_mut(..ENTRY * entries.len()) {
        Some(room) => {
            room.copy_from_slice(&entries.concat());
            entries.len() as u64
        }
        None => refused(10),
    }
}

/// The entries of an answered call.
#[derive(Clone, Debug, Default, PartialEq)]
pub struct Listed {
    pub entries: Vec<Entry>,
    /// The entry, if any, whose `used` is the sum of no cargo at all, or of −0
    /// alone. There Rust releases differ in the sign of the zero, so both
    /// count as equal; the entry here has document 01's +0. Nowhere else is a
    /// byte free.
    pub either_zero: Option<usize>,
}

/// The three numbers of a hall call.
#[derive(Clone, Copy, Debug, Default, PartialEq)]
pub struct Hall {
    pub clear: u32,
    pub faulted: u32,
    pub refused: u32,
}

impl Hall {
    /// What stands in the count's place of the exported call.
    pub fn number(self) -> u32 {
        self.clear + 256 * self.faulted + 65_536 * self.refused
    }
}

/// The list of a decoded fit: what was listed before there was a rule 26, and
/// behind it the pairs whose type is missing.
pub fn list(catalogue: &Catalogue, fit: &Fit, league: &League) -> Listed {
    let mut listed = list_before(catalogue, fit, league);
    if fit.is_hull(catalogue) {
        listed.entries.extend(unknown::entries(catalogue, fit));
    }
    listed
}

/// The list without rule 26: the original's, and behind it what the league has
/// to say.
pub fn list_before(catalogue: &Catalogue, fit: &Fit, league: &League) -> Listed {
    let mut listed = original_list(catalogue, fit);
    if fit.is_hull(catalogue) {
        listed.entries.extend(league.entries(catalogue, fit));
    }
    listed
}

/// The original's list.
pub fn original_list(catalogue: &Catalogue, fit: &Fit) -> Listed {
    let mut found = match fit.hangar(catalogue) {
        Some(max_active) => drones::validate(catalogue, fit, max_active),
        None => fit.run(catalogue).validate(),
    };
    found.retain(|violation| !matches!(violation.rule, Rule::Skill { .. }));
    let either_zero = found
        .iter()
        .position(is_cargo)
        .filter(|_| fit.cargo_terms(catalogue).all(is_negative_zero));
    let mut entries: Vec<Entry> = found.iter().map(encode::entry).collect();
    if let Some(position) = either_zero {
        encode::set_used(&mut entries[position], 0.0);
    }
    Listed {
        entries,
        either_zero,
    }
}

/// What one result lacks, or refusal 8, 9 or 13.
pub fn skill(
    catalogue: &Catalogue,
    fit: &Fit,
    result: u32,
    limits: Limits,
) -> Result<Listed, Refusal> {
    page::pairs(fit, limits)?;
    let outcome = fit.result(result).ok_or(8)?;
    page::skills(fit.wanted_skills(catalogue, outcome).len(), limits)?;
    let target = match result {
        0 | 1 => Target::Ship,
        _ => Target::Item {
            index: result as usize - 2,
        },
    };
    let found = match catalogue.is_fine() {
        true => walk::report(catalogue, fit, outcome, target),
        false => fit.run(catalogue).report(outcome, target),
    };
    Ok(Listed {
        entries: found.iter().map(encode::entry).collect(),
        either_zero: None,
    })
}

/// How many distinct skills a result wants, at whatever level.
pub fn wanted(catalogue: &Catalogue, fit: &Fit, result: u32) -> Option<usize> {
    let outcome = fit.result(result)?;
    Some(fit.wanted_skills(catalogue, outcome).len())
}

/// The fits of a hall input: refusal 4 where its frame is broken.
pub fn hall_fits(input: &[u8]) -> Result<Vec<&[u8]>, Refusal> {
    let mut rest = words::Reader::new(input);
    let count = rest.u32().ok_or(4)?;
    if count > 64 {
        return Err(4);
    }
    let mut lengths = Vec::new();
    for _ in 0..count {
        lengths.push(rest.u32().ok_or(4)? as usize);
    }
    let mut fits = Vec::new();
    for length in lengths {
        fits.push(rest.take(length).ok_or(4)?);
    }
    if rest.is_empty() { Ok(fits) } else { Err(4) }
}

/// What becomes of a fit in a hall.
#[derive(Clone, Copy, Debug, PartialEq, Eq, PartialOrd, Ord)]
pub enum Fate {
    Clear,
    /// Its list has entries. Of which it has more besides, items or results.
    Faulted(Option<More>),
    /// Its list is empty, and it has more items than results or fewer.
    Unread {
        items: u32,
        results: u32,
    },
    Refused(Refusal),
}

/// Of which of the two a fit has more.
#[derive(Clone, Copy, Debug, PartialEq, Eq, PartialOrd, Ord)]
pub enum More {
    Items,
    Results,
}

impl More {
    pub fn of(items: u32, results: u32) -> Option<More> {
        match items.cmp(&results) {
            Ordering::Less => Some(More::Results),
            Ordering::Equal => None,
            Ordering::Greater => Some(More::Items),
        }
    }
}

/// What becomes of each fit of a hall input.
pub fn fates(catalogue: &Catalogue, input: &[u8]) -> Result<Vec<Fate>, Refusal> {
    let fate = |image: &[u8]| match Fit::decode(image) {
        Ok(fit) => fate(catalogue, &fit),
        Err(refusal) => Fate::Refused(refusal),
    };
    Ok(hall_fits(input)?.into_iter().map(fate).collect())
}

/// What becomes of a decoded fit. Its items and the results of items are
/// counted here: the original looks at pairs alone.
fn fate(catalogue: &Catalogue, fit: &Fit) -> Fate {
    let items = fit.fit.items.len() as u32;
    let results = fit.calculation.items.len() as u32;
    let listed = list(catalogue, fit, &League::default());
    match listed.entries.is_empty() {
        false => Fate::Faulted(More::of(items, results)),
        true if items != results => Fate::Unread { items, results },
        true => Fate::Clear,
    }
}

/// The hall numbers over a decoded catalogue.
pub fn hall(catalogue: &Catalogue, input: &[u8]) -> Result<Hall, Refusal> {
    Ok(numbers(&fates(catalogue, input)?))
}

/// How many fits are clear, faulted and refused.
pub fn numbers(fates: &[Fate]) -> Hall {
    let mut numbers = Hall::default();
    for fate in fates {
        match fate {
            Fate::Clear => numbers.clear += 1,
            Fate::Faulted(_) | Fate::Unread { .. } => numbers.faulted += 1,
            Fate::Refused(_) => numbers.refused += 1,
        }
    }
    numbers
}

fn is_cargo(violation: &Violation) -> bool {
    matches!(
        violation.rule,
        Rule::Resource {
            resource: original::Resource::CargoBay,
            ..
        }
    )
}

fn is_negative_zero(term: f64) -> bool {
    term == 0.0 && term.is_sign_negative()
}

impl Fit {
    fn run<'a>(&'a self, catalogue: &'a Catalogue) -> Run<'a, Catalogue> {
        Run {
            info: catalogue,
            fit: &self.fit,
            calculation: &self.calculation,
        }
    }

    /// Whether the ship is one, or a structure or a container.
    pub fn is_hull(&self, catalogue: &Catalogue) -> bool {
        self.run(catalogue).is_hull()
    }

    /// The skills that a result wants, each with its level.
    pub fn wanted_skills(
        &self,
        catalogue: &Catalogue,
        outcome: &original::ItemResult,
    ) -> Vec<(i32, u8)> {
        match catalogue.is_fine() {
            true => walk::wanted_skills(catalogue, outcome),
            false => self.run(catalogue).wanted_skills(outcome),
        }
    }

    /// The pairs: the first min(F, R) items with their results.
    pub fn pairs(&self) -> impl Iterator<Item = (&original::FitItem, &original::ItemResult)> {
        self.fit.items.iter().zip(&self.calculation.items)
    }

    fn cargo_terms<'a>(&'a self, catalogue: &'a Catalogue) -> impl Iterator<Item = f64> + 'a {
        self.pairs()
            .filter(|(item, _)| item.slot == original::Slot::Cargo)
            .map(|(item, _)| {
                let volume = catalogue.volume(item.type_id).unwrap_or(0.0);
                f64::from(volume) * f64::from(item.quantity)
            })
    }
}
