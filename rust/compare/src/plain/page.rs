//! Document 02's P8: refusal 13. What a call gives is worked out as on the main
//! page, and 13 is put into its place in the order of the refusals.

use super::bytes::u32_at;
use super::catalogue::Catalogue;
use super::context::{self, Context};
use super::fault::Fault;
use super::fit::Fit;
use super::{Flaw, Number, skill};
use crate::checker::{ENTRY, Entry};
use crate::page::Limits;

const MAIN_PAIRS: usize = 256;
const MAIN_SKILLS: usize = 512;

/// Which call it is.
#[derive(Clone, Copy, PartialEq)]
pub enum Asked {
    List,
    Skill,
}

/// The limits of one call.
#[derive(Clone, Copy)]
pub struct Page {
    pairs: usize,
    skills: usize,
    asked: Asked,
    flaw: Flaw,
}

/// How many skills a walk met.
pub struct Met {
    pub wanted: usize,
    /// Those of a level above 0.
    pub at_levels: usize,
    pub direct: usize,
    pub listed: usize,
}

impl Page {
    pub fn new(limits: Limits, asked: Asked, flaw: Flaw) -> Page {
        let (mut pairs, mut skills) = (limits.pairs, limits.skills);
        if flaw.has(Fault::LimitsSwapped) {
            (pairs, skills) = (skills, pairs);
        }
        let narrow = |number, limit: u32| flaw.number(number, limit as usize);
        Page {
            pairs: pair_limit(narrow(Number::PairLimit, pairs), flaw),
            skills: skill_limit(narrow(Number::SkillLimit, skills), flaw),
            asked,
            flaw,
        }
    }

    /// What a call gives, whose images and buffer these are, where it would
    /// give this without a limit of pairs.
    pub fn judged(
        self,
        listed: Result<Vec<Entry>, u8>,
        images: (&[u8], &[u8]),
        room: usize,
    ) -> Result<Vec<Entry>, u8> {
        let flaw = self.flaw;
        if !self.is_over(images) {
            return listed;
        }
        if let Ok(mut entries) = listed.clone()
            && flaw.has(Fault::PairsCut)
        {
            entries.retain(|entry| entry[0] == 0 || (u32_at(entry, 4) as usize) < self.pairs);
            return Ok(entries);
        }
        let else_given = match &listed {
            Ok(entries) if room < ENTRY * entries.len() => 10,
            Ok(_) => 0,
            Err(number) => *number,
        };
        match self.comes_behind(else_given) {
            true => Err(else_given),
            false if flaw.has(Fault::PairsAs4) => Err(4),
            false => Err(13),
        }
    }

    /// Whether another refusal is given before 13 for pairs: 1 to 6 are.
    fn comes_behind(self, other: u8) -> bool {
        use Fault::*;
        let early: &[Fault] = match other {
            1..=3 => &[PairsFirst],
            4 => &[PairsFirst, PairsBeforeFit],
            5 => &[PairsFirst, PairsBeforeFit, PairsBeforeIds],
            6 => &[PairsFirst, PairsBeforeFit, PairsBeforeIds, PairsBeforeRange],
            _ => &[],
        };
        let late: &[Fault] = match other {
            11 => &[PairsAfterLength, PairsAfterProfile, PairsAfterRoom],
            12 => &[PairsAfterProfile, PairsAfterRoom],
            8 => &[PairsAfterResult, PairsAfterWalk, PairsAfterRoom],
            9 => &[PairsAfterWalk, PairsAfterRoom],
            10 => &[PairsAfterRoom],
            _ => &[],
        };
        let is_one = |faults: &[Fault]| faults.iter().any(|fault| self.flaw.has(*fault));
        match other {
            1..=6 => !is_one(early),
            _ => is_one(late),
        }
    }

    /// Whether a fit has more pairs than the limit.
    fn is_over(self, (catalogue, image): (&[u8], &[u8])) -> bool {
        let flaw = self.flaw;
        let unasked = match self.asked {
            Asked::List => Fault::PairsUnaskedByList,
            Asked::Skill => Fault::PairsUnaskedBySkill,
        };
        let Some(sizes) = image.get(4..12) else {
            return false;
        };
        if flaw.has(unasked) || (flaw.has(Fault::PairsOnHulls) && !is_hull(catalogue, image, flaw))
        {
            return false;
        }
        let (items, results) = (u32_at(sizes, 0) as usize, u32_at(sizes, 4) as usize);
        let count = match () {
            () if flaw.has(Fault::PairsByItems) => items,
            () if flaw.has(Fault::PairsByResults) => results,
            () if flaw.has(Fault::PairsByLarger) => items.max(results),
            () if flaw.has(Fault::PairsWithShip) => items.min(results) + 2,
            () if flaw.has(Fault::PairsFittedAlone) => fitted(image, flaw),
            () if flaw.has(Fault::PairsKnownAlone) => known(catalogue, image, flaw),
            () => items.min(results),
        };
        match () {
            () if flaw.has(Fault::PairsAtLimit) => count > 0 && count >= self.pairs,
            () if flaw.has(Fault::PairsOneOver) => count > self.pairs + 1,
            () => count > self.pairs,
        }
    }

    /// Refusal 9 for a walk over 512 skills, refusal 13 for one over the limit.
    pub fn walked(self, fit: &Fit, result: usize, met: &Met) -> Result<(), u8> {
        let flaw = self.flaw;
        let most = match () {
            () if flaw.has(Fault::Walk511) => 511,
            () if flaw.has(Fault::Walk513) => 513,
            () if flaw.has(Fault::SkillLimitLifts) => self.skills.max(MAIN_SKILLS),
            () => MAIN_SKILLS,
        };
        let walked = match flaw.has(Fault::WalkCountsListed) {
            true => met.listed,
            false => met.wanted,
        };
        let (is_9, is_13) = (walked > most, self.passes(fit, result, met));
        match () {
            () if is_13 && flaw.has(Fault::SkillsBeforeWalk) => Err(13),
            () if is_9 && flaw.has(Fault::WalkAs13) => Err(13),
            () if is_9 => Err(9),
            () if is_13 && flaw.has(Fault::SkillsAs9) => Err(9),
            () if is_13 => Err(13),
            () => Ok(()),
        }
    }

    /// Whether a walk met more skills than the limit.
    fn passes(self, fit: &Fit, result: usize, met: &Met) -> bool {
        let flaw = self.flaw;
        let count = match () {
            () if flaw.has(Fault::SkillsWantedAtZeroFree) => met.at_levels,
            () if flaw.has(Fault::SkillsCountListed) => met.listed,
            () if flaw.has(Fault::SkillsCountDirect) => met.direct,
            () if flaw.has(Fault::SkillsCountTrained) => fit.skills(),
            () => met.wanted,
        };
        match () {
            () if flaw.has(Fault::SkillsUnasked) || flaw.has(Fault::SkillsCut) => false,
            () if flaw.has(Fault::SkillsOfItemsAlone) && result < 2 => false,
            () if flaw.has(Fault::SkillsAtLimit) => count > 0 && count >= self.skills,
            () if flaw.has(Fault::SkillsOneOver) => count > self.skills + 1,
            () => count > self.skills,
        }
    }

    /// The wrong turns that ask more than one result for its skills.
    pub fn asks_all(self, context: &Context) -> Result<(), u8> {
        let flaw = self.flaw;
        let is_asked = match self.asked {
            Asked::List => flaw.has(Fault::SkillsAskedOfList),
            Asked::Skill => flaw.has(Fault::SkillsOfAnyResult),
        };
        let trained = self.asked == Asked::List && flaw.has(Fault::TrainedAskedOfList);
        if trained && context.fit.skills() > self.skills {
            return Err(13);
        }
        let wanted = |result| skill::wanted(context, result);
        match is_asked && (0..context.fit.results() + 2).any(|result| wanted(result) > self.skills)
        {
            true => Err(13),
            false => Ok(()),
        }
    }

    /// How many of so many wanted skills are looked at.
    pub fn looked_at(self, wanted: usize) -> usize {
        match self.flaw.has(Fault::SkillsCut) {
            true => wanted.min(self.skills),
            false => wanted,
        }
    }

    /// The wrong turns of a page that is smaller than the main one.
    pub fn answered(self, mut entries: Vec<Entry>) -> Vec<Entry> {
        if self.is_smaller() && self.flaw.has(Fault::SmallPageDropsLast) {
            entries.pop();
        }
        if self.is_smaller() && self.flaw.has(Fault::SmallPageNoUnknown) {
            entries.retain(|entry| entry[1] != 26);
        }
        entries
    }

    /// Whether a profile is read.
    pub fn reads_profiles(self) -> bool {
        !(self.is_smaller() && self.flaw.has(Fault::SmallPageNoProfile))
    }

    fn is_smaller(self) -> bool {
        self.pairs < MAIN_PAIRS || self.skills < MAIN_SKILLS
    }
}

/// A limit of pairs: one above the main page's counts as that.
fn pair_limit(limit: usize, flaw: Flaw) -> usize {
    match limit {
        0 if flaw.has(Fault::PairLimitZeroIsNone) => MAIN_PAIRS,
        0x8000_0000.. if flaw.has(Fault::PairLimitSigned) => 0,
        257.. if flaw.has(Fault::PairLimitWraps) => (limit - 1) % 256 + 1,
        257.. if flaw.has(Fault::PairLimitAboveRefused) => 0,
        256.. if flaw.has(Fault::PairLimitStops255) => 255,
        0..256 if flaw.has(Fault::PairLimit64) => 64,
        _ => limit.min(MAIN_PAIRS),
    }
}

/// The same for skills.
fn skill_limit(limit: usize, flaw: Flaw) -> usize {
    match limit {
        0 if flaw.has(Fault::SkillLimitZeroIsNone) => MAIN_SKILLS,
        0x8000_0000.. if flaw.has(Fault::SkillLimitSigned) => 0,
        513.. if flaw.has(Fault::SkillLimitLifts) => limit,
        513.. if flaw.has(Fault::SkillLimitWraps) => (limit - 1) % 512 + 1,
        513.. if flaw.has(Fault::SkillLimitAboveRefused) => 0,
        512.. if flaw.has(Fault::SkillLimitStops511) => 511,
        256.. if flaw.has(Fault::SkillLimitStops255) => 255,
        0..512 if flaw.has(Fault::SkillLimit64) => 64,
        _ => limit.min(MAIN_SKILLS),
    }
}

fn is_hull(catalogue: &[u8], image: &[u8], flaw: Flaw) -> bool {
    match (Catalogue::open(catalogue, flaw), Fit::open(image, flaw)) {
        (Ok(catalogue), Ok(fit)) => context::is_hull(&catalogue, &fit, flaw),
        _ => true,
    }
}

/// How many pairs of an image that is not refused are fitted.
fn fitted(image: &[u8], flaw: Flaw) -> usize {
    let Ok(fit) = Fit::open(image, flaw) else {
        return 0;
    };
    let kinds = (0..fit.pairs()).map(|number| fit.item(number).kind);
    kinds.filter(|kind| *kind <= 5).count()
}

/// How many pairs of images that are not refused are of types that are there.
fn known(catalogue: &[u8], image: &[u8], flaw: Flaw) -> usize {
    let (Ok(catalogue), Ok(fit)) = (Catalogue::open(catalogue, flaw), Fit::open(image, flaw))
    else {
        return 0;
    };
    let ids = (0..fit.pairs()).map(|number| fit.item(number).type_id);
    ids.filter(|id| catalogue.type_of(*id).is_some()).count()
}
