//! What a run has to meet of pages: each limit beside as many pairs and skills,
//! one more and one less; both causes of 13; and what no limit is asked of.

use original::Info;

use super::point::{Call, Point};
use super::{Tally, size};
use crate::case::{Case, Cause, Lists};
use crate::page::Limits;
use crate::reference::{self, Catalogue, Fit, Listed};

/// What a list or skill call meets by its limits.
#[derive(Clone, Copy, Debug, PartialEq, Eq, PartialOrd, Ord)]
pub enum PageEdge {
    /// A limit of pairs, and how many the fit has.
    Pairs(Call, u32, u32),
    /// A limit of skills, and how many the result wants.
    Skills(u32, u32),
    /// 13 is given, and why.
    Refused(Call, Cause),
    /// 13 on a ship that is no hull.
    NoHull(Call),
    /// 13 for skills that are all trained, or wanted at level 0.
    NothingListed,
    /// 256 items and no result under a limit of 0, answered.
    NoResults(Call),
    /// 256 results and no item under a limit of 0, answered.
    NoItems(Call),
    /// A list of a fit whose ship wants more skills than the limit.
    ListWantsMore,
    /// A list, or skills, of a fit with more trained skills than the limit.
    TrainedMore(Call),
    /// An answer under a smaller page, with entries.
    Answered(Call),
    /// The same with entries of a league.
    League,
    /// A list on a smaller page with a pair of a missing type.
    Unknown,
    /// 13 for pairs that are over the limit with those of missing types alone.
    UnknownOver(Call),
    /// Two fits compared, and which call has the smaller pages.
    Grown(Call, Smaller),
}

/// Which of two calls is made under a smaller page.
#[derive(Clone, Copy, Debug, PartialEq, Eq, PartialOrd, Ord)]
pub enum Smaller {
    Old,
    New,
    /// Both, under unlike limits.
    Both,
}

/// The limits that are asked for beside what a fit has.
const LIMITS: [u32; 12] = [0, 1, 63, 64, 65, 255, 256, 257, 511, 512, 513, u32::MAX];

/// Every limit with every count of pairs beside it: no fit has more than 256.
pub fn pairs_beside() -> Vec<(u32, u32)> {
    beside(Limits::MAIN.pairs, 256)
}

/// Every limit with every count of wanted skills beside it. From 513 on they
/// are refused under every limit.
pub fn skills_beside() -> Vec<(u32, u32)> {
    beside(Limits::MAIN.skills, 514)
}

/// Each limit with as many, one less and one more; above the main limit with
/// as many as that and one more, too.
fn beside(main: u32, most: u32) -> Vec<(u32, u32)> {
    let mut found = Vec::new();
    for limit in LIMITS {
        let mut counts = vec![limit.saturating_sub(1), limit, limit.saturating_add(1)];
        if limit > main {
            counts.extend([main, main + 1]);
        }
        counts.retain(|count| *count <= most);
        counts.sort();
        counts.dedup();
        found.extend(counts.into_iter().map(|count| (limit, count)));
    }
    found
}

impl PageEdge {
    pub fn all() -> Vec<PageEdge> {
        use PageEdge::*;
        let mut edges = vec![NothingListed, ListWantsMore, League, Unknown];
        for call in [Call::List, Call::Skill] {
            let pairs = pairs_beside().into_iter();
            edges.extend(pairs.map(|(limit, count)| Pairs(call, limit, count)));
            edges.extend([Refused(call, Cause::Pairs), NoHull(call)]);
            edges.extend([NoResults(call), NoItems(call), TrainedMore(call)]);
            edges.extend([Answered(call), UnknownOver(call)]);
            let smaller = [Smaller::Old, Smaller::New, Smaller::Both];
            edges.extend(smaller.map(|smaller| Grown(call, smaller)));
        }
        edges.push(Refused(Call::Skill, Cause::Skills));
        let skills = skills_beside().into_iter();
        edges.extend(skills.map(|(limit, count)| Skills(limit, count)));
        edges
    }

    pub fn words(self) -> String {
        use PageEdge::*;
        match self {
            Pairs(call, limit, count) => format!("{call}, {count} pairs under a limit of {limit}"),
            Skills(limit, count) => format!("{count} wanted skills under a limit of {limit}"),
            Refused(call, cause) => format!("refusal {cause} by the {call}"),
            NoHull(call) => format!("refusal 13 for pairs by the {call} on no hull"),
            NothingListed => "refusal 13 for skills of which none is listed".to_string(),
            NoResults(call) => format!("{call}, 256 items and no result under a limit of 0"),
            NoItems(call) => format!("{call}, 256 results and no item under a limit of 0"),
            ListWantsMore => "a list whose ship wants more skills than the limit".to_string(),
            TrainedMore(call) => format!("{call}, more trained skills than the limit"),
            Answered(call) => format!("{call} with entries on a smaller page"),
            League => "rules 24 and 25 on a smaller page".to_string(),
            Unknown => "rule 26 on a smaller page".to_string(),
            UnknownOver(call) => format!("{call}, over the limit by pairs of missing types"),
            Grown(call, smaller) => {
                let which = match smaller {
                    Smaller::Old => "the old fit on a smaller page",
                    Smaller::New => "the new fit on a smaller page",
                    Smaller::Both => "both fits on smaller pages, unlike ones",
                };
                format!("two fits compared, {call}, {which}")
            }
        }
    }
}

/// A list or skill call whose images are not refused, with the word that it
/// must give.
pub fn called(tally: &mut Tally, catalogue: &Catalogue, fit: &Fit, call: Lists, word: u64) {
    let refusal = (word >> 32) as u8;
    let Limits { pairs, skills } = call.limits;
    let (items, results) = (fit.fit.items.len(), fit.calculation.items.len());
    let count = items.min(results) as u32;
    let of = Call::of(call);
    let mut met = vec![PageEdge::Pairs(of, pairs, count)];
    if count > pairs {
        met.push(PageEdge::Refused(of, Cause::Pairs));
        if !fit.is_hull(catalogue) {
            met.push(PageEdge::NoHull(of));
        }
    } else {
        met.extend(passed(catalogue, fit, call, refusal));
    }
    if refusal == 0 && pairs == 0 {
        match (items, results) {
            (256, 0) => met.push(PageEdge::NoResults(of)),
            (0, 256) => met.push(PageEdge::NoItems(of)),
            _ => {}
        }
    }
    if refusal == 0 && fit.fit.character.skills.len() > skills as usize {
        met.push(PageEdge::TrainedMore(of));
    }
    if refusal == 0 && word > 0 && call.limits.are_smaller() {
        met.push(PageEdge::Answered(of));
    }
    met.extend(unknown(catalogue, fit, call, refusal));
    for edge in met {
        tally.meet(Point::Page(edge));
    }
}

/// What pairs of missing types are to the limits of a call.
fn unknown(catalogue: &Catalogue, fit: &Fit, call: Lists, refusal: u8) -> Option<PageEdge> {
    let is_missing = |id: i32| catalogue.get_type(id).is_none();
    let known = fit.pairs().filter(|(item, _)| !is_missing(item.type_id));
    let (all, known) = (fit.pairs().count(), known.count());
    let limit = call.limits.pairs as usize;
    let is_listed = refusal == 0 && call.result.is_none() && call.limits.are_smaller();
    match () {
        () if all > limit && known <= limit => Some(PageEdge::UnknownOver(Call::of(call))),
        () if is_listed && known < all && fit.is_hull(catalogue) => Some(PageEdge::Unknown),
        () => None,
    }
}

/// A call whose pairs are not over the limit.
fn passed(catalogue: &Catalogue, fit: &Fit, call: Lists, refusal: u8) -> Vec<PageEdge> {
    let limit = call.limits.skills;
    // No walk is long where the bases are few.
    let is_main = limit == Limits::MAIN.skills;
    if is_main && catalogue.rows(size::Block::Bases) < 500 {
        return Vec::new();
    }
    let wanted = reference::wanted(catalogue, fit, call.result.unwrap_or(0));
    let wanted = wanted.unwrap_or(0) as u32;
    let Some(result) = call.result else {
        let more = refusal == 0 && wanted > limit;
        return more
            .then_some(PageEdge::ListWantsMore)
            .into_iter()
            .collect();
    };
    let mut met = vec![PageEdge::Skills(limit, wanted)];
    if refusal == 13 {
        met.push(PageEdge::Refused(Call::Skill, Cause::Skills));
        let listed = reference::skill(catalogue, fit, result, Limits::MAIN);
        if listed.is_ok_and(|listed| listed.entries.is_empty()) {
            met.push(PageEdge::NothingListed);
        }
    }
    met
}

/// The list of an answered call with a profile, on a hull.
pub fn league(tally: &mut Tally, limits: Limits, listed: &Listed) {
    let has = |rule: u8| listed.entries.iter().any(|entry| entry[1] == rule);
    if limits.are_smaller() && has(24) && has(25) {
        tally.meet(Point::Page(PageEdge::League));
    }
}

/// Two lists held against each other.
pub fn grown(tally: &mut Tally, case: &Case, call: Call) {
    let (old, new) = (case.limits, case.growth.limits);
    let smaller = match (old.are_smaller(), new.are_smaller()) {
        (true, false) => Smaller::Old,
        (false, true) => Smaller::New,
        (true, true) if old != new => Smaller::Both,
        _ => return,
    };
    tally.meet(Point::Page(PageEdge::Grown(call, smaller)));
}

#[cfg(test)]
mod tests {
    use super::*;

    #[test]
    fn counts_beside_a_limit() {
        let of = |all: Vec<(u32, u32)>, limit: u32| {
            let own = all.into_iter().filter(|row| row.0 == limit);
            own.map(|row| row.1).collect::<Vec<u32>>()
        };
        assert_eq!(of(pairs_beside(), 0), [0, 1]);
        assert_eq!(of(pairs_beside(), 64), [63, 64, 65]);
        assert_eq!(of(pairs_beside(), 256), [255, 256]);
        assert_eq!(of(pairs_beside(), 257), [256]);
        assert_eq!(of(pairs_beside(), u32::MAX), [256]);
        assert_eq!(of(skills_beside(), 512), [511, 512, 513]);
        assert_eq!(of(skills_beside(), 513), [512, 513, 514]);
        assert_eq!(of(skills_beside(), u32::MAX), [512, 513]);
    }
}
