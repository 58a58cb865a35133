//! What a run has to meet of leaving out: how many pairs there are, budgets beside the
//! tries, each named rule, sets that only some tries find, and racks that count for the
//! distance.

use original::Slot;

use super::point::Point;
use super::{Tally, held};
use crate::checker::Entry;
use crate::names::RACKS;
use crate::reference::leave_out::{FEW, LeaveOut, SETS, is_named, set_of, size, tries};
use crate::reference::{self, Catalogue, Fit, Judge};
use crate::words::{LIMITS, RACKS as RACK_NAMES, RULES};

/// Leaving out where the images are not refused.
pub struct Leaving<'a> {
    pub catalogue: &'a Catalogue,
    pub fit: &'a Fit,
    /// An officer's list.
    pub listed: &'a [Entry],
    pub all: &'a LeaveOut,
    pub budget: u32,
    /// 0 where it is answered.
    pub refusal: u8,
}

#[derive(Clone, Copy, Debug, PartialEq, Eq, PartialOrd, Ord)]
pub enum LeaveEdge {
    /// So many pairs, with all tries that there are.
    Pairs(u16),
    Budget(Few, Beside),
    /// So many pairs, and so many tries are allowed.
    Tries(u16, u32),
    /// A named rule and sub, and no other named entry.
    Alone(u8, u8),
    /// A ship that is no hull, with pairs and without.
    NoHull(bool),
    /// Nothing has to go, and all has to.
    Nothing,
    All,
    /// A set by number is smaller than what is left of putting back.
    Fewer,
    /// A set by number is as small as what is left of putting back.
    AsSmall,
    /// Two sets by number are the smallest.
    Tied,
    /// The budget ends one try before the best set, which is one by number where there are
    /// such, and with the try that finds it.
    Cut(Few),
    Found(Few),
    /// The number of the best set is over this.
    Number(u32),
    /// The best is at most 0 off, and more than that.
    Off(bool),
    /// The surplus is of this rack; of two; of one without an id nothing.
    Over(u8),
    OverTwo,
    Nameless(u8),
    /// A hardpoint is over in a fit of which nothing has to go.
    Hardpoint,
    MoreItems,
    MoreResults,
    /// Cargo whose volume cannot be added.
    BadVolume,
    /// What is promised, of so many pairs; of more, with sets by number and without; and
    /// of no hull.
    Promised(u8),
    PromisedOfMore(Few),
    PromisedNoHull,
}

/// How many pairs a fit has, beside a budget.
#[derive(Clone, Copy, Debug, PartialEq, Eq, PartialOrd, Ord)]
pub enum Few {
    Few,
    Sets,
    More,
}

/// A budget beside the tries that there are.
#[derive(Clone, Copy, Debug, PartialEq, Eq, PartialOrd, Ord)]
pub enum Beside {
    None,
    One,
    /// One less than there are pairs, as many, and one more.
    Before,
    Pairs,
    Behind,
    /// One less than all tries, all, and one more.
    Less,
    All,
    Above,
}

impl Beside {
    const ALL: [Beside; 8] = [
        Beside::None,
        Beside::One,
        Beside::Before,
        Beside::Pairs,
        Beside::Behind,
        Beside::Less,
        Beside::All,
        Beside::Above,
    ];

    fn of(budget: u32, pairs: usize) -> Vec<Beside> {
        let (count, all) = (pairs as u64, u64::from(tries(pairs)));
        let budget = u64::from(budget);
        held([
            (budget == 0, Beside::None),
            (budget == 1, Beside::One),
            (budget + 1 == count, Beside::Before),
            (budget == count, Beside::Pairs),
            (budget == count + 1, Beside::Behind),
            (budget + 1 == all, Beside::Less),
            (budget == all, Beside::All),
            (budget == all + 1, Beside::Above),
        ])
    }

    fn words(self) -> &'static str {
        match self {
            Beside::None => "no try",
            Beside::One => "one try",
            Beside::Before => "one try less than pairs",
            Beside::Pairs => "as many tries as pairs",
            Beside::Behind => "one try more than pairs",
            Beside::Less => "one try less than all",
            Beside::All => "all tries",
            Beside::Above => "one try more than there are",
        }
    }
}

impl Few {
    const ALL: [Few; 3] = [Few::Few, Few::Sets, Few::More];

    fn of(pairs: usize) -> Few {
        match pairs {
            0..=FEW => Few::Few,
            0..=SETS => Few::Sets,
            _ => Few::More,
        }
    }

    fn words(self) -> &'static str {
        match self {
            Few::Few => "up to 6 pairs",
            Few::Sets => "7 to 16 pairs",
            Few::More => "17 pairs or more",
        }
    }
}

/// Numbers of pairs that are to be met.
const PAIRS: [u16; 12] = [0, 1, 2, 3, 4, 5, 6, 15, 16, 17, 40, 256];

/// Budgets that are, with so many pairs: around what one and two bytes hold, and around
/// the most tries that there can be.
const BUDGETS: [(u16, u32); 13] = [
    (16, 255),
    (16, 256),
    (16, 65_535),
    (16, 65_536),
    (16, 65_551),
    (16, 65_552),
    (16, 65_553),
    (16, u32::MAX),
    (256, 255),
    (256, 256),
    (256, 257),
    (256, 65_536),
    (256, u32::MAX),
];

/// What one byte holds, and 15 bits.
const NUMBERS: [u32; 2] = [255, 32_767];

/// The named rules with their subs.
const NAMED: [(u8, u8); 12] = [
    (8, 0),
    (10, 0),
    (17, 0),
    (17, 1),
    (17, 2),
    (18, 0),
    (2, 0),
    (2, 1),
    (2, 2),
    (2, 3),
    (2, 4),
    (2, 5),
];

impl LeaveEdge {
    pub fn all() -> Vec<LeaveEdge> {
        use LeaveEdge::*;
        let mut edges: Vec<LeaveEdge> = PAIRS.map(Pairs).to_vec();
        for few in Few::ALL {
            edges.extend(Beside::ALL.map(|beside| Budget(few, beside)));
        }
        edges.extend(BUDGETS.map(|(pairs, budget)| Tries(pairs, budget)));
        edges.extend(NAMED.map(|(rule, sub)| Alone(rule, sub)));
        edges.extend([NoHull(false), NoHull(true), Nothing, All, Fewer, AsSmall]);
        edges.extend([Tied, Off(false), Off(true), OverTwo, Hardpoint]);
        edges.extend(Few::ALL.map(Cut));
        edges.extend(Few::ALL.map(Found));
        edges.extend(NUMBERS.map(Number));
        edges.extend((0..6).map(Over));
        edges.extend((0..6).map(Nameless));
        edges.extend([MoreItems, MoreResults, BadVolume, PromisedNoHull]);
        edges.extend((0..=FEW as u8).map(Promised));
        edges.extend([Few::Sets, Few::More].map(PromisedOfMore));
        edges
    }

    pub fn words(self) -> String {
        use LeaveEdge::*;
        let what = match self {
            Pairs(count) => format!("all tries with {count} pairs"),
            Budget(few, beside) => format!("{} with {}", beside.words(), few.words()),
            Tries(pairs, budget) => format!("a budget of {budget} with {pairs} pairs"),
            Alone(rule @ 17, sub) => {
                let (rule, sub) = (RULES[usize::from(rule)], LIMITS[usize::from(sub)]);
                format!("no named entry but {rule} {sub}")
            }
            Alone(2, sub) => format!("no named entry but Slots {}", RACK_NAMES[usize::from(sub)]),
            Alone(rule, _) => format!("no named entry but {}", RULES[usize::from(rule)]),
            NoHull(false) => "no pair, and no hull".to_string(),
            NoHull(true) => "pairs on a ship that is no hull".to_string(),
            Nothing => "nothing has to go".to_string(),
            All => "every pair has to go".to_string(),
            Fewer => "a set by number is smaller than what is put back leaves".to_string(),
            AsSmall => "a set by number is as small as what is put back leaves".to_string(),
            Tied => "two sets by number are the smallest".to_string(),
            Cut(few) => format!("one try less than finds the best set, with {}", few.words()),
            Found(few) => format!("the tries that find the best set, with {}", few.words()),
            Number(number) => format!("the best set has a number over {number}"),
            Off(false) => "the best set is at most 0 off".to_string(),
            Off(true) => "the best set is said to be some off at most".to_string(),
            Over(rack) => format!("too many in {} alone", RACK_NAMES[usize::from(rack)]),
            OverTwo => "too many in two racks".to_string(),
            Nameless(rack) => format!("{} has no id, and pairs", RACK_NAMES[usize::from(rack)]),
            Hardpoint => "too many on a hardpoint, and nothing has to go".to_string(),
            MoreItems => "more items than results".to_string(),
            MoreResults => "more results than items".to_string(),
            BadVolume => "cargo whose volume cannot be added".to_string(),
            PromisedOfMore(few) => format!("what is promised, with {}", few.words()),
            Promised(count) => format!("what is promised, with {count} pairs"),
            PromisedNoHull => "what is promised, on a ship that is no hull".to_string(),
        };
        format!("leaving out: {what}")
    }
}

pub fn called(tally: &mut Tally, leaving: &Leaving) {
    let Leaving {
        fit, all, budget, ..
    } = *leaving;
    let pairs = all.pairs;
    if leaving.refusal != 0 {
        return;
    }
    let mut met = Vec::new();
    let few = Few::of(pairs);
    let beside = Beside::of(budget, pairs).into_iter();
    met.extend(beside.map(|beside| LeaveEdge::Budget(few, beside)));
    if budget >= tries(pairs) && PAIRS.contains(&(pairs as u16)) {
        met.push(LeaveEdge::Pairs(pairs as u16));
    }
    let allowed = (pairs as u16, budget);
    if BUDGETS.contains(&allowed) {
        met.push(LeaveEdge::Tries(allowed.0, allowed.1));
    }
    let items = fit.fit.items.len();
    let results = fit.calculation.items.len();
    let is_hull = fit.is_hull(leaving.catalogue);
    let last = &all.found[all.found.len() - 1];
    let is_all = budget >= tries(pairs);
    let number = last.0.checked_sub(pairs as u32 + 1);
    let is_late = last.0 > 0 && (number.is_some() || few == Few::More);
    let off = all.within(budget);
    met.extend(held([
        (!is_hull, LeaveEdge::NoHull(pairs > 0)),
        (
            is_all && pairs > 0 && size(&off.off) == 0,
            LeaveEdge::Nothing,
        ),
        (
            is_all && pairs > 0 && size(&off.off) == pairs,
            LeaveEdge::All,
        ),
        (is_all && last.0 as usize > pairs, LeaveEdge::Fewer),
        (is_late && budget == last.0 - 1, LeaveEdge::Cut(few)),
        (is_late && budget == last.0, LeaveEdge::Found(few)),
        (
            is_all && size(&off.off) > 0,
            LeaveEdge::Off(off.distance > 0),
        ),
        (items > results, LeaveEdge::MoreItems),
        (items < results, LeaveEdge::MoreResults),
        (
            reference::bad_volume(leaving.catalogue, fit),
            LeaveEdge::BadVolume,
        ),
    ]));
    if is_all && let Some(number) = number {
        let over = NUMBERS.into_iter().filter(|most| number > *most);
        met.extend(over.map(LeaveEdge::Number));
    }
    if is_hull && is_all {
        met.extend(rules(leaving, size(&off.off) == 0));
        met.extend(ties(leaving));
    }
    for edge in met {
        tally.meet(Point::Leave(edge));
    }
}

/// What the list has of named rules, and what it counts.
fn rules(leaving: &Leaving, is_nothing: bool) -> Vec<LeaveEdge> {
    let mut met = Vec::new();
    let named = leaving.listed.iter().filter(|entry| is_named(entry));
    let mut kinds: Vec<(u8, u8)> = named.map(|entry| (entry[1], entry[2])).collect();
    kinds.sort();
    kinds.dedup();
    if let [(rule, sub)] = kinds[..] {
        met.push(LeaveEdge::Alone(rule, sub));
    }
    let racks: Vec<u8> = kinds
        .iter()
        .filter(|kind| kind.0 == 2)
        .map(|kind| kind.1)
        .collect();
    match racks[..] {
        [] => {}
        [rack] => met.push(LeaveEdge::Over(rack)),
        _ => met.push(LeaveEdge::OverTwo),
    }
    let is_hardpoint = |entry: &&Entry| entry[1] == 2 && entry[2] >= 6;
    if is_nothing && leaving.listed.iter().any(|entry| is_hardpoint(&entry)) {
        met.push(LeaveEdge::Hardpoint);
    }
    for rack in 0..6u8 {
        let has_id = leaving.catalogue.name(RACKS + usize::from(rack)).is_some();
        let mut pairs = leaving.fit.pairs();
        if !has_id && pairs.any(|(item, _)| rack_of(item.slot) == Some(rack)) {
            met.push(LeaveEdge::Nameless(rack));
        }
    }
    met
}

fn rack_of(slot: Slot) -> Option<u8> {
    match slot {
        Slot::High(_) => Some(0),
        Slot::Medium(_) => Some(1),
        Slot::Low(_) => Some(2),
        Slot::Rig(_) => Some(3),
        Slot::Subsystem(_) => Some(4),
        Slot::Service(_) => Some(5),
        _ => None,
    }
}

/// Whether other sets are as small, of fits with few pairs.
fn ties(leaving: &Leaving) -> Vec<LeaveEdge> {
    let all = leaving.all;
    if all.pairs > FEW {
        return Vec::new();
    }
    let judge = Judge::new(leaving.catalogue, leaving.fit);
    let best = &all.found[all.found.len() - 1];
    let sets = (0..1 << all.pairs).map(|number| set_of(number, all.pairs));
    let as_small = sets
        .filter(|off| size(off) == size(&best.1) && *off != best.1 && judge.is_good_by_count(off));
    let has_more = as_small.count() > 0;
    held([
        (has_more && best.0 as usize <= all.pairs, LeaveEdge::AsSmall),
        (has_more && best.0 as usize > all.pairs, LeaveEdge::Tied),
    ])
}

/// What is promised was asked of a fit.
pub fn promised(tally: &mut Tally, pairs: usize, is_hull: bool) {
    tally.calls += 1;
    let met = match Few::of(pairs) {
        Few::Few => LeaveEdge::Promised(pairs as u8),
        few => LeaveEdge::PromisedOfMore(few),
    };
    tally.meet(Point::Leave(met));
    if !is_hull {
        tally.meet(Point::Leave(LeaveEdge::PromisedNoHull));
    }
}
