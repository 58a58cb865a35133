//! Document 02's P13: which pairs to take off a fit, found within a budget of tries.
//! "Tries first put back each pair in turn, from the first, keeping it back where the set
//! stays good; then, with up to 16 pairs, they take every set by ascending number, pair i
//! counting 2 to the power i. The answer is the smallest good set checked, the earliest
//! among equals, starting from all pairs, which needs no try." Whether a set is good is
//! the original's to say, of a fit that is rebuilt from the pairs that stay; with 7 to 16
//! pairs, where there are too many sets for that, those by number are judged by counting
//! here what stays.

use original::{FitItem, ItemResult, Slot, State};

use super::{Catalogue, Fit, league, officers_list};
use crate::checker::Entry;
use crate::names::{GROUP_LIMITS, MAX_TYPE_FITTED, RACKS, SUBSYSTEM_SLOT};

/// With up to so many pairs the original judges every set.
pub const FEW: usize = 6;

/// With up to so many pairs sets are taken by number.
pub const SETS: usize = 16;

/// How many racks there are.
const RACK_COUNT: usize = 6;

/// A set of pairs that are taken off: a flag for each pair.
pub type Set = Vec<bool>;

/// What a budget of tries comes to.
#[derive(Clone, Debug, PartialEq)]
pub struct Left {
    pub tries: u32,
    /// How far off it is at most.
    pub distance: u32,
    pub off: Set,
}

/// What every budget comes to.
#[derive(Clone, Debug, PartialEq)]
pub struct LeaveOut {
    pub pairs: usize,
    /// By how much the racks with an id are over, together.
    pub surplus: u32,
    /// The best sets in their order, each behind the number of tries it takes.
    pub found: Vec<(u32, Set)>,
}

/// Says which sets are good.
pub struct Judge<'a> {
    catalogue: &'a Catalogue,
    fit: &'a Fit,
    counted: Counted,
    pub pairs: usize,
}

/// How many tries there are for so many pairs.
pub fn tries(pairs: usize) -> u32 {
    let sets = if pairs <= SETS { 1 << pairs } else { 0 };
    pairs as u32 + sets
}

/// The pairs that a set of a number takes off.
pub fn set_of(number: u32, pairs: usize) -> Set {
    (0..pairs).map(|pair| number >> pair & 1 == 1).collect()
}

pub fn size(off: &[bool]) -> usize {
    off.iter().filter(|is_off| **is_off).count()
}

/// Whether an entry is one that has to go: SlotTaken, SubsystemTaken, MaxGroup, MaxType,
/// or the Slots of a rack.
pub fn is_named(entry: &Entry) -> bool {
    match entry[1] {
        8 | 10 | 17 | 18 => true,
        2 => usize::from(entry[2]) < RACK_COUNT,
        _ => false,
    }
}

impl LeaveOut {
    /// Makes every try as document 02 says.
    pub fn of(judge: &Judge) -> LeaveOut {
        let pairs = judge.pairs;
        let mut best = vec![true; pairs];
        let mut found = vec![(0, best.clone())];
        for number in 0..tries(pairs) {
            let is_put_back = (number as usize) < pairs;
            let off = match is_put_back {
                true => {
                    let mut off = best.clone();
                    off[number as usize] = false;
                    off
                }
                false => set_of(number - pairs as u32, pairs),
            };
            let is_asked = is_put_back || pairs <= FEW;
            let is_good = |off: &[bool]| match is_asked {
                true => judge.is_good(off),
                false => judge.is_good_by_count(off),
            };
            if size(&off) < size(&best) && is_good(&off) {
                best = off;
                found.push((number + 1, best.clone()));
            }
        }
        LeaveOut {
            pairs,
            surplus: judge.surplus(),
            found,
        }
    }

    /// The answer to a budget.
    pub fn within(&self, budget: u32) -> Left {
        let tries = tries(self.pairs).min(budget);
        let mut found = self.found.iter();
        let best = found.rfind(|(needed, _)| *needed <= tries);
        let (_, off) = best.expect("no try is needed for all pairs");
        Left {
            tries,
            distance: size(off) as u32 - self.surplus,
            off: off.clone(),
        }
    }
}

impl Left {
    /// The numbers of the pairs.
    pub fn numbers(&self) -> Vec<u32> {
        let numbers = (0..).zip(&self.off).filter(|(_, is_off)| **is_off);
        numbers.map(|(number, _)| number).collect()
    }

    /// What the call writes.
    pub fn image(&self) -> Vec<u8> {
        let head = [self.tries, self.distance];
        let numbers = head.into_iter().chain(self.numbers());
        numbers.flat_map(u32::to_le_bytes).collect()
    }
}

impl<'a> Judge<'a> {
    pub fn new(catalogue: &'a Catalogue, fit: &'a Fit) -> Judge<'a> {
        Judge {
            catalogue,
            fit,
            counted: Counted::of(catalogue, fit),
            pairs: fit.pairs().count(),
        }
    }

    /// What is listed of a fit without such pairs.
    pub fn listed(&self, off: &[bool]) -> Vec<Entry> {
        let kept: Vec<bool> = off.iter().map(|is_off| !is_off).collect();
        officers_list(self.catalogue, &self.fit.part(&kept)).entries
    }

    /// Whether the fit without such pairs lists none of the named rules, as the original
    /// has it.
    pub fn is_good(&self, off: &[bool]) -> bool {
        !self.listed(off).iter().any(is_named)
    }

    /// The same by counting.
    pub fn is_good_by_count(&self, off: &[bool]) -> bool {
        self.counted.is_good(off)
    }

    /// By how much the racks are over together, as the original's entries say.
    fn surplus(&self) -> u32 {
        surplus(&self.listed(&vec![false; self.pairs]))
    }
}

/// By how much the racks are over together, as a list says: the sum of what is used above
/// what is available.
pub fn surplus(entries: &[Entry]) -> u32 {
    let racks = entries.iter().filter(|e| e[1] == 2 && is_named(e));
    let word = |bytes: &[u8]| u32::from_le_bytes(bytes.try_into().expect("four bytes"));
    racks.map(|e| word(&e[8..12]) - word(&e[12..16])).sum()
}

/// What the named rules look at.
struct Counted {
    is_hull: bool,
    /// How many pairs a rack takes, where its name has an id.
    racks: [Option<u32>; RACK_COUNT],
    pairs: Vec<Pair>,
}

struct Pair {
    slot: Slot,
    rack: Option<usize>,
    type_id: i32,
    group: i32,
    state: State,
    part: Option<f64>,
    /// What it allows of its group, fitted, online and active, and of its type.
    limits: [Option<u32>; 4],
}

impl Counted {
    fn of(catalogue: &Catalogue, fit: &Fit) -> Counted {
        let value = |result: &ItemResult, name: usize| {
            let id = catalogue.name(name)?;
            Some(result.attributes.get(&id)?.value)
        };
        let ship = &fit.calculation.ship;
        let pair = |(item, result): (&FitItem, &ItemResult)| Pair {
            slot: item.slot,
            rack: rack(item.slot),
            type_id: item.type_id,
            group: league::group(catalogue, item),
            state: result.state,
            part: value(result, SUBSYSTEM_SLOT),
            limits: [0, 1, 2, 3].map(|limit| {
                let name = [GROUP_LIMITS + limit, MAX_TYPE_FITTED][limit / 3];
                value(result, name).map(|value| value as u32)
            }),
        };
        Counted {
            is_hull: fit.is_hull(catalogue),
            racks: std::array::from_fn(|rack| {
                catalogue.name(RACKS + rack)?;
                Some(value(ship, RACKS + rack).unwrap_or(0.0) as u32)
            }),
            pairs: fit.pairs().map(pair).collect(),
        }
    }

    fn is_good(&self, off: &[bool]) -> bool {
        if !self.is_hull {
            return true;
        }
        let stays = |number: &usize| !off[*number];
        let left: Vec<usize> = (0..off.len()).filter(stays).collect();
        let count = |counts: &dyn Fn(&Pair) -> bool| {
            let counted = left.iter().filter(|number| counts(&self.pairs[**number]));
            counted.count() as u32
        };
        let is_over = |(rack, amount): (usize, &Option<u32>)| {
            amount.is_some_and(|amount| count(&|pair| pair.rack == Some(rack)) > amount)
        };
        if self.racks.iter().enumerate().any(is_over) {
            return false;
        }
        !left.iter().any(|number| {
            let own = &self.pairs[*number];
            let is_bay = matches!(own.slot, Slot::DroneBay | Slot::FighterBay | Slot::Cargo);
            let is_taken = !is_bay && count(&|pair| pair.slot == own.slot) > 1;
            let is_part = |pair: &Pair| pair.rack == Some(4) && own.rack == Some(4);
            let has_part = |pair: &Pair| own.part.is_some() && pair.part == own.part;
            // A part of NaN is not even its own.
            let is_one = u32::from(is_part(own) && has_part(own));
            let parts = count(&|pair| is_part(pair) && has_part(pair));
            is_taken || parts > is_one || self.is_limited(own, &count)
        })
    }

    /// Whether a pair's group or type is over what it allows.
    fn is_limited(&self, own: &Pair, count: &dyn Fn(&dyn Fn(&Pair) -> bool) -> u32) -> bool {
        let used = |limit: usize| {
            count(&|pair| {
                let counts = match limit {
                    0 => pair.group == own.group,
                    1 => pair.group == own.group && pair.state >= State::Online,
                    2 => pair.group == own.group && pair.state >= State::Active,
                    _ => pair.type_id == own.type_id,
                };
                pair.rack.is_some() && counts
            })
        };
        let mut limits = own.limits.iter().enumerate();
        let is_over = |(limit, allowed): (usize, &Option<u32>)| {
            allowed.is_some_and(|allowed| used(limit) > allowed)
        };
        own.rack.is_some() && limits.any(is_over)
    }
}

/// The rack of a slot, if it is in one.
fn rack(slot: Slot) -> Option<usize> {
    match slot {
        Slot::High(_) => Some(0),
        Slot::Medium(_) => Some(1),
        Slot::Low(_) => Some(2),
        Slot::Rig(_) => Some(3),
        Slot::Subsystem(_) => Some(4),
        Slot::Service(_) => Some(5),
        Slot::FighterTube(_) | Slot::FighterBay | Slot::Implant(_) => None,
        Slot::Booster(_) | Slot::DroneBay | Slot::Cargo => None,
    }
}
