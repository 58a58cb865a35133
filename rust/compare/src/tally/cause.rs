//! What a run has to meet of causes: entries of every rule by how many pairs they keep,
//! where the kept pairs stand, amounts and sums, volumes that cannot be added, positions.

use original::{FitItem, ItemResult, Slot, State};

use super::point::Point;
use super::{Tally, held};
use crate::case::Case;
use crate::checker::Entry;
use crate::model::Damage;
use crate::names::{
    CAPACITY, GROUP_LIMITS, HARDPOINTS, MAX_ACTIVE_DRONES, MAX_TYPE_FITTED, RACKS, SUBSYSTEM_SLOT,
};
use crate::reference::{self, Catalogue, Fit};
use crate::words::{LIMITS, RACKS as RACK_NAMES, RESOURCES, RULES};

/// A cause whose images are not refused.
pub struct Causing<'a> {
    pub catalogue: &'a Catalogue,
    pub fit: &'a Fit,
    pub case: &'a Case,
    /// An officer's list.
    pub listed: &'a [Entry],
    pub position: u32,
    /// The entry and a flag for each pair, where it is not refused before 10.
    pub made: Option<(&'a Entry, &'a [bool])>,
    /// 0 where it is answered.
    pub refusal: u8,
}

#[derive(Clone, Copy, Debug, PartialEq, Eq, PartialOrd, Ord)]
pub enum CauseEdge {
    /// An entry of a rule and a sub, of which so many pairs are kept.
    Of(u8, u8, Kept),
    /// What is promised of so many kept pairs, or of more than ten.
    Least(u8),
    /// Of a rule, more pairs count than the entry needs.
    Spare(u8),
    /// A pair that is dropped stands so to those that are kept.
    Dropped(Place),
    /// The pair that an entry is about stands so among those that are kept, by rule.
    Target(u8, Place),
    /// It does not count itself, by limit.
    Uncounted(u8),
    /// The limit is so much, by rule.
    Limit(u8, u32),
    /// The amount that it is cast from, by rule.
    Amount(u8, Cast),
    /// So much is available of launched drones, and of cargo.
    Drones(u32),
    Cargo(u32),
    /// What is left is over 32 bits.
    DronesOver,
    /// A kept stack of 4,294,967,295.
    DronesMost(u8),
    /// The sum from the other end, or what is left when volumes are taken off it, would
    /// keep other pairs.
    Backwards,
    TakenOff,
    /// Fewer pairs would show it: drones, and cargo.
    Fewer(u8),
    /// Cargo in an answered cause: of volume -0, of none, of no quantity.
    MinusZero,
    NoVolume,
    NoQuantity,
    /// The part of a subsystem is NaN, beside a taken one.
    PartNan,
    /// Parts that are equal, and not to the bit.
    PartZeros,
    /// 15 for such a volume.
    Refused(Bad),
    /// 15 where the entry is such a one.
    BadBeside(Beside),
    BadNameless,
    BadNoQuantity,
    /// The first cargo is good.
    BadLater,
    /// Answered, with a volume that is bad at such a place.
    Answered(Spared),
    MoreItems,
    MoreResults,
    /// An item without a result in the slot of a kept one.
    Lone,
    Position(Where),
    /// Answered with 256 pairs; all kept; about the first of them, and the last.
    Pairs256,
    Kept256,
    About(u8),
    /// A list of over so many entries, its last one.
    ListOver(u16),
}

#[derive(Clone, Copy, Debug, PartialEq, Eq, PartialOrd, Ord)]
pub enum Kept {
    None,
    One,
    Two,
    More,
}

impl Kept {
    fn of(count: usize) -> Kept {
        match count {
            0 => Kept::None,
            1 => Kept::One,
            2 => Kept::Two,
            _ => Kept::More,
        }
    }

    fn words(self) -> &'static str {
        match self {
            Kept::None => "no pair is kept",
            Kept::One => "one pair is kept",
            Kept::Two => "two pairs are kept",
            Kept::More => "more pairs are kept",
        }
    }
}

#[derive(Clone, Copy, Debug, PartialEq, Eq, PartialOrd, Ord)]
pub enum Place {
    First,
    Between,
    Last,
}

impl Place {
    const ALL: [Place; 3] = [Place::First, Place::Between, Place::Last];

    fn words(self) -> &'static str {
        match self {
            Place::First => "before all that are kept",
            Place::Between => "between kept ones",
            Place::Last => "behind all that are kept",
        }
    }
}

#[derive(Clone, Copy, Debug, PartialEq, Eq, PartialOrd, Ord)]
pub enum Cast {
    NotANumber,
    Below0,
    Fraction,
}

impl Cast {
    const ALL: [Cast; 3] = [Cast::NotANumber, Cast::Below0, Cast::Fraction];

    fn words(self) -> &'static str {
        match self {
            Cast::NotANumber => "NaN",
            Cast::Below0 => "below 0",
            Cast::Fraction => "no whole number",
        }
    }
}

#[derive(Clone, Copy, Debug, PartialEq, Eq, PartialOrd, Ord)]
pub enum Bad {
    Below,
    /// By less than an f32 that is normal.
    Barely,
    Infinite,
    MinusInfinite,
    NotANumber,
}

impl Bad {
    const ALL: [Bad; 5] = [
        Bad::Below,
        Bad::Barely,
        Bad::Infinite,
        Bad::MinusInfinite,
        Bad::NotANumber,
    ];

    fn of(volume: f32) -> Option<Bad> {
        match volume {
            _ if volume.is_nan() => Some(Bad::NotANumber),
            f32::INFINITY => Some(Bad::Infinite),
            f32::NEG_INFINITY => Some(Bad::MinusInfinite),
            _ if volume < 0.0 && volume.is_subnormal() => Some(Bad::Barely),
            _ if volume < 0.0 => Some(Bad::Below),
            _ => None,
        }
    }

    fn words(self) -> &'static str {
        match self {
            Bad::Below => "a volume below 0",
            Bad::Barely => "a volume that is barely below 0",
            Bad::Infinite => "an infinite volume",
            Bad::MinusInfinite => "a volume of minus infinity",
            Bad::NotANumber => "a volume of NaN",
        }
    }
}

/// The entry of a cause that 15 refuses.
#[derive(Clone, Copy, Debug, PartialEq, Eq, PartialOrd, Ord)]
pub enum Beside {
    Hold,
    Load,
    NoHull,
    NoMode,
    NoSkill,
    Rack,
    Item,
}

impl Beside {
    const ALL: [Beside; 7] = [
        Beside::Hold,
        Beside::Load,
        Beside::NoHull,
        Beside::NoMode,
        Beside::NoSkill,
        Beside::Rack,
        Beside::Item,
    ];

    fn of(entry: &Entry) -> Beside {
        match entry[..3] {
            [1, ..] => Beside::Item,
            [_, 1, 11] => Beside::Hold,
            [_, 2, _] => Beside::Rack,
            [_, 19, _] => Beside::NoHull,
            [_, 20, _] => Beside::NoMode,
            [_, 21, _] => Beside::NoSkill,
            _ => Beside::Load,
        }
    }

    fn words(self) -> &'static str {
        match self {
            Beside::Hold => "the hold's",
            Beside::Load => "another load's",
            Beside::NoHull => "that of no hull",
            Beside::NoMode => "that of no mode",
            Beside::NoSkill => "that of a listed skill",
            Beside::Rack => "a rack's",
            Beside::Item => "about a pair",
        }
    }
}

/// Where a volume is that 15 does not ask about, or what it is.
#[derive(Clone, Copy, Debug, PartialEq, Eq, PartialOrd, Ord)]
pub enum Spared {
    DroneBay,
    Fitted,
    Lone,
    Flagless,
    Huge,
}

impl Spared {
    const ALL: [Spared; 5] = [
        Spared::DroneBay,
        Spared::Fitted,
        Spared::Lone,
        Spared::Flagless,
        Spared::Huge,
    ];

    fn words(self) -> &'static str {
        match self {
            Spared::DroneBay => "a bad volume in the drone bay",
            Spared::Fitted => "a bad volume in a rack",
            Spared::Lone => "a bad volume of cargo without a result",
            Spared::Flagless => "cargo with bad volume bits under flag 0",
            Spared::Huge => "cargo of the largest volume",
        }
    }
}

/// A position in a list.
#[derive(Clone, Copy, Debug, PartialEq, Eq, PartialOrd, Ord)]
pub enum Where {
    First,
    Last,
    /// Behind entries that a guest does not get.
    BehindSkills,
    /// Refused: directly behind the list, in an empty list, and the highest number.
    Behind,
    Empty,
    Most,
}

impl Where {
    const ALL: [Where; 6] = [
        Where::First,
        Where::Last,
        Where::BehindSkills,
        Where::Behind,
        Where::Empty,
        Where::Most,
    ];

    fn words(self) -> &'static str {
        match self {
            Where::First => "the first entry of several",
            Where::Last => "the last entry of several",
            Where::BehindSkills => "an entry behind listed skills that are none",
            Where::Behind => "the position behind the list refused",
            Where::Empty => "position 0 of an empty list refused",
            Where::Most => "position 4294967295 refused",
        }
    }
}

/// Limits that so many pairs can pass, and amounts that drones and cargo can.
const LIMITS_MET: [u32; 2] = [0, 255];
const AMOUNTS_MET: [u32; 6] = [0, 255, 256, 65_535, 65_536, u32::MAX];

/// The rules about members, whose limit is cast.
const LIMITED: [u8; 3] = [2, 17, 18];

/// The rules about a pair and others.
const ABOUT_OTHERS: [u8; 4] = [8, 10, 17, 18];

impl CauseEdge {
    pub fn all() -> Vec<CauseEdge> {
        use CauseEdge::*;
        let mut all = Vec::new();
        let few = [Kept::One, Kept::Two, Kept::More];
        let of = |rule: u8, sub: u8, kept: &[Kept]| {
            let edges = kept.iter().map(|kept| Of(rule, sub, *kept));
            edges.collect::<Vec<_>>()
        };
        for sub in 0..12 {
            all.extend(of(1, sub, &[Kept::None]));
            if sub == 5 || sub == 11 {
                all.extend(of(1, sub, &few));
            }
        }
        all.extend((0..8).flat_map(|sub| of(2, sub, &few)));
        all.extend((0..6).flat_map(|sub| of(3, sub, &[Kept::One])));
        let alone = [4, 5, 6, 7, 9, 12, 13, 14, 15, 16, 26];
        all.extend(alone.iter().flat_map(|rule| of(*rule, 0, &[Kept::One])));
        all.extend([8, 10].iter().flat_map(|rule| of(*rule, 0, &[Kept::Two])));
        all.extend((0..3).flat_map(|sub| of(17, sub, &few)));
        all.extend(of(18, 0, &few));
        let none = [19, 20, 21];
        all.extend(none.iter().flat_map(|rule| of(*rule, 0, &[Kept::None])));
        all.extend((0..=11).map(Least));
        all.extend(LIMITED.map(Spare));
        all.extend(Place::ALL.map(Dropped));
        for rule in ABOUT_OTHERS {
            all.extend([Place::First, Place::Last].map(|place| Target(rule, place)));
        }
        all.extend([17, 18].map(|rule| Target(rule, Place::Between)));
        all.extend([1, 2].map(Uncounted));
        for rule in LIMITED {
            all.extend(LIMITS_MET.map(|limit| Limit(rule, limit)));
            all.extend(Cast::ALL.map(|cast| Amount(rule, cast)));
        }
        all.extend(AMOUNTS_MET.map(Drones));
        all.extend(AMOUNTS_MET.map(Cargo));
        all.extend([1, 2].map(DronesMost));
        all.extend([DronesOver, Backwards, TakenOff, Fewer(5), Fewer(11)]);
        all.extend([MinusZero, NoVolume, NoQuantity, PartNan, PartZeros]);
        all.extend(Bad::ALL.map(Refused));
        all.extend(Beside::ALL.map(BadBeside));
        all.extend([BadNameless, BadNoQuantity, BadLater]);
        all.extend(Spared::ALL.map(Answered));
        all.extend([MoreItems, MoreResults, Lone]);
        all.extend(Where::ALL.map(Position));
        all.extend([Pairs256, Kept256, About(0), About(255)]);
        all.extend([256, 4_096].map(ListOver));
        all
    }

    pub fn words(self) -> String {
        use CauseEdge::*;
        let rule = |number: u8| RULES[usize::from(number)];
        let what = match self {
            Of(number, sub, kept) => {
                let sub = match number {
                    1 => format!(" {}", RESOURCES[usize::from(sub)]),
                    2 | 3 => format!(" {}", RACK_NAMES[usize::from(sub)]),
                    17 => format!(" {}", LIMITS[usize::from(sub)]),
                    _ => String::new(),
                };
                format!("{}{sub}, {}", rule(number), kept.words())
            }
            Least(11) => "without any of more than 10 pairs the entry is gone".to_string(),
            Least(count) => format!("without any of {count} pairs the entry is gone"),
            Spare(number) => format!("{}, more count than it needs", rule(number)),
            Dropped(place) => format!("a pair dropped {}", place.words()),
            Target(number, place) => {
                format!("{}, of a pair {}", rule(number), place.words())
            }
            Uncounted(limit) => {
                let limit = LIMITS[usize::from(limit)];
                format!("MaxGroup {limit}, of a pair that does not count")
            }
            Limit(number, limit) => format!("{}, a limit of {limit}", rule(number)),
            Amount(number, cast) => {
                format!("{}, an amount that is {}", rule(number), cast.words())
            }
            Drones(amount) => format!("launched drones over {amount}"),
            Cargo(amount) => format!("cargo over {amount}"),
            DronesOver => "kept drones over 32 bits".to_string(),
            DronesMost(count) => format!("{count} kept stacks of 4294967295 drones"),
            Backwards => "cargo whose sum from the last keeps others".to_string(),
            TakenOff => "cargo that is no sum less others".to_string(),
            Fewer(5) => "launched drones, kept are not the fewest".to_string(),
            Fewer(_) => "cargo, kept are not the fewest".to_string(),
            MinusZero => "cargo of volume -0".to_string(),
            NoVolume => "cargo without a volume".to_string(),
            NoQuantity => "cargo of quantity 0".to_string(),
            PartNan => "a subsystem of part NaN beside a taken one".to_string(),
            PartZeros => "parts 0 and -0".to_string(),
            Refused(bad) => format!("15 for {}", bad.words()),
            BadBeside(beside) => format!("15 where the entry is {}", beside.words()),
            BadNameless => "15 where capacity has no id".to_string(),
            BadNoQuantity => "15 for cargo of quantity 0".to_string(),
            BadLater => "15 where the first cargo is good".to_string(),
            Answered(spared) => format!("answered beside {}", spared.words()),
            MoreItems => "more items than results".to_string(),
            MoreResults => "more results than items".to_string(),
            Lone => "an item without a result in the slot of a kept one".to_string(),
            Position(place) => place.words().to_string(),
            Pairs256 => "of 256 pairs".to_string(),
            Kept256 => "256 pairs kept".to_string(),
            About(number) => format!("of 256 pairs, about pair {number}"),
            ListOver(count) => format!("the last entry of over {count}"),
        };
        format!("cause, {what}")
    }
}

/// Pairs whose parts were listed.
pub fn least(tally: &mut Tally, count: usize) {
    meet(tally, [CauseEdge::Least(count.min(11) as u8)]);
}

/// A cause, answered or not.
pub fn called(tally: &mut Tally, causing: &Causing) {
    let damage = [&causing.case.catalogue.damage, &causing.case.fits[0].damage];
    if damage.iter().any(|damage| **damage != Damage::default()) {
        return;
    }
    meet(tally, positions(causing));
    match (causing.refusal, causing.made) {
        (15, _) => meet(tally, refused(causing)),
        (0, Some((entry, kept))) => {
            meet(tally, shape(causing, entry, kept));
            meet(tally, places(entry, kept));
            meet(tally, amounts(causing, entry, kept));
            meet(tally, parts(causing, entry, kept));
            meet(tally, cargo(causing, entry, kept));
            meet(tally, spared(causing));
        }
        _ => {}
    }
}

fn meet(tally: &mut Tally, edges: impl IntoIterator<Item = CauseEdge>) {
    for edge in edges {
        tally.meet(Point::Cause(edge));
    }
}

fn word(entry: &Entry, number: usize) -> u32 {
    let at = 8 + 4 * number;
    u32::from_le_bytes([entry[at], entry[at + 1], entry[at + 2], entry[at + 3]])
}

/// The f64 of available in a Resource entry.
fn available(entry: &Entry) -> f64 {
    f64::from_bits(u64::from(word(entry, 2)) | u64::from(word(entry, 3)) << 32)
}

/// The pair that an entry is about.
fn target(entry: &Entry) -> Option<usize> {
    let index = u32::from_le_bytes([entry[4], entry[5], entry[6], entry[7]]);
    (entry[0] == 1).then_some(index as usize)
}

fn positions(causing: &Causing) -> Vec<CauseEdge> {
    let count = causing.listed.len();
    let position = causing.position as usize;
    let is_answered = causing.refusal == 0;
    let is_beyond = causing.refusal == 14;
    let before = &causing.listed[..position.min(count)];
    let is_last = is_answered && position + 1 == count;
    let mut edges = held([
        (is_answered && position == 0 && count > 1, Where::First),
        (is_last && count > 1, Where::Last),
        (
            is_answered && before.iter().any(|entry| entry[1] == 21),
            Where::BehindSkills,
        ),
        (is_beyond && position == count && count > 0, Where::Behind),
        (is_beyond && position == 0, Where::Empty),
        (is_beyond && causing.position == u32::MAX, Where::Most),
    ]);
    let over = [256, 4_096].into_iter();
    let over = over.filter(|most| is_last && count > usize::from(*most));
    let over = over.map(CauseEdge::ListOver).collect::<Vec<_>>();
    edges
        .drain(..)
        .map(CauseEdge::Position)
        .chain(over)
        .collect()
}

fn in_cargo(item: &FitItem) -> bool {
    item.slot == Slot::Cargo
}

/// A cause that 15 refuses.
fn refused(causing: &Causing) -> Vec<CauseEdge> {
    let Causing { catalogue, fit, .. } = causing;
    let cargo = fit.pairs().map(|(item, _)| item);
    let cargo: Vec<&FitItem> = cargo.filter(|item| in_cargo(item)).collect();
    let bad_of = |item: &FitItem| catalogue.volume(item.type_id).and_then(Bad::of);
    let bad: Vec<(Bad, u32)> = cargo
        .iter()
        .filter_map(|item| Some((bad_of(item)?, item.quantity)))
        .collect();
    let entry = &causing.listed[causing.position as usize];
    let mut edges = vec![CauseEdge::BadBeside(Beside::of(entry))];
    if let [(bad, quantity)] = bad[..] {
        edges.extend(held([
            (true, CauseEdge::Refused(bad)),
            (quantity == 0, CauseEdge::BadNoQuantity),
            (bad_of(cargo[0]).is_none(), CauseEdge::BadLater),
            (catalogue.name(CAPACITY).is_none(), CauseEdge::BadNameless),
        ]));
    }
    edges
}

/// How much is kept of how much.
fn shape(causing: &Causing, entry: &Entry, kept: &[bool]) -> Vec<CauseEdge> {
    let count = kept.iter().filter(|is_kept| **is_kept).count();
    let fit = causing.fit;
    let (items, results) = (fit.fit.items.len(), fit.calculation.items.len());
    let lone = fit.fit.items.iter().skip(results);
    let slots: Vec<Slot> = lone.map(|item| item.slot).collect();
    let kept_items = fit.fit.items.iter().zip(kept);
    let mut kept_items = kept_items.filter(|(_, is_kept)| **is_kept);
    let is_lone = kept_items.any(|(item, _)| slots.contains(&item.slot));
    let full = kept.len() == 256;
    let about = target(entry).filter(|number| full && (*number == 0 || *number == 255));
    let mut edges = held([
        (true, CauseEdge::Of(entry[1], entry[2], Kept::of(count))),
        (items > results, CauseEdge::MoreItems),
        (items < results, CauseEdge::MoreResults),
        (is_lone, CauseEdge::Lone),
        (full, CauseEdge::Pairs256),
        (count == 256, CauseEdge::Kept256),
    ]);
    edges.extend(about.map(|number| CauseEdge::About(number as u8)));
    edges
}

/// Where pairs stand that are dropped, and the one that the entry is about.
fn places(entry: &Entry, kept: &[bool]) -> Vec<CauseEdge> {
    let numbers: Vec<usize> = (0..kept.len()).filter(|number| kept[*number]).collect();
    let (Some(first), Some(last)) = (numbers.first(), numbers.last()) else {
        return Vec::new();
    };
    let mut edges = held([
        (*first > 0, CauseEdge::Dropped(Place::First)),
        (
            kept[*first..*last].contains(&false),
            CauseEdge::Dropped(Place::Between),
        ),
        (last + 1 < kept.len(), CauseEdge::Dropped(Place::Last)),
    ]);
    if let (Some(target), true) = (target(entry), numbers.len() > 1) {
        let place = match target {
            _ if target == *first => Place::First,
            _ if target == *last => Place::Last,
            _ => Place::Between,
        };
        if ABOUT_OTHERS.contains(&entry[1]) {
            edges.push(CauseEdge::Target(entry[1], place));
        }
    }
    edges
}

/// The value of a name in a result: 0 ship, 1 character, 2 the first item's.
fn value(causing: &Causing, result: usize, name: usize) -> Option<f64> {
    let id = causing.catalogue.name(name)?;
    let result = causing.fit.result(result as u32)?;
    result.attributes.get(&id).map(|value| value.value)
}

/// Limits and amounts.
fn amounts(causing: &Causing, entry: &Entry, kept: &[bool]) -> Vec<CauseEdge> {
    let (rule, sub) = (entry[1], usize::from(entry[2]));
    let result = target(entry).map_or(0, |number| number + 2);
    let (name, used, allowed) = match rule {
        2 if sub < 6 => (RACKS + sub, word(entry, 0), word(entry, 1)),
        2 => (HARDPOINTS + sub - 6, word(entry, 0), word(entry, 1)),
        17 => (GROUP_LIMITS + sub, word(entry, 1), word(entry, 2)),
        18 => (MAX_TYPE_FITTED, word(entry, 1), word(entry, 2)),
        1 => return sums(causing, entry, kept),
        _ => return Vec::new(),
    };
    let amount = value(causing, result, name).unwrap_or(0.0);
    let mut edges = held([
        (used > allowed + 1, CauseEdge::Spare(rule)),
        (
            LIMITS_MET.contains(&allowed),
            CauseEdge::Limit(rule, allowed),
        ),
        (amount.is_nan(), CauseEdge::Amount(rule, Cast::NotANumber)),
        (amount < 0.0, CauseEdge::Amount(rule, Cast::Below0)),
        (
            amount > 0.0 && amount.fract() != 0.0,
            CauseEdge::Amount(rule, Cast::Fraction),
        ),
    ]);
    let states = causing.fit.pairs().map(|(_, result)| result.state as usize);
    let is_uncounted = |state: usize| rule == 17 && state < sub;
    let own = target(entry).and_then(|number| states.into_iter().nth(number));
    if own.is_some_and(is_uncounted) {
        edges.push(CauseEdge::Uncounted(entry[2]));
    }
    edges
}

/// Drones and what is available of them and of cargo.
fn sums(causing: &Causing, entry: &Entry, kept: &[bool]) -> Vec<CauseEdge> {
    let available = available(entry);
    let amounts = AMOUNTS_MET.into_iter();
    let amount = amounts
        .filter(|amount| f64::from(*amount).to_bits() == available.to_bits())
        .collect::<Vec<_>>();
    let is_asked = causing.catalogue.name(MAX_ACTIVE_DRONES).is_some();
    match entry[2] {
        5 if is_asked => {
            let stacks = causing.fit.pairs().zip(kept);
            let stacks = stacks.filter(|(_, is_kept)| **is_kept);
            let stacks: Vec<u32> = stacks.map(|((item, _), _)| item.quantity).collect();
            let total: u64 = stacks.iter().map(|stack| u64::from(*stack)).sum();
            let most = stacks.iter().filter(|stack| **stack == u32::MAX).count();
            let mut edges: Vec<_> = amount.into_iter().map(CauseEdge::Drones).collect();
            edges.extend(held([
                (total > u64::from(u32::MAX), CauseEdge::DronesOver),
                (
                    most == 1 || most == 2,
                    CauseEdge::DronesMost(most.min(2) as u8),
                ),
                (
                    is_not_fewest(&launched(causing), limit(available), kept),
                    CauseEdge::Fewer(5),
                ),
            ]));
            edges
        }
        11 => amount.into_iter().map(CauseEdge::Cargo).collect(),
        _ => Vec::new(),
    }
}

/// Subsystems beside a taken one.
fn parts(causing: &Causing, entry: &Entry, kept: &[bool]) -> Vec<CauseEdge> {
    if entry[1] != 10 {
        return Vec::new();
    }
    let pairs = causing.fit.pairs().enumerate();
    let parts: Vec<(f64, bool)> = pairs
        .filter(|(_, (item, _))| matches!(item.slot, Slot::Subsystem(_)))
        .filter_map(|(number, _)| {
            let part = value(causing, number + 2, SUBSYSTEM_SLOT)?;
            Some((part, kept[number]))
        })
        .collect();
    let zero = |bits: u64| {
        let mut parts = parts.iter();
        parts.any(|(part, is_kept)| *is_kept && part.to_bits() == bits)
    };
    held([
        (
            parts.iter().any(|(part, _)| part.is_nan()),
            CauseEdge::PartNan,
        ),
        (zero(0) && zero(1 << 63), CauseEdge::PartZeros),
    ])
}

/// The highest sum that is not over what is available.
fn limit(available: f64) -> f64 {
    available + available.abs() * 1e-9
}

/// Whether fewer pairs are over a limit than are kept.
fn is_not_fewest(terms: &[f64], limit: f64, kept: &[bool]) -> bool {
    let count = kept.iter().filter(|is_kept| **is_kept).count();
    let mut terms = terms.to_vec();
    terms.sort_by(|a, b| b.total_cmp(a));
    let fewer = terms.iter().take(count.saturating_sub(1));
    count > 0 && fewer.sum::<f64>() > limit
}

/// The drones of each pair that count.
fn launched(causing: &Causing) -> Vec<f64> {
    let is_out = |item: &FitItem, result: &ItemResult| {
        item.slot == Slot::DroneBay && result.state >= State::Active
    };
    let drones = |(item, result): (&FitItem, &ItemResult)| match is_out(item, result) {
        true => f64::from(item.quantity),
        false => 0.0,
    };
    causing.fit.pairs().map(drones).collect()
}

/// What the pairs add to the hold, and the sum that is not over it.
struct Hold {
    terms: Vec<f64>,
    limit: f64,
}

impl Hold {
    fn of(causing: &Causing, entry: &Entry) -> Hold {
        let Causing { catalogue, fit, .. } = causing;
        let term = |item: &FitItem| match in_cargo(item) {
            true => {
                let volume = catalogue.volume(item.type_id).unwrap_or(0.0);
                f64::from(volume) * f64::from(item.quantity)
            }
            false => 0.0,
        };
        Hold {
            terms: fit.pairs().map(|(item, _)| term(item)).collect(),
            limit: limit(available(entry)),
        }
    }

    /// What would be kept by another sum.
    fn kept_by(&self, sum: impl Fn(&Hold, &[bool]) -> f64) -> Vec<bool> {
        let mut kept = vec![true; self.terms.len()];
        for number in (0..kept.len()).rev() {
            kept[number] = false;
            kept[number] = sum(self, &kept) <= self.limit;
        }
        kept
    }

    fn terms_of(&self, kept: &[bool], wanted: bool) -> Vec<f64> {
        let terms = self.terms.iter().copied().zip(kept);
        let terms = terms.filter(|(_, is_kept)| **is_kept == wanted);
        terms.map(|(term, _)| term).collect()
    }

    /// From the last to the first.
    fn backwards(&self, kept: &[bool]) -> f64 {
        let terms = self.terms_of(kept, true).into_iter();
        terms.rev().fold(0.0, |sum, term| sum + term)
    }

    /// All, and from that what is dropped.
    fn taken_off(&self, kept: &[bool]) -> f64 {
        let all = self.terms.iter().fold(0.0, |sum, term| sum + term);
        let dropped = self.terms_of(kept, false).into_iter();
        dropped.fold(all, |sum, term| sum - term)
    }
}

/// Volumes in an answered cause of the hold.
fn cargo(causing: &Causing, entry: &Entry, kept: &[bool]) -> Vec<CauseEdge> {
    if entry[1..3] != [1, 11] {
        return Vec::new();
    }
    let Causing { catalogue, fit, .. } = causing;
    let volume = |item: &FitItem| catalogue.volume(item.type_id);
    let any = |is: &dyn Fn(&FitItem) -> bool| {
        let mut items = fit.pairs().map(|(item, _)| item);
        items.any(|item| in_cargo(item) && is(item))
    };
    let is_minus_zero =
        |item: &FitItem| volume(item).is_some_and(|of| of == 0.0 && of.is_sign_negative());
    let hold = Hold::of(causing, entry);
    held([
        (any(&is_minus_zero), CauseEdge::MinusZero),
        (any(&|item| volume(item).is_none()), CauseEdge::NoVolume),
        (any(&|item| item.quantity == 0), CauseEdge::NoQuantity),
        (hold.kept_by(Hold::backwards) != kept, CauseEdge::Backwards),
        (hold.kept_by(Hold::taken_off) != kept, CauseEdge::TakenOff),
        (
            is_not_fewest(&hold.terms, hold.limit, kept),
            CauseEdge::Fewer(11),
        ),
    ])
}

/// Volumes that 15 does not ask about, in an answered cause.
fn spared(causing: &Causing) -> Vec<CauseEdge> {
    let Causing {
        catalogue,
        fit,
        case,
        ..
    } = causing;
    let is_bad = |item: &FitItem| {
        catalogue
            .volume(item.type_id)
            .is_some_and(reference::is_bad)
    };
    let pairs = || fit.pairs().map(|(item, _)| item);
    let mut lone = fit.fit.items.iter().skip(pairs().count());
    let bits = |item: &FitItem| {
        let mut types = case.catalogue.types.iter();
        types.find(|row| row.id == item.type_id)
    };
    let is_flagless = |item: &FitItem| {
        bits(item).is_some_and(|row| row.flag == 0 && reference::is_bad(f32::from_bits(row.volume)))
    };
    let is_huge = |item: &FitItem| catalogue.volume(item.type_id) == Some(f32::MAX);
    let is_fitted =
        |item: &FitItem| matches!(item.slot, Slot::High(_) | Slot::Medium(_) | Slot::Low(_));
    let edges = held([
        (
            pairs().any(|item| item.slot == Slot::DroneBay && is_bad(item)),
            Spared::DroneBay,
        ),
        (
            pairs().any(|item| is_fitted(item) && is_bad(item)),
            Spared::Fitted,
        ),
        (
            lone.any(|item| in_cargo(item) && is_bad(item)),
            Spared::Lone,
        ),
        (
            pairs().any(|item| in_cargo(item) && is_flagless(item)),
            Spared::Flagless,
        ),
        (
            pairs().any(|item| in_cargo(item) && is_huge(item)),
            Spared::Huge,
        ),
    ]);
    edges.into_iter().map(CauseEdge::Answered).collect()
}
