//! Document 02's P13: which pairs to take off a fit, found within a budget of tries. By
//! rows: each named rule of each pair says which pairs count for it and how many may, as
//! bits, so that a set is judged by counting bits, where the reference rebuilds the fit
//! and lists it again.

use super::bytes::to_u32;
use super::context::{CATEGORY_SHIP, Context, Pair, is_hull};
use super::fault::Fault;
use super::fit::{CARGO, DRONE_BAY, FIGHTER_BAY, SUBSYSTEM};
use super::{Flaw, League, Measure, Number, Rows, list, opened, write};
use crate::checker::refused;

const SHIP: usize = 0;

/// The rule NotAModule; NotADrone, NotAFighter and NotAnImplant; WrongSlotIndex and what
/// says that an item is not for the ship. None of them is named.
const NOT_A_MODULE: [u8; 1] = [4];
const NOT_THE_KIND: [u8; 3] = [5, 6, 7];
const NOT_FOR_THE_SHIP: [u8; 6] = [9, 12, 13, 14, 15, 16];

const RACKS: usize = 22;
const SUBSYSTEM_SLOT: usize = 32;
const GROUP_LIMITS: usize = 72;
const MAX_TYPE_FITTED: usize = 75;

/// Bytes of a number, and of the two numbers before the set.
const WIDTH: usize = 4;
const HEAD: usize = 8;

/// A bit for each pair.
type Set = [u64; 4];

pub fn leave_out(images: (&[u8], &[u8]), budget: u32, out: &mut [u8], flaw: Flaw) -> u64 {
    let budget = flaw.number(Number::LeaveBudget, budget as usize) as u64;
    if flaw.refuses(Measure::LeaveTries, budget as usize) {
        return refused(10);
    }
    match Left::of(images, budget, out.len(), flaw) {
        Ok(left) => left.answered(out),
        Err(number) => {
            if flaw.has(Fault::RefusalClears) {
                out.fill(0);
            }
            refused(number)
        }
    }
}

/// The answer.
struct Left {
    tries: u64,
    distance: u64,
    off: Set,
    pairs: usize,
    /// How many items there are besides.
    lone: usize,
    flaw: Flaw,
}

impl Left {
    fn of(
        (catalogue, fit): (&[u8], &[u8]),
        budget: u64,
        room: usize,
        flaw: Flaw,
    ) -> Result<Left, u8> {
        let has_no_room = room < HEAD;
        if flaw.has(Fault::LeaveRoomFirst) && has_no_room {
            return Err(10);
        }
        let (catalogue, fit) = match opened(catalogue, fit, flaw) {
            Err(4..=6) if flaw.has(Fault::LeaveRoomBeforeFit) && has_no_room => return Err(10),
            opened => opened?,
        };
        let context = Context::new(&catalogue, &fit, flaw);
        let is_hull = is_hull(&catalogue, &fit, flaw);
        if flaw.has(Fault::LeaveVolumeAsked) && has_bad_volume(&context) {
            return Err(15);
        }
        if flaw.has(Fault::LeaveNoHullRefused) && !is_hull {
            return Err(7);
        }
        let pairs = fit.pairs();
        let entries = list(&catalogue, &fit, &League::none(flaw), flaw)?;
        let named = |rule: u8| entries.iter().any(|entry| entry[1] == rule);
        let never = (flaw.has(Fault::LeaveLoadsNamed) && named(1))
            || (flaw.has(Fault::LeaveSkillsNamed) && (named(20) || named(21)));
        let mut rows = match is_hull || flaw.has(Fault::LeaveNoHullJudged) {
            true => rows(&context),
            false => Vec::new(),
        };
        for (fault, rules) in [
            (Fault::LeaveNotAModule, &NOT_A_MODULE[..]),
            (Fault::LeaveKindsNamed, &NOT_THE_KIND),
            (Fault::LeaveItemsNamed, &NOT_FOR_THE_SHIP),
        ] {
            if flaw.has(fault) {
                let others = entries.iter().filter(|entry| rules.contains(&entry[1]));
                rows.extend(others.map(|entry| alone(&context, usize::from(entry[4]))));
            }
        }
        let search = Search {
            rows,
            never: never || (!is_hull && flaw.has(Fault::LeaveNoHullNever)),
            pairs: match flaw.has(Fault::LeaveLoneTried) {
                true => fit.items().max(fit.results()),
                false => pairs,
            },
            flaw,
        };
        let (tries, off) = match flaw.has(Fault::LeaveNoHullUntried) && !is_hull {
            true => (0, [0; 4]),
            false => search.within(budget),
        };
        let is_counted = match () {
            () if flaw.has(Fault::LeaveSurplusOfShips) => context.ship_category() == CATEGORY_SHIP,
            () => is_hull || flaw.has(Fault::LeaveSurplusOfNoHull),
        };
        let surplus = if is_counted { surplus(&context) } else { 0 };
        let is_best = pairs <= 16 && tries >= search.all();
        let taken = size(&off) as u64;
        let distance = match () {
            () if flaw.has(Fault::LeaveDistanceOfAll) => (pairs as u64).saturating_sub(surplus),
            () if flaw.has(Fault::LeaveDistanceOfTheSet) => taken,
            () if flaw.has(Fault::LeaveDistanceSurplus) => surplus,
            () if flaw.has(Fault::LeaveDistanceBest) && is_best => 0,
            () => taken.saturating_sub(surplus),
        };
        let lone = fit.items() - pairs;
        Ok(Left {
            tries,
            distance,
            off,
            pairs,
            lone,
            flaw,
        })
    }

    /// Writes the answer where it has room; the word of the call.
    fn answered(&self, out: &mut [u8]) -> u64 {
        let flaw = self.flaw;
        let image = self.image();
        let needed = match () {
            () if flaw.has(Fault::LeaveRoomOfPairs) => HEAD + WIDTH * self.pairs,
            () if flaw.has(Fault::LeaveRoomOfTheSet) => image.len() - HEAD,
            () if flaw.has(Fault::LeaveRoomOfHead) => HEAD,
            () if flaw.has(Fault::RoomMustExceed) => image.len() + 1,
            () if flaw.has(Fault::RoomOneShort) => image.len() - 1,
            () => image.len(),
        };
        let is_uneven = !out.len().is_multiple_of(WIDTH) && flaw.has(Fault::LeaveRoomAligned);
        if out.len() < needed || is_uneven || flaw.refuses(Measure::LeaveBytes, image.len()) {
            if flaw.has(Fault::LeaveRoomFilled) {
                let room = out.len().min(image.len());
                out[..room].copy_from_slice(&image[..room]);
            }
            let counts = flaw.has(Fault::LeaveRoomCounts);
            return refused(10) + if counts { image.len() as u64 } else { 0 };
        }
        let most = flaw.rows(Rows::LeaveBytes, image.len()).min(out.len());
        let start = match flaw.has(Fault::LeaveAtEnd) {
            true => out.len() - most,
            false => 0,
        };
        write(&image[..most], &mut out[start..], flaw);
        if flaw.has(Fault::LeaveTailCleared) {
            out[image.len()..].fill(0);
        }
        match () {
            () if flaw.has(Fault::LeaveCountsPairs) => (image.len() - HEAD) as u64 / WIDTH as u64,
            () if flaw.has(Fault::LeaveCountsSet) => (image.len() - HEAD) as u64,
            () if flaw.has(Fault::LeaveCountsWords) => (image.len() / WIDTH) as u64,
            () if flaw.has(Fault::LeaveCountsTries) => self.tries,
            () => flaw.number(Number::LeaveCount, image.len()) as u64,
        }
    }

    /// The two numbers and the set.
    fn image(&self) -> Vec<u8> {
        let flaw = self.flaw;
        let stays = flaw.has(Fault::LeaveWhatStays);
        let is_written = |number: &usize| has(&self.off, *number) != stays;
        let mut numbers: Vec<usize> = (0..self.pairs).filter(is_written).collect();
        match () {
            () if flaw.has(Fault::LeaveLoneWritten) => {
                numbers.extend(self.pairs..self.pairs + self.lone);
            }
            () if flaw.has(Fault::LeaveDescending) => numbers.reverse(),
            () if flaw.has(Fault::LeaveRenumbered) => numbers = (0..numbers.len()).collect(),
            () => {}
        }
        let step = match () {
            () if flaw.has(Fault::LeaveFrom1) => 1,
            () if flaw.has(Fault::LeaveAsResults) => 2,
            () => 0,
        };
        let mut head = [
            flaw.number(Number::LeaveTries, self.tries as usize) as u32,
            flaw.number(Number::LeaveDistance, self.distance as usize) as u32,
        ];
        if flaw.has(Fault::LeaveDistanceFirst) {
            head.reverse();
        }
        let mut image = head.map(u32::to_le_bytes).concat();
        for number in numbers {
            let number = flaw.number(Number::LeaveNumber, number + step) as u32;
            match () {
                () if flaw.has(Fault::LeaveBigEndian) => image.extend(number.to_be_bytes()),
                () if flaw.has(Fault::LeaveTwoBytes) => image.extend(&number.to_le_bytes()[..2]),
                () => image.extend(number.to_le_bytes()),
            }
        }
        image
    }
}

/// The tries.
struct Search {
    rows: Vec<Row>,
    /// A flaw has no set good.
    never: bool,
    pairs: usize,
    flaw: Flaw,
}

/// How a search stands.
struct Stand {
    /// How many tries it may make, and has made.
    budget: u64,
    tries: u64,
    /// The try that found the best set.
    last: u64,
    best: Set,
}

impl Search {
    /// With up to so many pairs sets are taken by number.
    fn most(&self) -> usize {
        let flaw = self.flaw;
        match () {
            () if flaw.has(Fault::LeaveFew15) => 15,
            () if flaw.has(Fault::LeaveFew17) => 17,
            () => 16,
        }
    }

    /// The numbers of the sets that are taken.
    fn numbers(&self) -> std::ops::Range<u64> {
        let flaw = self.flaw;
        let is_none = flaw.has(Fault::LeaveNoSets)
            || (self.pairs == 0 && flaw.has(Fault::LeaveNothingUntried));
        if self.pairs > self.most() || is_none {
            return 0..0;
        }
        let first = u64::from(flaw.has(Fault::LeaveSetsFrom1));
        let end = (1 << self.pairs) - u64::from(flaw.has(Fault::LeaveSetsShort));
        first..end.max(first)
    }

    /// All tries that there are.
    fn all(&self) -> u64 {
        let numbers = self.numbers();
        self.pairs as u64 + (numbers.end - numbers.start)
    }

    /// How many tries are made, and the best set.
    fn within(&self, budget: u64) -> (u64, Set) {
        let flaw = self.flaw;
        let pairs = self.pairs as u64;
        let allowed = match () {
            () if flaw.has(Fault::LeaveUncut) => u64::MAX,
            () if flaw.has(Fault::LeaveBudgetOver) => budget + 1,
            () if flaw.has(Fault::LeaveBudgetUnder) => budget.saturating_sub(1),
            () if flaw.has(Fault::LeaveBudget0All) && budget == 0 => u64::MAX,
            () if flaw.has(Fault::LeaveBackUncounted) => budget.saturating_add(pairs),
            () if flaw.has(Fault::LeaveBackWhole) && budget < pairs => 0,
            () if flaw.has(Fault::LeaveBackUncut) => budget.max(pairs),
            () if flaw.has(Fault::LeaveSetsWhole) && budget < self.all() => budget.min(pairs),
            () if flaw.has(Fault::LeaveAllTried) => budget.saturating_sub(1),
            () => budget,
        };
        let mut stand = Stand {
            budget: allowed,
            tries: 0,
            last: 0,
            best: every(self.pairs),
        };
        if flaw.has(Fault::LeaveBudget0None) && budget == 0 {
            return (0, [0; 4]);
        }
        self.put_back(&mut stand);
        if flaw.has(Fault::LeaveSetsAnew) && stand.tries < stand.budget {
            stand.best = every(self.pairs);
        }
        self.by_number(&mut stand);
        let tries = match () {
            () if flaw.has(Fault::LeaveTriesOfTheBudget) => budget,
            () if flaw.has(Fault::LeaveTriesAll) => self.all(),
            () if flaw.has(Fault::LeaveTriesLast) => stand.last,
            () if flaw.has(Fault::LeaveTriesSets) => stand.tries.saturating_sub(pairs),
            () if flaw.has(Fault::LeaveAllTried) && budget > 0 => stand.tries + 1,
            () => stand.tries,
        };
        (tries, stand.best)
    }

    /// Puts back each pair in turn.
    fn put_back(&self, stand: &mut Stand) {
        let flaw = self.flaw;
        let count = match self.pairs > 16 && flaw.has(Fault::LeaveNoTryOfMany) {
            true => 0,
            false => flaw.rows(Rows::LeavePairs, self.pairs),
        };
        let mut order: Vec<usize> = (0..count).collect();
        if flaw.has(Fault::LeaveFromTheLast) {
            order.reverse();
        }
        let mut is_over = false;
        for number in order {
            if stand.tries >= stand.budget {
                return;
            }
            let mut off = match flaw.has(Fault::LeaveEachAlone) {
                true => every(self.pairs),
                false => stand.best,
            };
            off[number / 64] &= !(1 << (number % 64));
            let stays_off = (number == 0 && flaw.has(Fault::LeaveFirstOff))
                || (number + 1 == self.pairs && flaw.has(Fault::LeaveLastOff))
                || is_over;
            let is_good = self.is_good(&off);
            if (is_good || flaw.has(Fault::LeaveAllBack)) && !stays_off {
                stand.best[number / 64] &= !(1 << (number % 64));
                stand.last = stand.tries + 1;
            }
            is_over |= !is_good && flaw.has(Fault::LeaveBackStops);
            stand.tries += u64::from(is_good || !flaw.has(Fault::LeaveGoodCounted));
        }
    }

    /// Takes the sets by their numbers.
    fn by_number(&self, stand: &mut Stand) {
        let flaw = self.flaw;
        let numbers = self.numbers();
        let (first, last) = (numbers.start, numbers.end);
        for number in numbers {
            if stand.tries >= stand.budget {
                return;
            }
            let number = match flaw.has(Fault::LeaveSetsDown) {
                true => last - 1 - number + first,
                false => number,
            };
            let off = match flaw.has(Fault::LeaveBitsReversed) {
                true => [number.reverse_bits() >> 1 >> (63 - self.pairs), 0, 0, 0],
                false => [number, 0, 0, 0],
            };
            let off = match flaw.has(Fault::LeaveSets8) {
                true => [number & 0xFF, 0, 0, 0],
                false => off,
            };
            let off = match flaw.has(Fault::LeaveSetsStay) {
                true => [!number & every(self.pairs)[0], 0, 0, 0],
                false => off,
            };
            let (new, old) = (size(&off), size(&stand.best));
            let is_smaller = new < old || (new == old && flaw.has(Fault::LeaveLaterOfTwo));
            let is_asked = is_smaller || flaw.has(Fault::LeaveGoodCounted);
            let is_good = is_asked && self.is_good(&off);
            let is_skipped = (flaw.has(Fault::LeaveSmallerCounted) && !is_smaller)
                || (flaw.has(Fault::LeaveGoodCounted) && !is_good);
            stand.tries += u64::from(!is_skipped);
            if is_smaller && is_good {
                stand.best = off;
                stand.last = stand.tries;
                if flaw.has(Fault::LeaveFirstSet) {
                    stand.tries = stand.budget.min(self.all());
                    return;
                }
            }
            if flaw.has(Fault::LeaveEmptyStops) && stand.best == [0; 4] {
                return;
            }
        }
    }

    fn is_good(&self, off: &Set) -> bool {
        !self.never && !self.rows.iter().any(|row| row.is_over(off, self.flaw))
    }
}

/// What one entry that has to go looks at.
struct Row {
    /// The pair that it is about.
    own: Option<usize>,
    counted: Set,
    limit: u64,
    /// What counts whatever is taken off.
    besides: u64,
}

impl Row {
    fn is_over(&self, off: &Set, flaw: Flaw) -> bool {
        let is_gone = self.own.is_some_and(|own| has(off, own));
        if is_gone && !flaw.has(Fault::LeaveOwnUnasked) {
            return false;
        }
        let mut left = self.counted;
        for (word, off) in left.iter_mut().zip(off) {
            *word &= !off;
        }
        let count = size(&left) as u64 + self.besides;
        match () {
            () if flaw.has(Fault::LeaveOneMore) => count > self.limit + 1,
            () if flaw.has(Fault::LeaveOneLess) => count >= self.limit && count > 0,
            () => count > self.limit,
        }
    }
}

/// The rows of a fit on a hull.
fn rows(context: &Context) -> Vec<Row> {
    let flaw = context.flaw;
    let mut rows = Vec::new();
    if !flaw.has(Fault::LeaveRacksFree) {
        let racks = 6 - u8::from(flaw.has(Fault::LeaveFiveRacks));
        rows.extend((0..racks).filter_map(|rack| rack_row(context, rack)));
    }
    if flaw.has(Fault::LeaveHardpoints) {
        rows.extend((0..2).filter_map(|number| hardpoint_row(context, number)));
    }
    for pair in &context.pairs {
        rows.extend(taken(context, pair));
        rows.extend(part(context, pair));
        rows.extend((0..3).filter_map(|limit| group(context, limit, pair)));
        rows.extend(type_of(context, pair));
        let is_misplaced = pair.is_fitted && pair.rack.is_some_and(|rack| rack != pair.item.kind);
        if (flaw.has(Fault::LeaveWrongSlots) && is_misplaced)
            || (flaw.has(Fault::LeaveUnknown) && !pair.is_known)
        {
            rows.push(alone(context, pair.number));
        }
    }
    rows
}

/// Of an entry that looks at its own pair alone.
fn alone(context: &Context, own: usize) -> Row {
    Row {
        own: Some(own),
        counted: counted(context, |pair| pair.number == own),
        limit: 0,
        besides: 0,
    }
}

fn rack_row(context: &Context, rack: u8) -> Option<Row> {
    let flaw = context.flaw;
    let id = context.id(RACKS + usize::from(rack));
    let amount = match id {
        Some(id) => context.amount(SHIP, id),
        None if flaw.has(Fault::LeaveRacksNameless) => 0.0,
        None => return None,
    };
    let lone = (context.fit.pairs()..context.fit.items()).map(|number| context.fit.item(number));
    let lone = lone.filter(|item| item.kind == rack).count() as u64;
    Some(Row {
        own: None,
        counted: counted(context, |pair| match flaw.has(Fault::LeaveRacksMarked) {
            true => pair.rack == Some(rack),
            false => pair.item.kind == rack,
        }),
        limit: limit(amount, flaw),
        besides: if flaw.has(Fault::LeaveRacksLone) {
            lone
        } else {
            0
        },
    })
}

fn hardpoint_row(context: &Context, number: u8) -> Option<Row> {
    let id = context.id(RACKS + 6 + usize::from(number))?;
    let amount = context.amount(SHIP, id);
    Some(Row {
        own: None,
        counted: counted(context, |pair| {
            pair.is_fitted && pair.hardpoint == Some(number)
        }),
        limit: limit(amount, context.flaw),
        besides: 0,
    })
}

fn taken(context: &Context, own: &Pair) -> Option<Row> {
    let flaw = context.flaw;
    let is_bay = matches!(own.item.kind, DRONE_BAY | FIGHTER_BAY | CARGO);
    if flaw.has(Fault::LeaveSlotTaken) || (is_bay && !flaw.has(Fault::LeaveTakenBays)) {
        return None;
    }
    let counted = counted(context, |pair| {
        let is_kind = pair.item.kind == own.item.kind || flaw.has(Fault::LeaveTakenByIndex);
        let is_index = pair.item.index == own.item.index || flaw.has(Fault::LeaveTakenByKind);
        is_kind && is_index && pair.number != own.number
    });
    Some(Row {
        own: Some(own.number),
        counted,
        limit: 0,
        besides: 0,
    })
}

fn part(context: &Context, own: &Pair) -> Option<Row> {
    let flaw = context.flaw;
    let id = context.id(SUBSYSTEM_SLOT)?;
    let part = |pair: &Pair| context.value(pair.result(), id);
    let own_part = part(own)?;
    if flaw.has(Fault::LeaveSubsystemTaken) || own.item.kind != SUBSYSTEM {
        return None;
    }
    let is_same = |other: f64| match () {
        () if flaw.has(Fault::LeavePartAny) => true,
        () if flaw.has(Fault::LeavePartBits) => other.to_bits() == own_part.to_bits(),
        () if flaw.has(Fault::LeavePartTruncated) => other.trunc() == own_part.trunc(),
        () if flaw.has(Fault::LeavePartNan) => {
            other == own_part || (other.is_nan() && own_part.is_nan())
        }
        () => other == own_part,
    };
    let counted = counted(context, |pair| {
        let is_subsystem = pair.item.kind == SUBSYSTEM || flaw.has(Fault::LeavePartAnySlot);
        pair.number != own.number && is_subsystem && part(pair).is_some_and(is_same)
    });
    Some(Row {
        own: Some(own.number),
        counted,
        limit: 0,
        besides: 0,
    })
}

fn group(context: &Context, state: u8, own: &Pair) -> Option<Row> {
    let flaw = context.flaw;
    let id = context.id(GROUP_LIMITS + usize::from(state))?;
    let allowed = context.value(own.result(), id)?;
    if flaw.has(Fault::LeaveMaxGroup)
        || (state > 0 && flaw.has(Fault::LeaveFittedAlone))
        || !own.is_fitted
    {
        return None;
    }
    let counted = counted(context, |pair| {
        let is_fitted = pair.is_fitted || flaw.has(Fault::LeaveGroupUnfitted);
        let is_group = pair.group == own.group || flaw.has(Fault::LeaveGroupAny);
        let is_in = match () {
            () if flaw.has(Fault::LeaveGroupStates) => true,
            () if flaw.has(Fault::LeaveGroupExact) && state > 0 => pair.state == state,
            () => pair.state >= state,
        };
        let is_own = pair.number == own.number && flaw.has(Fault::LeaveGroupOwn);
        is_fitted && is_group && (is_in || is_own)
    });
    Some(Row {
        own: Some(own.number),
        counted,
        limit: limit(allowed, flaw),
        besides: 0,
    })
}

fn type_of(context: &Context, own: &Pair) -> Option<Row> {
    let flaw = context.flaw;
    let id = context.id(MAX_TYPE_FITTED)?;
    let allowed = context.value(own.result(), id)?;
    if flaw.has(Fault::LeaveMaxType) || !own.is_fitted {
        return None;
    }
    let counted = counted(context, |pair| {
        let is_type = match flaw.has(Fault::LeaveTypeGroup) {
            true => pair.group == own.group,
            false => pair.item.type_id == own.item.type_id,
        };
        let is_on = pair.state > 0 || !flaw.has(Fault::LeaveTypeStates);
        is_type && is_on && (pair.is_fitted || flaw.has(Fault::LeaveTypeUnfitted))
    });
    Some(Row {
        own: Some(own.number),
        counted,
        limit: limit(allowed, flaw),
        besides: 0,
    })
}

/// How many may stay, as an attribute says.
fn limit(amount: f64, flaw: Flaw) -> u64 {
    let limit = match () {
        () if flaw.has(Fault::LeaveLimitRounded) => to_u32(amount.round()),
        () if flaw.has(Fault::LeaveLimit1) => to_u32(amount).max(1),
        () => to_u32(amount),
    };
    flaw.number(Number::LeaveLimit, limit as usize) as u64
}

/// How many more are in the racks than there may be.
fn surplus(context: &Context) -> u64 {
    let flaw = context.flaw;
    let end = if flaw.has(Fault::LeaveSurplusHardpoints) {
        8
    } else {
        6
    };
    let over = (0..end).filter_map(|rack| {
        let row = match rack {
            6 | 7 => hardpoint_row(context, rack - 6)?,
            rack => rack_row(context, rack)?,
        };
        let is_nameless = context.id(RACKS + usize::from(rack)).is_none();
        if is_nameless && !flaw.has(Fault::LeaveSurplusUnnamed) {
            return None;
        }
        let mut in_it = row.counted;
        if flaw.has(Fault::LeaveSurplusOfSome) {
            let some = counted(context, |pair| pair.item.quantity > 0);
            for (word, some) in in_it.iter_mut().zip(some) {
                *word &= some;
            }
        }
        let count = size(&in_it) as u64 + row.besides;
        Some(match () {
            () if flaw.has(Fault::LeaveSurplusSigned) => count as i64 - row.limit as i64,
            () if flaw.has(Fault::LeaveSurplusCounts) && count > row.limit => count as i64,
            () if flaw.has(Fault::LeaveSurplusRacks) => i64::from(count > row.limit),
            () => count.saturating_sub(row.limit) as i64,
        })
    });
    let nameless = (0..6)
        .filter(|rack| flaw.has(Fault::LeaveSurplusUnnamed) && context.id(RACKS + rack).is_none());
    let kinds = nameless.map(|rack| {
        let is_in = |pair: &Pair| usize::from(pair.item.kind) == rack;
        size(&counted(context, is_in)) as i64
    });
    let over: Vec<i64> = over.chain(kinds).collect();
    let surplus = match () {
        () if flaw.has(Fault::LeaveSurplusMost) => over.iter().copied().max().unwrap_or(0),
        () if flaw.has(Fault::LeaveSurplusFirst) => {
            over.iter().copied().find(|over| *over > 0).unwrap_or(0)
        }
        () => over.iter().sum(),
    };
    surplus.max(0) as u64
}

/// Whether cargo has a volume that a cause would be refused for.
fn has_bad_volume(context: &Context) -> bool {
    let mut cargo = context.pairs.iter().filter(|pair| pair.item.kind == CARGO);
    cargo.any(|pair| {
        let row = context.catalogue.type_of(pair.item.type_id);
        let volume = row.and_then(|row| row.volume);
        volume.is_some_and(|volume| volume < 0.0 || !volume.is_finite())
    })
}

fn counted(context: &Context, is_counted: impl Fn(&Pair) -> bool) -> Set {
    let mut set = [0; 4];
    for pair in context.pairs.iter().filter(|pair| is_counted(pair)) {
        set[pair.number / 64] |= 1 << (pair.number % 64);
    }
    set
}

fn every(pairs: usize) -> Set {
    let mut set = [0; 4];
    for number in 0..pairs {
        set[number / 64] |= 1 << (number % 64);
    }
    set
}

fn has(set: &Set, number: usize) -> bool {
    set[number / 64] >> (number % 64) & 1 == 1
}

fn size(set: &Set) -> usize {
    set.iter().map(|word| word.count_ones() as usize).sum()
}
