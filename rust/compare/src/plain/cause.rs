//! Document 02's P9: the smallest part of a fit that shows an entry of its list. By
//! members: each rule says which pairs count for it and how many may, and one pass from
//! the last pair to the first drops what the entry does not need, where the reference
//! rebuilds the fit and lists it again.

use std::cmp::{Ordering, Reverse};
use std::iter;

use super::bytes::{f32_at, to_u32, u32_at};
use super::context::{Context, Pair};
use super::fault::Fault;
use super::fit::{CARGO, DRONE_BAY, FIGHTER_TUBE, Fit, SUBSYSTEM};
use super::resource::over;
use super::{Catalogue, Flaw, League, Measure, Number, Rows, list, opened, write};
use crate::checker::{ENTRY, Entry, refused};

const SHIP: usize = 0;
const CHARACTER: usize = 1;

const ACTIVE: u8 = 2;

const MAX_ACTIVE_DRONES: usize = 20;
const CAPACITY: usize = 21;
const RACKS: usize = 22;
const SUBSYSTEM_SLOT: usize = 32;
const GROUP_LIMITS: usize = 72;
const MAX_TYPE_FITTED: usize = 75;

/// Rules by their numbers.
const RESOURCE: u8 = 1;
const SLOTS: u8 = 2;
const SLOT_TAKEN: u8 = 8;
const SUBSYSTEM_TAKEN: u8 = 10;
const MAX_GROUP: u8 = 17;
const MAX_TYPE: u8 = 18;
const NOT_A_HULL: u8 = 19;
const NOT_A_SKILL: u8 = 21;
const UNKNOWN: u8 = 26;
/// Rules whose first word is an id.
const WITH_ID: [u8; 5] = [11, MAX_GROUP, MAX_TYPE, NOT_A_SKILL, UNKNOWN];

/// Resources by their numbers.
const LAUNCHED_DRONES: u8 = 5;
const CARGO_BAY: u8 = 11;

/// Bytes of a pair's number.
const WIDTH: usize = 4;

pub fn cause(images: (&[u8], &[u8]), position: u32, out: &mut [u8], flaw: Flaw) -> u64 {
    let position = flaw.number(Number::CausePosition, position as usize);
    match Caused::of(images, position, out.len(), flaw) {
        Ok(caused) => caused.answered(out),
        Err((number, count)) => {
            if flaw.has(Fault::RefusalClears) {
                out.fill(0);
            }
            refused(number) + count
        }
    }
}

/// A refusal, and the count that it carries, which is 0 without a flaw.
type Refused = (u8, u64);

/// The pairs that make an entry.
struct Caused {
    kept: Vec<bool>,
    /// How many items and results there are besides.
    lone: (usize, usize),
    /// How many entries the list has.
    listed: usize,
    flaw: Flaw,
}

impl Caused {
    /// Of the entry at a position, or the refusal before 10.
    fn of(
        (catalogue, fit): (&[u8], &[u8]),
        position: usize,
        room: usize,
        flaw: Flaw,
    ) -> Result<Caused, Refused> {
        let has_no_room = room < WIDTH;
        if flaw.has(Fault::CauseRoomFirst) && has_no_room {
            return Err((10, 0));
        }
        let (catalogue, fit) = match opened(catalogue, fit, flaw) {
            Err(4..=6) if flaw.has(Fault::CauseRoomBeforeFit) && has_no_room => {
                return Err((10, 0));
            }
            Err(number @ (5 | 6)) => {
                let early = judged_early(catalogue, fit, position, flaw);
                return Err((early.unwrap_or(number), 0));
            }
            opened => opened.map_err(|number| (number, 0))?,
        };
        let context = Context::new(&catalogue, &fit, flaw);
        let entries = list(&catalogue, &fit, &League::none(flaw), flaw);
        let entries = entries.map_err(|number| (number, 0))?;
        let judged = judged(&context, &entries, position, has_no_room)?;
        let kept = match judged {
            Some(entry) => Pass::beside(&context, &entry, &entries).kept(),
            None => vec![false; context.pairs.len()],
        };
        let is_late = flaw.has(Fault::CauseVolumeOfKept);
        if is_late && bad_volume(&context, |pair| kept[pair.number]) {
            return Err((15, 0));
        }
        let pairs = fit.pairs();
        Ok(Caused {
            kept,
            lone: (fit.items() - pairs, fit.results() - pairs),
            listed: entries.len(),
            flaw,
        })
    }

    /// Writes the numbers where they have room; the word of the call.
    fn answered(&self, out: &mut [u8]) -> u64 {
        let flaw = self.flaw;
        let image = self.image();
        let needed = match () {
            () if flaw.has(Fault::CauseRoomOfPairs) => WIDTH * self.kept.len(),
            () if flaw.has(Fault::CauseRoomOfList) => ENTRY * self.listed,
            () if flaw.has(Fault::CauseRoomForNone) => image.len().max(1),
            () if flaw.has(Fault::RoomMustExceed) => image.len() + 1,
            () if flaw.has(Fault::RoomOneShort) => image.len().saturating_sub(1),
            () => image.len(),
        };
        let is_uneven = !out.len().is_multiple_of(WIDTH) && flaw.has(Fault::CauseRoomAligned);
        if out.len() < needed || is_uneven || flaw.refuses(Measure::CauseBytes, image.len()) {
            if flaw.has(Fault::CauseRoomFilled) {
                let room = out.len().min(image.len());
                out[..room].copy_from_slice(&image[..room]);
            }
            let counts = flaw.has(Fault::CauseRoomCounts);
            return refused(10) + if counts { image.len() as u64 } else { 0 };
        }
        let most = flaw.rows(Rows::CauseBytes, image.len());
        let start = match flaw.has(Fault::CauseAtEnd) {
            true => out.len() - most.min(out.len()),
            false => 0,
        };
        write(&image[..most], &mut out[start..], flaw);
        if flaw.has(Fault::CauseTailCleared) {
            out[image.len()..].fill(0);
        }
        let dropped = self.kept.iter().filter(|is_kept| !**is_kept).count();
        match () {
            () if flaw.has(Fault::CauseCountsPairs) => (image.len() / WIDTH) as u64,
            () if flaw.has(Fault::CauseCountsDropped) => (WIDTH * dropped) as u64,
            () if flaw.has(Fault::CauseCountsAsEntries) => (ENTRY * image.len() / WIDTH) as u64,
            () => flaw.number(Number::CauseCount, image.len()) as u64,
        }
    }

    /// The numbers of the pairs, four bytes each.
    fn image(&self) -> Vec<u8> {
        let flaw = self.flaw;
        let wanted = !flaw.has(Fault::CauseDroppedWritten);
        let kept = self.kept.iter().enumerate();
        let kept = kept.filter(|(_, is_kept)| **is_kept == wanted);
        let mut numbers: Vec<usize> = kept.map(|(number, _)| number).collect();
        let pairs = self.kept.len();
        let (items, results) = self.lone;
        match () {
            () if flaw.has(Fault::CauseSurplusKept) => numbers.extend(pairs..pairs + items),
            () if flaw.has(Fault::CauseSurplusResults) => numbers.extend(pairs..pairs + results),
            () if flaw.has(Fault::CauseDescending) => numbers.reverse(),
            () if flaw.has(Fault::CauseRenumbered) => numbers = (0..numbers.len()).collect(),
            () => {}
        }
        let step = match () {
            () if flaw.has(Fault::CauseFrom1) => 1,
            () if flaw.has(Fault::CauseAsResults) => 2,
            () => 0,
        };
        let bytes = |number: usize| {
            let number = flaw.number(Number::CauseNumber, number + step) as u32;
            match () {
                () if flaw.has(Fault::CauseBigEndian) => number.to_be_bytes().to_vec(),
                () if flaw.has(Fault::CauseTwoBytes) => number.to_le_bytes()[..2].to_vec(),
                () => number.to_le_bytes().to_vec(),
            }
        };
        numbers.into_iter().flat_map(bytes).collect()
    }
}

/// 14 or 15 where a flaw gives it before 5 and 6.
fn judged_early(catalogue: &[u8], fit: &[u8], position: usize, flaw: Flaw) -> Option<u8> {
    if !flaw.has(Fault::CausePositionBeforeIds) && !flaw.has(Fault::CauseVolumeBeforeIds) {
        return None;
    }
    let catalogue = Catalogue::open(catalogue, flaw).ok()?;
    let fit = Fit::unjudged(fit, flaw);
    let context = Context::new(&catalogue, &fit, flaw);
    if flaw.has(Fault::CauseVolumeBeforeIds) {
        return bad_volume(&context, |_| true).then_some(15);
    }
    let entries = list(&catalogue, &fit, &League::none(flaw), flaw).ok()?;
    (position >= entries.len()).then_some(14)
}

/// The entry at a position, or refusal 14 or 15; no entry where a flaw takes a position
/// that has none.
fn judged(
    context: &Context,
    entries: &[Entry],
    position: usize,
    has_no_room: bool,
) -> Result<Option<Entry>, Refused> {
    let flaw = context.flaw;
    let asked = |entry: &Entry| match () {
        () if flaw.has(Fault::CauseVolumeUnasked) || flaw.has(Fault::CauseVolumeOfKept) => false,
        () if flaw.has(Fault::CauseVolumeOfHold) => entry[1..3] == [RESOURCE, CARGO_BAY],
        () if flaw.has(Fault::CauseVolumeOnHulls) => entry[1] != NOT_A_HULL,
        () if flaw.has(Fault::CauseVolumeOfItems) => entry[0] == 1,
        () => true,
    };
    let is_bad = || bad_volume(context, |_| true);
    if flaw.has(Fault::CauseVolumeFirst) && is_bad() {
        return Err((15, 0));
    }
    let entry = match at(entries, position, flaw) {
        Found::Entry(entry) => entry,
        Found::Nothing => return Ok(None),
        Found::Beyond => {
            return Err(match () {
                () if flaw.has(Fault::CausePositionAfterRoom) && has_no_room => (10, 0),
                () if flaw.has(Fault::CausePositionAs8) => (8, 0),
                () if flaw.has(Fault::CausePositionCounts) => (14, entries.len() as u64),
                () => (14, 0),
            });
        }
    };
    if asked(&entry) && is_bad() {
        return Err(match () {
            () if flaw.has(Fault::CauseVolumeAfterRoom) && has_no_room => (10, 0),
            () if flaw.has(Fault::CauseVolumeCounts) => (15, 1),
            () => (15, 0),
        });
    }
    Ok(Some(entry))
}

/// What stands at a position.
enum Found {
    Entry(Entry),
    /// A flaw takes it for an entry that no pair makes.
    Nothing,
    Beyond,
}

fn at(entries: &[Entry], position: usize, flaw: Flaw) -> Found {
    let mut entries = entries.to_vec();
    entries.retain(|entry| match entry[1] {
        NOT_A_SKILL => !flaw.has(Fault::CausePositionGuest),
        UNKNOWN => !flaw.has(Fault::CausePositionKnown),
        _ => true,
    });
    let count = entries.len();
    let position = match () {
        () if flaw.has(Fault::CausePositionFrom1) => position.wrapping_sub(1),
        () if flaw.has(Fault::CausePositionClamped) => position.min(count.saturating_sub(1)),
        () if flaw.has(Fault::CausePositionAnew) && count > 0 => position % count,
        () => position,
    };
    let is_last = position + 1 == count && flaw.has(Fault::CausePositionLast);
    if is_last || flaw.refuses(Measure::CausePosition, position) {
        return Found::Beyond;
    }
    match entries.get(position) {
        Some(entry) => Found::Entry(*entry),
        None if flaw.has(Fault::CausePositionOpen) => Found::Nothing,
        None if position == count && flaw.has(Fault::CausePositionEnd) => Found::Nothing,
        None => Found::Beyond,
    }
}

/// 15: whether one of such pairs in Cargo has a volume that cannot be added.
fn bad_volume(context: &Context, is_asked: impl Fn(&Pair) -> bool) -> bool {
    let Context {
        catalogue,
        fit,
        flaw,
        ..
    } = *context;
    if flaw.has(Fault::CauseVolumeNamed) && context.id(CAPACITY).is_none() {
        return false;
    }
    let in_cargo = |kind: u8| {
        kind == CARGO
            || (kind == DRONE_BAY && flaw.has(Fault::CauseVolumeInBays))
            || flaw.has(Fault::CauseVolumeAnywhere)
    };
    let pairs = context.pairs.iter().filter(|pair| is_asked(pair));
    let mut items: Vec<_> = pairs.map(|pair| pair.item).collect();
    if flaw.has(Fault::CauseVolumeUnpaired) {
        items.extend((fit.pairs()..fit.items()).map(|number| fit.item(number)));
    }
    items.retain(|item| in_cargo(item.kind));
    if flaw.has(Fault::CauseVolumeOfFirst) {
        items.truncate(1);
    }
    items.iter().any(|item| {
        if item.quantity == 0 && flaw.has(Fault::CauseVolumeOfSome) {
            return false;
        }
        let volume = match catalogue.type_of(item.type_id) {
            None => return flaw.has(Fault::CauseVolumeMissing),
            Some(_) if flaw.has(Fault::CauseVolumeFlagless) => {
                let mut types = catalogue.records(2).into_iter();
                let row = types.find(|(id, _)| *id == item.type_id);
                row.map(|(_, value)| f32_at(value, 12))
            }
            Some(row) => row.volume,
        };
        volume.is_some_and(|volume| match flaw.has(Fault::CauseVolumeOfStack) {
            true => is_bad(volume * item.quantity as f32, flaw),
            false => is_bad(volume, flaw),
        })
    })
}

fn is_bad(volume: f32, flaw: Flaw) -> bool {
    match volume {
        _ if volume.is_nan() => !flaw.has(Fault::CauseVolumeNan),
        f32::INFINITY => !flaw.has(Fault::CauseVolumeInfinite),
        f32::NEG_INFINITY => !flaw.has(Fault::CauseVolumeMinusInfinite),
        _ if volume < 0.0 => {
            let is_tiny = volume > -1e-30 && flaw.has(Fault::CauseVolumeTiny);
            !is_tiny && !flaw.has(Fault::CauseVolumeNegative)
        }
        _ if volume == 0.0 => {
            let is_minus = volume.is_sign_negative() && flaw.has(Fault::CauseVolumeMinusZero);
            is_minus || flaw.has(Fault::CauseVolumeZero)
        }
        _ => volume > 1e30 && flaw.has(Fault::CauseVolumeHuge),
    }
}

/// Whether a flaw takes another entry of the list for this one. The id is the first word
/// of rules that have one.
fn is_taken_for(entry: &Entry, other: &Entry, flaw: Flaw) -> bool {
    let id = |entry: &Entry| WITH_ID.contains(&entry[1]).then(|| u32_at(entry, 8));
    let is_rule = entry[1] == other[1];
    let is_sub = entry[2] == other[2];
    let is_target = entry[0] == other[0] && entry[4..8] == other[4..8];
    match () {
        () if id(entry) != id(other) => false,
        () if flaw.has(Fault::CauseAnyTarget) => is_rule && is_sub && entry[0] == other[0],
        () if flaw.has(Fault::CauseAnyResource) => is_rule && entry[1] == RESOURCE,
        () if flaw.has(Fault::CauseAnyRule) => is_sub && is_target,
        () => false,
    }
}

/// What an entry needs of the pairs.
enum Need {
    /// None but the one that it is about.
    Nothing,
    /// More than so many of those that count, each of them so often.
    Over(Vec<u64>, u64),
    /// More drones than there may be.
    Drones(Vec<u64>, f64),
    /// More volume than there is.
    Volume(Vec<f64>, f64),
}

/// One pass over the pairs.
struct Pass<'a> {
    context: &'a Context<'a>,
    target: Option<usize>,
    need: Need,
    /// What a flaw takes for the same entry.
    others: Vec<Pass<'a>>,
    flaw: Flaw,
}

impl<'a> Pass<'a> {
    /// Of an entry of a list.
    fn beside(context: &'a Context, entry: &Entry, entries: &[Entry]) -> Pass<'a> {
        let flaw = context.flaw;
        let others = entries
            .iter()
            .filter(|other| *other != entry && is_taken_for(entry, other, flaw));
        let mut pass = Pass::of(context, entry);
        pass.others = others.map(|other| Pass::of(context, other)).collect();
        pass
    }

    fn of(context: &'a Context, entry: &Entry) -> Pass<'a> {
        let flaw = context.flaw;
        let target = (entry[0] == 1).then(|| {
            let index = u32_at(entry, 4) as usize;
            flaw.number(Number::CauseTarget, index)
        });
        let mut pass = Pass {
            context,
            target,
            need: Need::Nothing,
            others: Vec::new(),
            flaw,
        };
        let sub = match flaw.has(Fault::CauseSubLost) {
            true => 0,
            false => entry[2],
        };
        pass.need = pass.needed(entry[1], sub);
        pass
    }

    fn needed(&self, rule: u8, sub: u8) -> Need {
        match (rule, self.target.and_then(|at| self.context.pairs.get(at))) {
            (RESOURCE, _) if sub == LAUNCHED_DRONES => self.drones(),
            (RESOURCE, _) if sub == CARGO_BAY => self.cargo(),
            (RESOURCE, _) if self.flaw.has(Fault::CauseLoadsFitted) => {
                let fitted: Vec<u64> = self.counted(|pair| pair.is_fitted);
                let all = fitted.iter().sum::<u64>();
                Need::Over(fitted, all.saturating_sub(1))
            }
            (NOT_A_HULL, _) if self.flaw.has(Fault::CauseNoHullAll) => self.all(),
            (NOT_A_SKILL, _) if self.flaw.has(Fault::CauseSkillsAll) => self.all(),
            (SLOTS, _) => self.slots(sub),
            (SLOT_TAKEN, Some(pair)) => self.slot_taken(pair),
            (SUBSYSTEM_TAKEN, Some(pair)) => self.part_taken(pair),
            (MAX_GROUP, Some(pair)) => self.group(pair, sub),
            (MAX_TYPE, Some(pair)) => self.type_of(pair),
            _ => Need::Nothing,
        }
    }

    /// Every pair, which none can be dropped of.
    fn all(&self) -> Need {
        let all = self.counted(|_| true);
        let count = all.len() as u64;
        Need::Over(all, count.saturating_sub(1))
    }

    fn counted(&self, is_counted: impl Fn(&Pair) -> bool) -> Vec<u64> {
        let pairs = self.context.pairs.iter();
        pairs.map(|pair| u64::from(is_counted(pair))).collect()
    }

    /// More than so many, as an attribute says.
    fn over(&self, counted: Vec<u64>, amount: f64) -> Need {
        let limit = match () {
            () if self.flaw.has(Fault::CauseLimitRounded) => to_u32(amount.round()),
            () if self.flaw.has(Fault::CauseLimit1) => to_u32(amount).max(1),
            () => to_u32(amount),
        };
        let limit = self.flaw.number(Number::CauseLimit, limit as usize);
        Need::Over(counted, limit as u64)
    }

    fn slots(&self, slot: u8) -> Need {
        let flaw = self.flaw;
        let id = self.context.id(RACKS + usize::from(slot));
        let amount = id.map_or(0.0, |id| self.context.amount(SHIP, id));
        let is_rack = slot < 6 || flaw.has(Fault::CauseHardpointAsSlot);
        let counted = self.counted(|pair| match is_rack {
            true if flaw.has(Fault::CauseRackFitted) => pair.is_fitted,
            true if flaw.has(Fault::CauseRackMarked) => pair.rack == Some(slot),
            true => pair.item.kind == slot,
            false if flaw.has(Fault::CauseHardpointEither) => {
                pair.is_fitted && pair.hardpoint.is_some()
            }
            false => {
                let is_fitted = pair.is_fitted || flaw.has(Fault::CauseHardpointUnfitted);
                is_fitted && pair.hardpoint == Some(slot - 6)
            }
        });
        self.over(counted, amount)
    }

    fn slot_taken(&self, own: &Pair) -> Need {
        let flaw = self.flaw;
        let counted = self.counted(|pair| {
            let is_kind = pair.item.kind == own.item.kind || flaw.has(Fault::CauseTakenByIndex);
            let is_index = pair.item.index == own.item.index || flaw.has(Fault::CauseTakenByKind);
            let is_other = match flaw.has(Fault::CauseTakenEarlier) {
                true => pair.number < own.number,
                false => pair.number != own.number,
            };
            is_kind && is_index && is_other
        });
        let limit = match flaw.has(Fault::CauseTakenAll) {
            true => counted.iter().sum::<u64>().saturating_sub(1),
            false => 0,
        };
        Need::Over(counted, limit)
    }

    fn part_taken(&self, own: &Pair) -> Need {
        let flaw = self.flaw;
        let id = self.context.id(SUBSYSTEM_SLOT);
        let part = |pair: &Pair| id.and_then(|id| self.context.value(pair.result(), id));
        let Some(own_part) = part(own) else {
            return Need::Nothing;
        };
        let is_same = |other: f64| match () {
            () if flaw.has(Fault::CausePartAny) => true,
            () if flaw.has(Fault::CausePartBits) => other.to_bits() == own_part.to_bits(),
            () if flaw.has(Fault::CausePartTruncated) => other.trunc() == own_part.trunc(),
            () if flaw.has(Fault::CausePartNan) => {
                other == own_part || other.is_nan() || own_part.is_nan()
            }
            () => other == own_part,
        };
        let counted = self.counted(|pair| {
            let is_subsystem = pair.item.kind == SUBSYSTEM || flaw.has(Fault::CausePartAnySlot);
            pair.number != own.number && is_subsystem && part(pair).is_some_and(is_same)
        });
        Need::Over(counted, 0)
    }

    fn group(&self, own: &Pair, limit: u8) -> Need {
        let flaw = self.flaw;
        let id = self.context.id(GROUP_LIMITS + usize::from(limit));
        let holder = match flaw.has(Fault::CauseGroupFirst) {
            true => {
                let mut pairs = self.context.pairs.iter();
                pairs.find(|pair| pair.is_fitted && pair.group == own.group)
            }
            false => None,
        };
        let holder = holder.unwrap_or(own).result();
        let allowed = id.and_then(|id| self.context.value(holder, id));
        let least = match () {
            () if flaw.has(Fault::CauseGroupStates) => 0,
            () if flaw.has(Fault::CauseGroupOwnState) => limit.max(own.state),
            () => limit,
        };
        let counted = self.counted(|pair| {
            let is_fitted = pair.is_fitted || flaw.has(Fault::CauseGroupUnfitted);
            let is_group = pair.group == own.group || flaw.has(Fault::CauseGroupAny);
            let is_in = match flaw.has(Fault::CauseGroupExact) {
                true => pair.state == least,
                false => pair.state >= least,
            };
            let is_own = pair.number == own.number && flaw.has(Fault::CauseGroupTarget);
            is_fitted && is_group && (is_in || is_own)
        });
        self.over(counted, allowed.unwrap_or(0.0))
    }

    fn type_of(&self, own: &Pair) -> Need {
        let flaw = self.flaw;
        let id = self.context.id(MAX_TYPE_FITTED);
        let allowed = id.and_then(|id| self.context.value(own.result(), id));
        let mut counted = self.counted(|pair| {
            let is_type = match flaw.has(Fault::CauseTypeGroup) {
                true => pair.group == own.group,
                false => pair.item.type_id == own.item.type_id,
            };
            let is_fitted = pair.is_fitted || flaw.has(Fault::CauseTypeUnfitted);
            let is_on = pair.state > 0 || !flaw.has(Fault::CauseTypeStates);
            is_type && is_fitted && is_on
        });
        if flaw.has(Fault::CauseTypeQuantity) {
            for (count, pair) in counted.iter_mut().zip(&self.context.pairs) {
                *count *= u64::from(pair.item.quantity);
            }
        }
        self.over(counted, allowed.unwrap_or(0.0))
    }

    fn drones(&self) -> Need {
        let flaw = self.flaw;
        let holder = match flaw.has(Fault::CauseDronesOfShip) {
            true => SHIP,
            false => CHARACTER,
        };
        let id = self.context.id(MAX_ACTIVE_DRONES);
        let available = id.map_or(0.0, |id| self.context.amount(holder, id));
        let drones = self.context.pairs.iter().map(|pair| {
            let is_tube = pair.item.kind == FIGHTER_TUBE && flaw.has(Fault::CauseDronesTubes);
            let is_out = match () {
                () if flaw.has(Fault::CauseDronesStates) => true,
                () if flaw.has(Fault::CauseDronesActiveOnly) => pair.state == ACTIVE,
                () => pair.state >= ACTIVE,
            };
            let quantity = match flaw.has(Fault::CauseDronesStacks) {
                true => 1,
                false => u64::from(pair.item.quantity),
            };
            match (pair.item.kind == DRONE_BAY || is_tube) && is_out {
                true => quantity,
                false => 0,
            }
        });
        Need::Drones(drones.collect(), available)
    }

    fn cargo(&self) -> Need {
        let flaw = self.flaw;
        let id = self.context.id(CAPACITY);
        let available = id.map_or(0.0, |id| self.context.amount(SHIP, id));
        let terms = self.context.pairs.iter().map(|pair| {
            let row = self.context.catalogue.type_of(pair.item.type_id);
            let none = match flaw.has(Fault::CauseCargoUnknown1) {
                true => 1.0,
                false => 0.0,
            };
            let volume = row.and_then(|row| row.volume).unwrap_or(none);
            let quantity = match flaw.has(Fault::CauseCargoUnits) {
                true => 1,
                false => pair.item.quantity,
            };
            match pair.item.kind == CARGO {
                true => f64::from(volume) * f64::from(quantity),
                false => 0.0,
            }
        });
        Need::Volume(terms.collect(), available)
    }

    /// A flag for each pair.
    fn kept(&self) -> Vec<bool> {
        let flaw = self.flaw;
        if flaw.has(Fault::CauseFewest) && self.target.is_none() {
            return self.fewest();
        }
        let count = self.context.pairs.len();
        let mut kept = vec![true; count];
        let whole = kept.clone();
        for number in self.order(flaw.rows(Rows::CausePairs, count)) {
            if self.stays_anyway(number) {
                continue;
            }
            let of = match flaw.has(Fault::CauseEachAlone) {
                true => &whole,
                false => &kept,
            };
            let mut less = of.clone();
            less[number] = false;
            match self.shows(&less) {
                true => kept[number] = false,
                false if flaw.has(Fault::CauseStops) => break,
                false => {}
            }
        }
        kept
    }

    /// Of the fewest pairs that show the entry the earliest.
    fn fewest(&self) -> Vec<bool> {
        let count = self.context.pairs.len();
        let amount = |number: &usize| match &self.need {
            Need::Nothing => 0.0,
            Need::Over(counted, _) | Need::Drones(counted, _) => counted[*number] as f64,
            Need::Volume(terms, _) => terms[*number],
        };
        let mut by_amount: Vec<usize> = (0..count).collect();
        by_amount.sort_by(|a, b| amount(b).partial_cmp(&amount(a)).unwrap_or(Ordering::Equal));
        let with_most = |kept: &[bool], from: usize, more: usize| {
            let mut kept = kept.to_vec();
            let behind = by_amount.iter().filter(|number| **number >= from);
            for number in behind.take(more) {
                kept[*number] = true;
            }
            self.shows(&kept)
        };
        let mut kept = vec![false; count];
        let Some(least) = (0..=count).find(|size| with_most(&kept, 0, *size)) else {
            return vec![true; count];
        };
        let mut more = least;
        for number in 0..count {
            if more == 0 {
                break;
            }
            kept[number] = true;
            match with_most(&kept, number + 1, more - 1) {
                true => more -= 1,
                false => kept[number] = false,
            }
        }
        kept
    }

    /// The pairs in the order in which they are tried.
    fn order(&self, count: usize) -> Vec<usize> {
        let mut order: Vec<usize> = (0..count).rev().collect();
        let flaw = self.flaw;
        match () {
            () if flaw.has(Fault::CauseFromFirst) => order.reverse(),
            () if flaw.has(Fault::CauseLargestFirst) => {
                order.sort_by_key(|number| Reverse(self.weight(*number)));
            }
            () if flaw.has(Fault::CauseSmallestFirst) => {
                order.sort_by_key(|number| self.weight(*number));
            }
            () => {}
        }
        order
    }

    /// How much a pair counts for.
    fn weight(&self, number: usize) -> u64 {
        match &self.need {
            Need::Nothing => 0,
            Need::Over(counted, _) | Need::Drones(counted, _) => counted[number],
            Need::Volume(terms, _) => terms[number].to_bits(),
        }
    }

    /// Whether a pair is not tried.
    fn stays_anyway(&self, number: usize) -> bool {
        let flaw = self.flaw;
        let is_target = self.target == Some(number);
        if flaw.has(Fault::CauseTargetAlone) && self.target.is_some() {
            return is_target;
        }
        (is_target && self.others.is_empty() && !flaw.has(Fault::CauseTargetDropped))
            || (self.target.is_some_and(|target| number < target)
                && flaw.has(Fault::CauseTargetBefore))
            || (number == 0 && flaw.has(Fault::CauseFirstKept))
            || (number + 1 == self.context.pairs.len() && flaw.has(Fault::CauseLastKept))
            || (self.weight(number) == 0 && flaw.has(Fault::CauseOthersKept))
            || (self.weight(number) != 0 && flaw.has(Fault::CauseMembersKept))
            || flaw.has(Fault::CauseAll)
    }

    /// Whether the entry stays with these pairs.
    fn shows(&self, kept: &[bool]) -> bool {
        let is_about = |pass: &Pass| pass.target.is_none_or(|target| kept[target]);
        match self.others.is_empty() {
            true => self.shows_itself(kept),
            false => iter::once(self)
                .chain(&self.others)
                .any(|pass| is_about(pass) && pass.shows_itself(kept)),
        }
    }

    fn shows_itself(&self, kept: &[bool]) -> bool {
        let flaw = self.flaw;
        let is_alone = flaw.has(Fault::CauseTargetAlone) && self.target.is_some();
        match &self.need {
            Need::Nothing => true,
            Need::Over(..) if is_alone => true,
            Need::Over(counted, limit) => {
                let lone = match flaw.has(Fault::CauseSurplusCounted) {
                    true => self.context.fit.items() - self.context.fit.pairs(),
                    false => 0,
                };
                let count = total(counted, kept) + lone as u64;
                match () {
                    () if flaw.has(Fault::CauseOneMore) => count > limit + 1,
                    () if flaw.has(Fault::CauseOneLess) => count >= *limit,
                    () => count > *limit,
                }
            }
            Need::Drones(drones, available) => {
                let total = total(drones, kept);
                let total = flaw.number(Number::CauseDrones, total as usize) as u64;
                let used = match () {
                    () if flaw.has(Fault::CauseDronesStop) => total.min(4_294_967_295) as f64,
                    () if flaw.has(Fault::CauseDronesSingle) => f64::from(total as f32),
                    () => total as f64,
                };
                self.is_over(used, *available)
            }
            Need::Volume(terms, available) => self.is_over(self.volume(terms, kept), *available),
        }
    }

    /// The sum of the volumes that are kept, in their order.
    fn volume(&self, terms: &[f64], kept: &[bool]) -> f64 {
        let flaw = self.flaw;
        let mut taken: Vec<(f64, bool)> = terms.iter().copied().zip(kept.iter().copied()).collect();
        if flaw.has(Fault::CauseCargoTaken) {
            let all: f64 = terms.iter().sum();
            let left = taken.iter().filter(|(_, is_kept)| !is_kept);
            return left.fold(all, |sum, (term, _)| sum - term);
        }
        if flaw.has(Fault::CauseCargoBackwards) {
            taken.reverse();
        }
        let kept = taken.into_iter().filter(|(_, is_kept)| *is_kept);
        kept.fold(0.0, |sum, (term, _)| {
            match flaw.has(Fault::CauseCargoSingle) {
                true => f64::from((sum + term) as f32),
                false => sum + term,
            }
        })
    }

    fn is_over(&self, used: f64, available: f64) -> bool {
        let flaw = self.flaw;
        match () {
            () if flaw.has(Fault::CauseSumNoSlack) => used > available,
            () if flaw.has(Fault::CauseSumAtLimit) => used >= available,
            () => over(used, available, flaw),
        }
    }
}

fn total(counted: &[u64], kept: &[bool]) -> u64 {
    let kept = counted.iter().zip(kept).filter(|(_, is_kept)| **is_kept);
    kept.map(|(count, _)| count).sum()
}
