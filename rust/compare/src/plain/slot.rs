//! Racks, hardpoints, and eight checks per pair.

use super::Number;
use super::bytes::{to_u8, to_u16, to_u32};
use super::context::{Context, Pair};
use super::entry::{Entries, Target};
use super::fault::Fault;
use super::fit::{BOOSTER, CARGO, DRONE_BAY, FIGHTER_BAY, FIGHTER_TUBE, IMPLANT, Item, SUBSYSTEM};

const RACKS: usize = 22;
const HARDPOINTS: usize = 28;
const IMPLANTNESS: usize = 30;
const BOOSTERNESS: usize = 31;
const SUBSYSTEM_SLOT: usize = 32;

const CATEGORY_MODULE: i32 = 7;
const CATEGORY_DRONE: i32 = 18;
const CATEGORY_IMPLANT: i32 = 20;
const CATEGORY_SUBSYSTEM: i32 = 32;
const CATEGORY_STRUCTURE_MODULE: i32 = 66;
const CATEGORY_FIGHTER: i32 = 87;

const CHECKS: [fn(&Context, &Pair, &mut Entries); 8] = [
    wrong_slot,
    not_a_module,
    not_a_drone,
    not_a_fighter,
    not_an_implant,
    slot_taken,
    wrong_slot_index,
    subsystem_taken,
];

pub fn validate(context: &Context, entries: &mut Entries) {
    let racks = |entries: &mut Entries| {
        for rack in 0..6 {
            let used = context
                .pairs
                .iter()
                .filter(|pair| {
                    let is_cargo = pair.item.kind == CARGO && rack == 0;
                    pair.item.kind == rack || (is_cargo && context.flaw.has(Fault::CargoInRack))
                })
                .count();
            slots(context, entries, rack, RACKS + usize::from(rack), used);
        }
    };
    let hardpoints = |entries: &mut Entries| {
        for hardpoint in 0..2 {
            let used = context
                .pairs
                .iter()
                .filter(|pair| pair.is_fitted || context.flaw.has(Fault::HardpointsUnfitted))
                .filter(|pair| pair.hardpoint == Some(hardpoint))
                .count();
            let name = HARDPOINTS + usize::from(hardpoint);
            slots(context, entries, 6 + hardpoint, name, used);
        }
    };
    if context.flaw.has(Fault::HardpointsFirst) {
        hardpoints(entries);
        racks(entries);
    } else {
        racks(entries);
        hardpoints(entries);
    }

    let mut checks = CHECKS;
    if context.flaw.has(Fault::IndexBeforeTaken) {
        checks.swap(5, 6);
    }
    if context.flaw.has(Fault::ChecksByRule) {
        for check in checks {
            for pair in &context.pairs {
                check(context, pair, entries);
            }
        }
    } else {
        for pair in &context.pairs {
            for check in checks {
                check(context, pair, entries);
            }
        }
    }
}

fn slots(context: &Context, entries: &mut Entries, slot: u8, name: usize, used: usize) {
    let flaw = context.flaw;
    let Some(id) = context.id(name) else {
        return;
    };
    let Some(amount) = context
        .value(0, id)
        .or((!flaw.has(Fault::SlotsMissing)).then_some(context.missing_amount()))
    else {
        return;
    };
    let available = match () {
        () if flaw.has(Fault::SlotsRounded) => to_u32(amount.round()),
        () if flaw.has(Fault::SlotsWrap) && amount < 0.0 => amount as i64 as u32,
        () if flaw.has(Fault::SlotsU8) => to_u8(amount).into(),
        () => flaw.amount(Number::SlotsAmount, amount, to_u32(amount)),
    };
    let used = flaw.number(Number::SlotsUsed, used) as u32;
    if used > available || (used == available && flaw.has(Fault::SlotsAtLimit)) {
        entries.add(Target::Ship, 2, slot, &[used, available]);
    }
}

fn wrong_slot(context: &Context, pair: &Pair, entries: &mut Entries) {
    let flaw = context.flaw;
    let Some(rack) = pair.rack else {
        return;
    };
    if (pair.is_fitted || flaw.has(Fault::WrongSlotUnfitted)) && rack != pair.item.kind {
        match flaw.has(Fault::WrongSlotPayload) {
            true => entries.add(pair.target(), 3, rack, &[rack.into()]),
            false => entries.add(pair.target(), 3, rack, &[]),
        }
    }
}

fn not_a_module(context: &Context, pair: &Pair, entries: &mut Entries) {
    let flaw = context.flaw;
    let is_module = match pair.category {
        CATEGORY_MODULE => true,
        CATEGORY_SUBSYSTEM => !flaw.has(Fault::ModuleNoSubsystem),
        CATEGORY_STRUCTURE_MODULE => !flaw.has(Fault::ModuleNoStructure),
        _ => false,
    };
    if pair.is_fitted && !is_module {
        entries.add(pair.target(), 4, 0, &[]);
    }
}

fn not_a_drone(context: &Context, pair: &Pair, entries: &mut Entries) {
    let is_drone = pair.category == CATEGORY_DRONE && !context.flaw.has(Fault::DroneByMark);
    if pair.item.kind == DRONE_BAY && !is_drone {
        entries.add(pair.target(), 5, 0, &[]);
    }
}

fn not_a_fighter(context: &Context, pair: &Pair, entries: &mut Entries) {
    let is_asked = pair.item.kind == FIGHTER_TUBE
        || (pair.item.kind == FIGHTER_BAY && !context.flaw.has(Fault::FighterTubesOnly));
    if is_asked && pair.category != CATEGORY_FIGHTER {
        entries.add(pair.target(), 6, 0, &[]);
    }
}

fn not_an_implant(context: &Context, pair: &Pair, entries: &mut Entries) {
    let is_asked = pair.item.kind == IMPLANT
        || (pair.item.kind == BOOSTER && !context.flaw.has(Fault::ImplantNoBooster));
    if is_asked && pair.category != CATEGORY_IMPLANT {
        entries.add(pair.target(), 7, 0, &[]);
    }
}

fn slot_taken(context: &Context, pair: &Pair, entries: &mut Entries) {
    let flaw = context.flaw;
    let item = pair.item;
    let shared = match item.kind {
        CARGO if flaw.has(Fault::TakenInCargo) => false,
        DRONE_BAY | FIGHTER_BAY | CARGO => !flaw.has(Fault::TakenInBays),
        FIGHTER_TUBE => flaw.has(Fault::TakenTubesShared),
        _ => false,
    };
    if shared {
        return;
    }
    let same = |other: Item| {
        other.kind == item.kind && (other.index == item.index || flaw.has(Fault::TakenByKind))
    };
    let by_pair = context.pairs.iter().any(|other| {
        same(other.item)
            && match flaw.has(Fault::TakenLaterOnly) {
                true => other.number < pair.number,
                false => other.number != pair.number,
            }
    });
    let by_unpaired = flaw.has(Fault::TakenUnpaired)
        && (context.fit.pairs()..context.fit.items()).any(|n| same(context.fit.item(n)));
    if by_pair || by_unpaired {
        entries.add(pair.target(), 8, 0, &[]);
    }
}

fn wrong_slot_index(context: &Context, pair: &Pair, entries: &mut Entries) {
    let flaw = context.flaw;
    let name = match pair.item.kind {
        IMPLANT => IMPLANTNESS,
        BOOSTER if flaw.has(Fault::BoosterImplantness) => IMPLANTNESS,
        BOOSTER => BOOSTERNESS,
        _ => return,
    };
    let Some(id) = context.id(name) else {
        return;
    };
    let value = match context.value(pair.result(), id) {
        Some(value) => value,
        None if flaw.has(Fault::IndexMissingIsZero) => 0.0,
        None => return,
    };
    let expected = match () {
        () if flaw.has(Fault::IndexU8) => to_u8(value).into(),
        () if flaw.has(Fault::IndexWraps) => value as u64 as u16,
        () => to_u16(value),
    };
    if expected != pair.item.index {
        entries.add(pair.target(), 9, 0, &[expected.into()]);
    }
}

fn subsystem_taken(context: &Context, pair: &Pair, entries: &mut Entries) {
    let flaw = context.flaw;
    if pair.item.kind != SUBSYSTEM {
        return;
    }
    let Some(id) = context.id(SUBSYSTEM_SLOT) else {
        return;
    };
    let part_of = |result: usize| {
        let missing = flaw.has(Fault::PartMissingIsZero).then_some(0.0);
        context.value(result, id).or(missing)
    };
    let Some(part) = part_of(pair.result()) else {
        return;
    };
    let same = |other: f64| match () {
        () if flaw.has(Fault::PartBits) => other.to_bits() == part.to_bits(),
        () if flaw.has(Fault::PartTruncated) => other.trunc() == part.trunc(),
        () if flaw.has(Fault::PartNanEqual) => other == part || (other.is_nan() && part.is_nan()),
        () => other == part,
    };
    let taken = context.pairs.iter().any(|other| {
        other.number != pair.number
            && (other.item.kind == SUBSYSTEM || flaw.has(Fault::PartAnySlot))
            && part_of(other.result()).is_some_and(same)
    });
    if taken {
        entries.add(pair.target(), 10, 0, &[]);
    }
}
