//! Loads, launched drones and cargo.

use super::Flaw;
use super::context::Context;
use super::entry::Entries;
use super::fault::Fault;
use super::fit::{CARGO, DRONE_BAY, FIGHTER_TUBE};

const SHIP: usize = 0;
const CHARACTER: usize = 1;

const ONLINE: u8 = 1;
const ACTIVE: u8 = 2;

const MAX_ACTIVE_DRONES: usize = 20;
const CAPACITY: usize = 21;

/// The most that 32 bits hold.
const TOP: u64 = 4_294_967_295;

const LAUNCHED_DRONES: u8 = 5;
const CARGO_BAY: u8 = 11;

/// The resource of each row of LOADS; names 2i and 2i + 1 are its load and
/// its output.
const LOADS: [u8; 10] = [0, 1, 2, 3, 4, 6, 7, 8, 9, 10];

/// 1e-9, to the bit.
const SLACK: u64 = 0x3E11_2E0B_E826_D695;

pub fn validate(context: &Context, entries: &mut Entries) {
    let flaw = context.flaw;
    let holder = if flaw.has(Fault::LoadOfCharacter) {
        CHARACTER
    } else {
        SHIP
    };
    for (row, resource) in LOADS.into_iter().enumerate() {
        let amount = |name: usize| match context.id(name) {
            Some(id) => Some(context.amount(holder, id)),
            None => flaw.has(Fault::LoadNamelessIsZero).then_some(0.0),
        };
        let (Some(used), Some(available)) = (amount(2 * row), amount(2 * row + 1)) else {
            continue;
        };
        if over(used, available, flaw) {
            let number = if flaw.has(Fault::ResourceByRow) {
                row as u8
            } else {
                resource
            };
            entries.add_resource(number, used, available);
        }
    }

    if flaw.has(Fault::CargoBeforeDrones) {
        cargo(context, entries);
        launched_drones(context, entries);
    } else {
        launched_drones(context, entries);
        cargo(context, entries);
    }
}

pub fn over(used: f64, available: f64, flaw: Flaw) -> bool {
    let slack = f64::from_bits(SLACK);
    let limit = match () {
        () if flaw.has(Fault::OverNoSlack) => available,
        () if flaw.has(Fault::OverAbsolute) => available + slack,
        () if flaw.has(Fault::OverSigned) => available + available * slack,
        () if flaw.has(Fault::OverFused) => available.abs().mul_add(slack, available),
        () if flaw.has(Fault::OverSinglePrecision) => {
            available + available.abs() * f64::from(1e-9_f32)
        }
        () => available + available.abs() * slack,
    };
    used > limit
        || (used == limit && flaw.has(Fault::OverOrEqual))
        || ((used.is_nan() || limit.is_nan()) && flaw.has(Fault::OverNan))
}

/// The drones in space, by every pair at state Active or above.
pub fn drone_total(context: &Context) -> u64 {
    let flaw = context.flaw;
    let least = if flaw.has(Fault::DronesOnline) {
        ONLINE
    } else {
        ACTIVE
    };
    let launched = context
        .pairs
        .iter()
        .filter(|pair| {
            pair.item.kind == DRONE_BAY
                || (pair.item.kind == FIGHTER_TUBE && flaw.has(Fault::DronesInTubes))
                || (pair.item.kind == CARGO && flaw.has(Fault::CargoLaunched))
        })
        .filter(|pair| pair.state >= least || flaw.has(Fault::DronesAnyState))
        .filter(|pair| pair.state <= ACTIVE || !flaw.has(Fault::DronesActiveOnly))
        .map(|pair| match flaw.has(Fault::DronesStacks) {
            true => 1,
            false => u64::from(pair.item.quantity),
        });
    let unpaired = (context.fit.pairs()..context.fit.items())
        .filter(|_| flaw.has(Fault::DronesUnpaired))
        .map(|number| context.fit.item(number))
        .filter(|item| item.kind == DRONE_BAY)
        .map(|item| u64::from(item.quantity));
    launched.chain(unpaired).sum()
}

/// Whether a rule counts drones that 32 bits do not hold.
pub fn is_hangar(context: &Context) -> bool {
    context.id(MAX_ACTIVE_DRONES).is_some() && drone_total(context) > TOP
}

/// The total as a number to compare.
fn drones_used(total: u64, flaw: Flaw) -> f64 {
    match () {
        () if flaw.has(Fault::DroneTotalWraps) => (total % (TOP + 1)) as f64,
        () if flaw.has(Fault::DroneTotalStops) => total.min(TOP) as f64,
        () if flaw.has(Fault::DroneTotalSigned) => f64::from(total as i32),
        () if flaw.has(Fault::DroneTotalSinglePrecision) => f64::from(total as f32),
        () => total as f64,
    }
}

fn launched_drones(context: &Context, entries: &mut Entries) {
    let Some(id) = context.id(MAX_ACTIVE_DRONES) else {
        return;
    };
    let holder = match context.flaw.has(Fault::DronesOfShip) {
        true => SHIP,
        false => CHARACTER,
    };
    let total = drone_total(context);
    let used = drones_used(total, context.flaw);
    let available = context.amount(holder, id);
    let is_passed_over = total > TOP && context.flaw.has(Fault::HangarPassedOver);
    if over(used, available, context.flaw) && !is_passed_over {
        entries.add_resource(LAUNCHED_DRONES, used, available);
    }
}

fn cargo(context: &Context, entries: &mut Entries) {
    let flaw = context.flaw;
    let Some(id) = context.id(CAPACITY) else {
        return;
    };

    let mut items: Vec<_> = context.pairs.iter().map(|pair| pair.item).collect();
    if flaw.has(Fault::CargoUnpaired) {
        items.extend((context.fit.pairs()..context.fit.items()).map(|n| context.fit.item(n)));
    }
    if flaw.has(Fault::CargoBackwards) {
        items.reverse();
    }
    let mut used = 0.0;
    for item in items.iter().filter(|item| item.kind == CARGO) {
        let row = context.catalogue.type_of(item.type_id);
        let none = match row {
            None if flaw.has(Fault::MissingVolume1) => 1.0,
            _ if flaw.has(Fault::CargoNoVolume) => 1.0,
            _ => 0.0,
        };
        let mut volume = row.and_then(|row| row.volume).unwrap_or(none);
        if volume.is_nan() && flaw.has(Fault::CargoNanFree) {
            volume = 0.0;
        }
        if flaw.has(Fault::CargoLastAlone) {
            used = 0.0;
        }
        let quantity = if flaw.has(Fault::CargoUnits) {
            1
        } else {
            item.quantity
        };
        used = match flaw.has(Fault::CargoFused) {
            true => f64::from(volume).mul_add(f64::from(quantity), used),
            false => used + f64::from(volume) * f64::from(quantity),
        };
        if flaw.has(Fault::CargoSinglePrecision) {
            used = f64::from(used as f32);
        }
    }

    let available = context.amount(SHIP, id);
    if over(used, available, flaw) {
        let count = match flaw.has(Fault::CargoEach) {
            true => items.iter().filter(|item| item.kind == CARGO).count(),
            false => 1,
        };
        for _ in 0..count {
            entries.add_resource(CARGO_BAY, used, available);
        }
    }
}
