//! Document 01's entry: 24 bytes for each violation of the original.

use original::{GroupLimit, Resource, Rule, SlotKind, Target, Violation};

use crate::checker::Entry;

/// The parts of an entry behind its target.
struct Body {
    rule: u8,
    sub: u8,
    payload: [u8; 16],
}

/// One violation in 24 bytes.
pub fn entry(violation: &Violation) -> Entry {
    let (target, index) = match violation.target {
        Target::Ship => (0, 0),
        Target::Item { index } => (1, index as u32),
        Target::Charge { .. } => unreachable!("no charge is handed to the original"),
    };
    let body = body(&violation.rule);
    let mut bytes = [0; 24];
    bytes[..4].copy_from_slice(&[target, body.rule, body.sub, 0]);
    bytes[4..8].copy_from_slice(&index.to_le_bytes());
    bytes[8..].copy_from_slice(&body.payload);
    bytes
}

/// Writes another `used` into a Resource entry.
pub fn set_used(entry: &mut Entry, used: f64) {
    entry[8..16].copy_from_slice(&used.to_bits().to_le_bytes());
}

fn body(rule: &Rule) -> Body {
    match *rule {
        Rule::Resource {
            resource,
            used,
            available,
        } => {
            let mut payload = [0; 16];
            payload[..8].copy_from_slice(&used.to_bits().to_le_bytes());
            payload[8..].copy_from_slice(&available.to_bits().to_le_bytes());
            Body {
                rule: 1,
                sub: resource_number(resource),
                payload,
            }
        }
        Rule::Slots {
            slot,
            used,
            available,
        } => with_sub(2, slot_number(slot), &[used, available]),
        Rule::WrongSlot { expected } => with_sub(3, slot_number(expected), &[]),
        Rule::NotAModule => words(4, &[]),
        Rule::NotADrone => words(5, &[]),
        Rule::NotAFighter => words(6, &[]),
        Rule::NotAnImplant => words(7, &[]),
        Rule::SlotTaken => words(8, &[]),
        Rule::WrongSlotIndex { expected } => words(9, &[expected.into()]),
        Rule::SubsystemTaken => words(10, &[]),
        Rule::Skill {
            type_id,
            required,
            level,
        } => words(11, &[type_id as u32, required.into(), level.into()]),
        Rule::RigSize { ship, item } => words(12, &[ship.into(), item.into()]),
        Rule::ShipRestricted => words(13, &[]),
        Rule::CapitalItem => words(14, &[]),
        Rule::StructureItem => words(15, &[]),
        Rule::ShipItem => words(16, &[]),
        Rule::MaxGroup {
            group_id,
            limit,
            used,
            allowed,
        } => with_sub(17, limit_number(limit), &[group_id as u32, used, allowed]),
        Rule::MaxType {
            type_id,
            used,
            allowed,
        } => words(18, &[type_id as u32, used, allowed]),
        Rule::NotAHull => words(19, &[]),
        Rule::NotAMode => words(20, &[]),
        Rule::NotASkill { type_id } => words(21, &[type_id as u32]),
        ref other => unreachable!("{other:?}: no charge is handed to the original"),
    }
}

fn words(rule: u8, words: &[u32]) -> Body {
    with_sub(rule, 0, words)
}

fn with_sub(rule: u8, sub: u8, words: &[u32]) -> Body {
    let mut payload = [0; 16];
    for (place, word) in payload.chunks_exact_mut(4).zip(words) {
        place.copy_from_slice(&word.to_le_bytes());
    }
    Body { rule, sub, payload }
}

fn resource_number(resource: Resource) -> u8 {
    match resource {
        Resource::Cpu => 0,
        Resource::Powergrid => 1,
        Resource::Calibration => 2,
        Resource::DroneBay => 3,
        Resource::DroneBandwidth => 4,
        Resource::LaunchedDrones => 5,
        Resource::FighterBay => 6,
        Resource::FighterTubes => 7,
        Resource::LightFighterTubes => 8,
        Resource::SupportFighterTubes => 9,
        Resource::HeavyFighterTubes => 10,
        Resource::CargoBay => 11,
        Resource::ChargeCapacity => 12,
    }
}

fn slot_number(slot: SlotKind) -> u8 {
    match slot {
        SlotKind::High => 0,
        SlotKind::Medium => 1,
        SlotKind::Low => 2,
        SlotKind::Rig => 3,
        SlotKind::Subsystem => 4,
        SlotKind::Service => 5,
        SlotKind::Turret => 6,
        SlotKind::Launcher => 7,
    }
}

fn limit_number(limit: GroupLimit) -> u8 {
    match limit {
        GroupLimit::Fitted => 0,
        GroupLimit::Online => 1,
        GroupLimit::Active => 2,
    }
}
