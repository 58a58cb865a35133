//! The names of document 01's numbers.

pub const RULES: [&str; 27] = [
    "no rule",
    "Resource",
    "Slots",
    "WrongSlot",
    "NotAModule",
    "NotADrone",
    "NotAFighter",
    "NotAnImplant",
    "SlotTaken",
    "WrongSlotIndex",
    "SubsystemTaken",
    "Skill",
    "RigSize",
    "ShipRestricted",
    "CapitalItem",
    "StructureItem",
    "ShipItem",
    "MaxGroup",
    "MaxType",
    "NotAHull",
    "NotAMode",
    "NotASkill",
    "ChargeGroup",
    "ChargeSize",
    "Banned",
    "Points",
    "UnknownType",
];

pub const RESOURCES: [&str; 13] = [
    "Cpu",
    "Powergrid",
    "Calibration",
    "DroneBay",
    "DroneBandwidth",
    "LaunchedDrones",
    "FighterBay",
    "FighterTubes",
    "LightFighterTubes",
    "SupportFighterTubes",
    "HeavyFighterTubes",
    "CargoBay",
    "ChargeCapacity",
];

pub const RACKS: [&str; 8] = [
    "High",
    "Medium",
    "Low",
    "Rig",
    "Subsystem",
    "Service",
    "Turret",
    "Launcher",
];

pub const KINDS: [&str; 12] = [
    "High",
    "Medium",
    "Low",
    "Rig",
    "Subsystem",
    "Service",
    "FighterTube",
    "FighterBay",
    "Implant",
    "Booster",
    "DroneBay",
    "Cargo",
];

pub const STATES: [&str; 4] = ["Offline", "Online", "Active", "Overload"];

pub const LIMITS: [&str; 3] = ["Fitted", "Online", "Active"];

/// The name of a number, or the number where it has none.
pub fn named(table: &[&str], number: u8) -> String {
    match table.get(usize::from(number)) {
        Some(name) => (*name).to_string(),
        None => format!("number {number}"),
    }
}
