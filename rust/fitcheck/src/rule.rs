//! What an entry says: the rule that is broken, and what breaks it.
//!
//! Names, fields and order are those of the original's `validate/mod.rs`.

use crate::numbered::numbered;

/// What an entry is about.
#[non_exhaustive]
#[derive(Debug, Clone, Copy, PartialEq, Eq)]
pub enum Target {
    /// The ship, for what it carries as a whole.
    Ship,
    /// An item of the fit.
    Item {
        /// The item's place in the fit, from 0.
        index: usize,
    },
    /// A target that this crate does not know.
    Unknown {
        /// The entry's first byte.
        target: u8,
        /// The index behind it.
        index: u32,
    },
}

/// A rule of EVE's, and the values that failed it.
#[non_exhaustive]
#[derive(Debug, Clone, Copy, PartialEq)]
pub enum Rule {
    /// More of a fitting resource used than the ship has.
    Resource {
        /// Which resource ran out.
        resource: Resource,
        /// How much is used.
        used: f64,
        /// How much there is.
        available: f64,
    },
    /// More items in a rack than the ship has slots.
    Slots {
        /// Which rack is full.
        slot: SlotKind,
        /// How many items are in it.
        used: u32,
        /// How many fit.
        available: u32,
    },
    /// The item belongs in another kind of slot.
    WrongSlot {
        /// The rack the item asks for.
        expected: SlotKind,
    },
    /// Something other than a module in a slot of the ship.
    NotAModule,
    /// Something other than a drone in the drone bay.
    NotADrone,
    /// Something other than a fighter in a fighter tube or the fighter bay.
    NotAFighter,
    /// Something other than an implant or booster in an implant or booster slot.
    NotAnImplant,
    /// Another item of the fit is in this slot too.
    SlotTaken,
    /// An implant or booster in a slot other than the one it occupies.
    WrongSlotIndex {
        /// The slot the item belongs in.
        expected: u16,
    },
    /// Another subsystem covers the same part of the ship.
    SubsystemTaken,
    /// A skill the character is missing, or has not trained far enough.
    Skill {
        /// The type id of the skill.
        type_id: i32,
        /// The level the item asks for.
        required: u8,
        /// The level the character has; 0 when untrained.
        level: u8,
    },
    /// A rig of another size than the ship takes. The sizes are compared
    /// before they are cut to whole numbers, so both may show the same.
    RigSize {
        /// The size the ship takes.
        ship: u8,
        /// The size of the rig.
        item: u8,
    },
    /// The item cannot go on this ship at all.
    ShipRestricted,
    /// A capital item on a ship that is not a capital.
    CapitalItem,
    /// A structure module on something that is not a structure.
    StructureItem,
    /// A module of a ship on a structure.
    ShipItem,
    /// More of a group than the ship may hold in that state.
    MaxGroup {
        /// The group the limit is on.
        group_id: i32,
        /// The state the limit counts.
        limit: GroupLimit,
        /// How many are in that state.
        used: u32,
        /// How many may be.
        allowed: u32,
    },
    /// More of one type fitted than allowed.
    MaxType {
        /// The type the limit is on.
        type_id: i32,
        /// How many are fitted.
        used: u32,
        /// How many may be.
        allowed: u32,
    },
    /// The hull is not a ship, structure or container.
    NotAHull,
    /// The mode is not a tactical mode.
    NotAMode,
    /// A type among the character's skills that is not a skill.
    NotASkill {
        /// The type id given as skill.
        type_id: i32,
    },
    /// Of a group that the league bans.
    Banned {
        /// The group that is banned.
        group_id: i32,
    },
    /// The fitted items cost more points than the league allows.
    Points {
        /// What they cost together.
        used: u32,
        /// How many points are allowed.
        allowed: u32,
    },
    /// Of a type that the catalogue does not have: a patch removed it from the
    /// game, or the catalogue is older than the type.
    UnknownType {
        /// The type that is missing.
        type_id: i32,
    },
    /// A rule that this crate does not know, or one whose fields are not as
    /// document 01 says. The library gives no such entry.
    Unknown {
        /// The rule's number.
        rule: u8,
        /// The resource, slot or limit.
        sub: u8,
        /// The byte that is 0 in every known rule.
        zero: u8,
        /// The payload.
        words: [u32; 4],
    },
}

impl Rule {
    /// The documents' number: 1 for `Resource` to 21 for `NotASkill`, then 24 for
    /// `Banned`, 25 for `Points` and 26 for `UnknownType`.
    pub fn number(&self) -> u8 {
        match self {
            Rule::Resource { .. } => 1,
            Rule::Slots { .. } => 2,
            Rule::WrongSlot { .. } => 3,
            Rule::NotAModule => 4,
            Rule::NotADrone => 5,
            Rule::NotAFighter => 6,
            Rule::NotAnImplant => 7,
            Rule::SlotTaken => 8,
            Rule::WrongSlotIndex { .. } => 9,
            Rule::SubsystemTaken => 10,
            Rule::Skill { .. } => 11,
            Rule::RigSize { .. } => 12,
            Rule::ShipRestricted => 13,
            Rule::CapitalItem => 14,
            Rule::StructureItem => 15,
            Rule::ShipItem => 16,
            Rule::MaxGroup { .. } => 17,
            Rule::MaxType { .. } => 18,
            Rule::NotAHull => 19,
            Rule::NotAMode => 20,
            Rule::NotASkill { .. } => 21,
            Rule::Banned { .. } => 24,
            Rule::Points { .. } => 25,
            Rule::UnknownType { .. } => 26,
            Rule::Unknown { rule, .. } => *rule,
        }
    }

    /// The name in snake case, as the original writes it in JSON.
    pub fn name(&self) -> &'static str {
        match self {
            Rule::Resource { .. } => "resource",
            Rule::Slots { .. } => "slots",
            Rule::WrongSlot { .. } => "wrong_slot",
            Rule::NotAModule => "not_a_module",
            Rule::NotADrone => "not_a_drone",
            Rule::NotAFighter => "not_a_fighter",
            Rule::NotAnImplant => "not_an_implant",
            Rule::SlotTaken => "slot_taken",
            Rule::WrongSlotIndex { .. } => "wrong_slot_index",
            Rule::SubsystemTaken => "subsystem_taken",
            Rule::Skill { .. } => "skill",
            Rule::RigSize { .. } => "rig_size",
            Rule::ShipRestricted => "ship_restricted",
            Rule::CapitalItem => "capital_item",
            Rule::StructureItem => "structure_item",
            Rule::ShipItem => "ship_item",
            Rule::MaxGroup { .. } => "max_group",
            Rule::MaxType { .. } => "max_type",
            Rule::NotAHull => "not_a_hull",
            Rule::NotAMode => "not_a_mode",
            Rule::NotASkill { .. } => "not_a_skill",
            Rule::Banned { .. } => "banned",
            Rule::Points { .. } => "points",
            Rule::UnknownType { .. } => "unknown_type",
            Rule::Unknown { .. } => "unknown",
        }
    }
}

numbered! {
    /// A resource the ship only has so much of.
    Resource {
        /// CPU.
        Cpu = "cpu",
        /// Powergrid.
        Powergrid = "powergrid",
        /// Calibration, which the rigs take up.
        Calibration = "calibration",
        /// Room in the drone bay.
        DroneBay = "drone_bay",
        /// Bandwidth for the drones in space.
        DroneBandwidth = "drone_bandwidth",
        /// Drones in space at once.
        LaunchedDrones = "launched_drones",
        /// Room in the fighter bay.
        FighterBay = "fighter_bay",
        /// Fighter tubes.
        FighterTubes = "fighter_tubes",
        /// Tubes that take a light squadron.
        LightFighterTubes = "light_fighter_tubes",
        /// Tubes that take a support squadron.
        SupportFighterTubes = "support_fighter_tubes",
        /// Tubes that take a heavy squadron.
        HeavyFighterTubes = "heavy_fighter_tubes",
        /// Room in the cargo hold.
        CargoBay = "cargo_bay",
        /// Room in the module for the charge it holds; no entry has it, as
        /// charges are not checked.
        ChargeCapacity = "charge_capacity",
    }
}

numbered! {
    /// A rack of slots, or a hardpoint a weapon needs.
    SlotKind {
        /// A high slot.
        High = "high",
        /// A medium slot.
        Medium = "medium",
        /// A low slot.
        Low = "low",
        /// A rig slot.
        Rig = "rig",
        /// A subsystem slot.
        Subsystem = "subsystem",
        /// A service slot, on a structure.
        Service = "service",
        /// A turret hardpoint.
        Turret = "turret",
        /// A launcher hardpoint.
        Launcher = "launcher",
    }
}

numbered! {
    /// Which state a group limit counts.
    GroupLimit {
        /// Fitted at all.
        Fitted = "fitted",
        /// Online or higher.
        Online = "online",
        /// Active or higher.
        Active = "active",
    }
}
