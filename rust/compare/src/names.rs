//! The 88 attribute names by document 01's numbers, and the effect names by mark.

/// How many names there are.
pub const COUNT: usize = 88;

/// Load then output, row by row of `LOADS`.
pub const LOADS: usize = 0;
pub const MAX_ACTIVE_DRONES: usize = 20;
pub const CAPACITY: usize = 21;
pub const RACKS: usize = 22;
pub const HARDPOINTS: usize = 28;
pub const IMPLANTNESS: usize = 30;
pub const BOOSTERNESS: usize = 31;
pub const SUBSYSTEM_SLOT: usize = 32;
pub const RIG_SIZE: usize = 33;
pub const SHIP_TYPES: usize = 34;
pub const SHIP_GROUPS: usize = 47;
pub const VOLUME: usize = 67;
pub const IS_CAPITAL_SIZE: usize = 68;
pub const STANDUP_FIGHTERS: usize = 69;
pub const GROUP_LIMITS: usize = 72;
pub const MAX_TYPE_FITTED: usize = 75;
/// Skill then level, row by row of `REQUIRED`.
pub const REQUIRED: usize = 76;

pub const NAMES: [&str; COUNT] = [
    "cpuLoad",
    "cpuOutput",
    "powerLoad",
    "powerOutput",
    "upgradeLoad",
    "upgradeCapacity",
    "droneCapacityLoad",
    "droneCapacity",
    "droneBandwidthLoad",
    "droneBandwidth",
    "fighterCapacityLoad",
    "fighterCapacity",
    "fighterTubesUsed",
    "fighterTubes",
    "fighterLightSlotsUsed",
    "fighterLightSlots",
    "fighterSupportSlotsUsed",
    "fighterSupportSlots",
    "fighterHeavySlotsUsed",
    "fighterHeavySlots",
    "maxActiveDrones",
    "capacity",
    "hiSlots",
    "medSlots",
    "lowSlots",
    "rigSlots",
    "maxSubSystems",
    "serviceSlots",
    "turretSlotsLeft",
    "launcherSlotsLeft",
    "implantness",
    "boosterness",
    "subSystemSlot",
    "rigSize",
    "fitsToShipType",
    "canFitShipType1",
    "canFitShipType2",
    "canFitShipType3",
    "canFitShipType4",
    "canFitShipType5",
    "canFitShipType6",
    "canFitShipType7",
    "canFitShipType8",
    "canFitShipType9",
    "canFitShipType10",
    "canFitShipType11",
    "canFitShipType12",
    "canFitShipGroup01",
    "canFitShipGroup02",
    "canFitShipGroup03",
    "canFitShipGroup04",
    "canFitShipGroup05",
    "canFitShipGroup06",
    "canFitShipGroup07",
    "canFitShipGroup08",
    "canFitShipGroup09",
    "canFitShipGroup10",
    "canFitShipGroup11",
    "canFitShipGroup12",
    "canFitShipGroup13",
    "canFitShipGroup14",
    "canFitShipGroup15",
    "canFitShipGroup16",
    "canFitShipGroup17",
    "canFitShipGroup18",
    "canFitShipGroup19",
    "canFitShipGroup20",
    "volume",
    "isCapitalSize",
    "fighterSquadronIsStandupLight",
    "fighterSquadronIsStandupSupport",
    "fighterSquadronIsStandupHeavy",
    "maxGroupFitted",
    "maxGroupOnline",
    "maxGroupActive",
    "maxTypeFitted",
    "requiredSkill1",
    "requiredSkill1Level",
    "requiredSkill2",
    "requiredSkill2Level",
    "requiredSkill3",
    "requiredSkill3Level",
    "requiredSkill4",
    "requiredSkill4Level",
    "requiredSkill5",
    "requiredSkill5Level",
    "requiredSkill6",
    "requiredSkill6Level",
];

/// What an effect of each mark is called, in the order of the named arms of
/// `slots_of`; 0 is any other effect.
pub const MARKS: [&str; 9] = [
    "another effect",
    "hiPower",
    "medPower",
    "loPower",
    "rigSlot",
    "subSystem",
    "serviceSlot",
    "turretFitted",
    "launcherFitted",
];

#[cfg(test)]
mod tests {
    use super::*;

    const RESOURCE: &str =
        include_str!("../../original/src/crates/esf-dogma-engine/src/validate/resource.rs");
    const SLOT: &str =
        include_str!("../../original/src/crates/esf-dogma-engine/src/validate/slot.rs");
    const ITEM: &str =
        include_str!("../../original/src/crates/esf-dogma-engine/src/validate/item.rs");
    const SKILL: &str =
        include_str!("../../original/src/crates/esf-dogma-engine/src/validate/skill.rs");
    const MODULE: &str =
        include_str!("../../original/src/crates/esf-dogma-engine/src/validate/mod.rs");

    /// The string literals between two marks of a source file, in order.
    fn literals<'a>(source: &'a str, from: &str, to: &str) -> Vec<&'a str> {
        let start = source.find(from).expect("the table begins");
        let length = source[start..].find(to).expect("the table ends");
        let table = &source[start..start + length];
        table.split('"').skip(1).step_by(2).collect()
    }

    #[test]
    fn the_tables_are_those_of_the_source_in_document_01s_order() {
        let mut expected = literals(RESOURCE, "const LOADS", "];");
        expected.extend(["maxActiveDrones", "capacity"]);
        expected.extend(literals(SLOT, "const RACKS", "];"));
        expected.extend(literals(SLOT, "const HARDPOINTS", "];"));
        expected.extend(["implantness", "boosterness", "subSystemSlot", "rigSize"]);
        expected.extend(literals(ITEM, "const SHIP_TYPES", "];"));
        expected.extend(literals(ITEM, "const SHIP_GROUPS", "];"));
        expected.extend(["volume", "isCapitalSize"]);
        expected.extend(literals(ITEM, "const STANDUP_FIGHTERS", "];"));
        expected.extend(literals(ITEM, "const GROUP_LIMITS", "];"));
        expected.push("maxTypeFitted");
        expected.extend(literals(SKILL, "const REQUIRED", "];"));
        assert_eq!(NAMES.as_slice(), expected);
    }

    #[test]
    fn the_first_numbers_of_the_tables_are_document_01s() {
        let first = |name: &str| NAMES.iter().position(|known| *known == name).unwrap();
        assert_eq!(first("cpuLoad"), LOADS);
        assert_eq!(first("maxActiveDrones"), MAX_ACTIVE_DRONES);
        assert_eq!(first("capacity"), CAPACITY);
        assert_eq!(first("hiSlots"), RACKS);
        assert_eq!(first("turretSlotsLeft"), HARDPOINTS);
        assert_eq!(first("implantness"), IMPLANTNESS);
        assert_eq!(first("boosterness"), BOOSTERNESS);
        assert_eq!(first("subSystemSlot"), SUBSYSTEM_SLOT);
        assert_eq!(first("rigSize"), RIG_SIZE);
        assert_eq!(first("fitsToShipType"), SHIP_TYPES);
        assert_eq!(first("canFitShipGroup01"), SHIP_GROUPS);
        assert_eq!(first("volume"), VOLUME);
        assert_eq!(first("isCapitalSize"), IS_CAPITAL_SIZE);
        assert_eq!(first("fighterSquadronIsStandupLight"), STANDUP_FIGHTERS);
        assert_eq!(first("maxGroupFitted"), GROUP_LIMITS);
        assert_eq!(first("maxTypeFitted"), MAX_TYPE_FITTED);
        assert_eq!(first("requiredSkill1"), REQUIRED);
    }

    #[test]
    fn every_name_that_the_rules_ask_for_has_a_number() {
        for source in [RESOURCE, SLOT, ITEM] {
            for asked in source.split("attribute_id(\"").skip(1) {
                let name = asked.split('"').next().unwrap();
                assert!(NAMES.contains(&name), "{name} has no number");
            }
        }
    }

    #[test]
    fn the_marks_are_the_named_arms_in_order() {
        let arms = literals(MODULE, "match effect.name() {", "_ => {}");
        assert_eq!(&MARKS[1..], arms);
    }
}
