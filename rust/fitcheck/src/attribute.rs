//! The 88 attribute names that the rules ask for.

use crate::numbered::numbered;

numbered! {
    /// An attribute that the rules ask for by its name in EVE's type data, in
    /// document 01's numbering.
    ///
    /// A catalogue says which attribute id each of them has; a rule whose
    /// names have no id falls away.
    ///
    /// ```
    /// use fitcheck::Attribute;
    ///
    /// let output = Attribute::from_name("cpuOutput").unwrap();
    /// assert_eq!(output, Attribute::CpuOutput);
    /// assert_eq!(output.number(), 1);
    /// assert_eq!(Attribute::RequiredSkill6Level.number(), 87);
    /// ```
    Attribute {
        CpuLoad = "cpuLoad",
        CpuOutput = "cpuOutput",
        PowerLoad = "powerLoad",
        PowerOutput = "powerOutput",
        UpgradeLoad = "upgradeLoad",
        UpgradeCapacity = "upgradeCapacity",
        DroneCapacityLoad = "droneCapacityLoad",
        DroneCapacity = "droneCapacity",
        DroneBandwidthLoad = "droneBandwidthLoad",
        DroneBandwidth = "droneBandwidth",
        FighterCapacityLoad = "fighterCapacityLoad",
        FighterCapacity = "fighterCapacity",
        FighterTubesUsed = "fighterTubesUsed",
        FighterTubes = "fighterTubes",
        FighterLightSlotsUsed = "fighterLightSlotsUsed",
        FighterLightSlots = "fighterLightSlots",
        FighterSupportSlotsUsed = "fighterSupportSlotsUsed",
        FighterSupportSlots = "fighterSupportSlots",
        FighterHeavySlotsUsed = "fighterHeavySlotsUsed",
        FighterHeavySlots = "fighterHeavySlots",
        MaxActiveDrones = "maxActiveDrones",
        Capacity = "capacity",
        HiSlots = "hiSlots",
        MedSlots = "medSlots",
        LowSlots = "lowSlots",
        RigSlots = "rigSlots",
        MaxSubSystems = "maxSubSystems",
        ServiceSlots = "serviceSlots",
        TurretSlotsLeft = "turretSlotsLeft",
        LauncherSlotsLeft = "launcherSlotsLeft",
        Implantness = "implantness",
        Boosterness = "boosterness",
        SubSystemSlot = "subSystemSlot",
        RigSize = "rigSize",
        FitsToShipType = "fitsToShipType",
        CanFitShipType1 = "canFitShipType1",
        CanFitShipType2 = "canFitShipType2",
        CanFitShipType3 = "canFitShipType3",
        CanFitShipType4 = "canFitShipType4",
        CanFitShipType5 = "canFitShipType5",
        CanFitShipType6 = "canFitShipType6",
        CanFitShipType7 = "canFitShipType7",
        CanFitShipType8 = "canFitShipType8",
        CanFitShipType9 = "canFitShipType9",
        CanFitShipType10 = "canFitShipType10",
        CanFitShipType11 = "canFitShipType11",
        CanFitShipType12 = "canFitShipType12",
        CanFitShipGroup01 = "canFitShipGroup01",
        CanFitShipGroup02 = "canFitShipGroup02",
        CanFitShipGroup03 = "canFitShipGroup03",
        CanFitShipGroup04 = "canFitShipGroup04",
        CanFitShipGroup05 = "canFitShipGroup05",
        CanFitShipGroup06 = "canFitShipGroup06",
        CanFitShipGroup07 = "canFitShipGroup07",
        CanFitShipGroup08 = "canFitShipGroup08",
        CanFitShipGroup09 = "canFitShipGroup09",
        CanFitShipGroup10 = "canFitShipGroup10",
        CanFitShipGroup11 = "canFitShipGroup11",
        CanFitShipGroup12 = "canFitShipGroup12",
        CanFitShipGroup13 = "canFitShipGroup13",
        CanFitShipGroup14 = "canFitShipGroup14",
        CanFitShipGroup15 = "canFitShipGroup15",
        CanFitShipGroup16 = "canFitShipGroup16",
        CanFitShipGroup17 = "canFitShipGroup17",
        CanFitShipGroup18 = "canFitShipGroup18",
        CanFitShipGroup19 = "canFitShipGroup19",
        CanFitShipGroup20 = "canFitShipGroup20",
        Volume = "volume",
        IsCapitalSize = "isCapitalSize",
        FighterSquadronIsStandupLight = "fighterSquadronIsStandupLight",
        FighterSquadronIsStandupSupport = "fighterSquadronIsStandupSupport",
        FighterSquadronIsStandupHeavy = "fighterSquadronIsStandupHeavy",
        MaxGroupFitted = "maxGroupFitted",
        MaxGroupOnline = "maxGroupOnline",
        MaxGroupActive = "maxGroupActive",
        MaxTypeFitted = "maxTypeFitted",
        RequiredSkill1 = "requiredSkill1",
        RequiredSkill1Level = "requiredSkill1Level",
        RequiredSkill2 = "requiredSkill2",
        RequiredSkill2Level = "requiredSkill2Level",
        RequiredSkill3 = "requiredSkill3",
        RequiredSkill3Level = "requiredSkill3Level",
        RequiredSkill4 = "requiredSkill4",
        RequiredSkill4Level = "requiredSkill4Level",
        RequiredSkill5 = "requiredSkill5",
        RequiredSkill5Level = "requiredSkill5Level",
        RequiredSkill6 = "requiredSkill6",
        RequiredSkill6Level = "requiredSkill6Level",
    }
}
