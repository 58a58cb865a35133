//! What an effect says about the slot of its type.

use crate::numbered::numbered;

numbered! {
    /// What an effect says about the slot that a type asks for, by the
    /// effect's name in EVE's type data.
    ///
    /// Of a type's effects the last rack and the last hardpoint count.
    Mark {
        /// Any other effect; it says nothing about slots.
        Other = "other",
        /// The type goes into a high slot.
        HiPower = "hiPower",
        /// The type goes into a medium slot.
        MedPower = "medPower",
        /// The type goes into a low slot.
        LoPower = "loPower",
        /// The type goes into a rig slot.
        RigSlot = "rigSlot",
        /// The type goes into a subsystem slot.
        SubSystem = "subSystem",
        /// The type goes into a service slot.
        ServiceSlot = "serviceSlot",
        /// The type takes a turret hardpoint.
        TurretFitted = "turretFitted",
        /// The type takes a launcher hardpoint.
        LauncherFitted = "launcherFitted",
    }
}

impl Mark {
    /// The mark of an effect by its name in EVE's type data; none where the
    /// name is not one of the eight that say something about slots.
    ///
    /// Most effects are none of them, and [`Mark::Other`] is right for those.
    /// A name that was misspelt is none of them either, and would turn the
    /// slot checks of its types off: so the caller says what is meant.
    ///
    /// ```
    /// use fitcheck::Mark;
    ///
    /// assert_eq!(Mark::of_effect("turretFitted"), Some(Mark::TurretFitted));
    /// assert_eq!(Mark::of_effect("armorRepair"), None);
    /// assert_eq!(Mark::of_effect("turretfitted"), None);
    /// assert_eq!(Mark::of_effect("armorRepair").unwrap_or(Mark::Other), Mark::Other);
    /// ```
    pub fn of_effect(name: &str) -> Option<Mark> {
        Mark::from_name(name).filter(|mark| *mark != Mark::Other)
    }
}
