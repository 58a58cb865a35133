//! Where an item is, and the state that it reached.

use std::fmt;

use crate::BuildError;
use crate::numbered::numbered;

numbered! {
    /// The kinds of [`Slot`], without the number.
    SlotType {
        /// A high slot.
        High = "high",
        /// A medium slot.
        Medium = "medium",
        /// A low slot.
        Low = "low",
        /// A rig slot.
        Rig = "rig",
        /// A subsystem slot.
        Subsystem = "subsystem",
        /// A service slot, on a structure.
        Service = "service",
        /// A fighter tube.
        FighterTube = "fighter_tube",
        /// The fighter bay.
        FighterBay = "fighter_bay",
        /// An implant slot.
        Implant = "implant",
        /// A booster slot.
        Booster = "booster",
        /// The drone bay.
        DroneBay = "drone_bay",
        /// The cargo hold.
        Cargo = "cargo",
    }
}

impl SlotType {
    /// The highest index: 65,535 for boosters, 0 for bays and cargo, else 255.
    pub fn highest_index(self) -> u16 {
        match self {
            SlotType::FighterBay | SlotType::DroneBay | SlotType::Cargo => 0,
            SlotType::Booster => u16::MAX,
            _ => u8::MAX.into(),
        }
    }
}

numbered! {
    /// The state of an item, lowest first.
    State {
        /// Only passive effects apply.
        Offline = "offline",
        /// Online effects apply too.
        Online = "online",
        /// Active effects apply too.
        Active = "active",
        /// Overload effects apply too.
        Overload = "overload",
    }
}

/// Where an item is. The number is the position in its rack, starting at 0;
/// for implants and boosters, the slot as EVE numbers it, starting at 1.
#[non_exhaustive]
#[derive(Debug, Clone, Copy, PartialEq, Eq, Hash)]
pub enum Slot {
    /// A high slot.
    High(u8),
    /// A medium slot.
    Medium(u8),
    /// A low slot.
    Low(u8),
    /// A rig slot.
    Rig(u8),
    /// A subsystem slot.
    Subsystem(u8),
    /// A service slot, on a structure.
    Service(u8),
    /// A fighter tube.
    FighterTube(u8),
    /// The fighter bay.
    FighterBay,
    /// An implant; the number is its `implantness`.
    Implant(u8),
    /// A booster; the number is its `boosterness`.
    Booster(u16),
    /// The drone bay.
    DroneBay,
    /// The cargo hold.
    Cargo,
}

impl Slot {
    /// The slot of a kind and an index, for data that has them apart.
    ///
    /// # Errors
    ///
    /// [`BuildError::SlotIndex`] where the kind has no such index.
    ///
    /// ```
    /// use fitcheck::{Slot, SlotType};
    ///
    /// assert_eq!(Slot::new(SlotType::High, 3), Ok(Slot::High(3)));
    /// let wrong = Slot::new(SlotType::High, 300).unwrap_err();
    /// assert_eq!(wrong.to_string(), "slot index 300: the highest of a high slot is 255");
    /// ```
    pub fn new(slot: SlotType, index: u16) -> Result<Slot, BuildError> {
        if index > slot.highest_index() {
            return Err(BuildError::SlotIndex { slot, index });
        }
        // Booster alone goes beyond a byte, and it does not use this.
        let small = (index & 0xFF) as u8;
        Ok(match slot {
            SlotType::High => Slot::High(small),
            SlotType::Medium => Slot::Medium(small),
            SlotType::Low => Slot::Low(small),
            SlotType::Rig => Slot::Rig(small),
            SlotType::Subsystem => Slot::Subsystem(small),
            SlotType::Service => Slot::Service(small),
            SlotType::FighterTube => Slot::FighterTube(small),
            SlotType::FighterBay => Slot::FighterBay,
            SlotType::Implant => Slot::Implant(small),
            SlotType::Booster => Slot::Booster(index),
            SlotType::DroneBay => Slot::DroneBay,
            SlotType::Cargo => Slot::Cargo,
        })
    }

    /// The kind of slot.
    pub fn slot_type(self) -> SlotType {
        match self {
            Slot::High(_) => SlotType::High,
            Slot::Medium(_) => SlotType::Medium,
            Slot::Low(_) => SlotType::Low,
            Slot::Rig(_) => SlotType::Rig,
            Slot::Subsystem(_) => SlotType::Subsystem,
            Slot::Service(_) => SlotType::Service,
            Slot::FighterTube(_) => SlotType::FighterTube,
            Slot::FighterBay => SlotType::FighterBay,
            Slot::Implant(_) => SlotType::Implant,
            Slot::Booster(_) => SlotType::Booster,
            Slot::DroneBay => SlotType::DroneBay,
            Slot::Cargo => SlotType::Cargo,
        }
    }

    /// The index; 0 for bays and cargo, which have none.
    pub fn index(self) -> u16 {
        match self {
            Slot::High(index)
            | Slot::Medium(index)
            | Slot::Low(index)
            | Slot::Rig(index)
            | Slot::Subsystem(index)
            | Slot::Service(index)
            | Slot::FighterTube(index)
            | Slot::Implant(index) => index.into(),
            Slot::Booster(index) => index,
            Slot::FighterBay | Slot::DroneBay | Slot::Cargo => 0,
        }
    }
}

/// As a pilot would say it: `High slot 3`, `the drone bay`.
impl fmt::Display for Slot {
    fn fmt(&self, formatter: &mut fmt::Formatter<'_>) -> fmt::Result {
        let name = match self.slot_type() {
            SlotType::High => "High slot",
            SlotType::Medium => "Medium slot",
            SlotType::Low => "Low slot",
            SlotType::Rig => "Rig slot",
            SlotType::Subsystem => "Subsystem slot",
            SlotType::Service => "Service slot",
            SlotType::FighterTube => "Fighter tube",
            SlotType::Implant => "Implant slot",
            SlotType::Booster => "Booster slot",
            SlotType::FighterBay => return formatter.write_str("the fighter bay"),
            SlotType::DroneBay => return formatter.write_str("the drone bay"),
            SlotType::Cargo => return formatter.write_str("the cargo hold"),
        };
        write!(formatter, "{name} {}", self.index())
    }
}

#[cfg(test)]
mod tests {
    use super::*;

    /// Document 01: "Index is at most 255 unless Booster, and 0 for bays and
    /// Cargo".
    #[test]
    fn an_index_beyond_the_kinds_highest_is_refused() {
        for slot in SlotType::ALL {
            let highest = match slot.number() {
                7 | 10 | 11 => 0,
                9 => 65_535,
                _ => 255,
            };
            let kept = Slot::new(*slot, highest).unwrap();
            assert_eq!(kept.slot_type(), *slot);
            assert_eq!(kept.index(), highest);
            if let Some(beyond) = highest.checked_add(1) {
                let wrong = Slot::new(*slot, beyond).unwrap_err();
                assert_eq!(
                    wrong,
                    BuildError::SlotIndex {
                        slot: *slot,
                        index: beyond
                    }
                );
            }
        }
    }
}
