//! An entry: 24 bytes of a list, decoded.

use std::fmt;

use crate::{ENTRY_BYTES, GroupLimit, Names, Resource, Rule, SlotKind, Target, explain};

/// One rule that the fit breaks, and what breaks it.
///
/// As text it is a sentence; [`Explainer`](crate::Explainer) makes a better
/// one, as it knows the fit and the names of types.
#[derive(Debug, Clone, Copy, PartialEq)]
pub struct Entry {
    /// What the rule is about.
    pub target: Target,
    /// The rule, and the values that failed it.
    pub rule: Rule,
}

impl Entry {
    /// The entry of 24 bytes as document 01 lays them out. Bytes of any
    /// content decode; what this crate does not know keeps its numbers, so
    /// that [`Entry::to_bytes`] always leads back.
    ///
    /// ```
    /// use fitcheck::{Entry, Rule, Target};
    ///
    /// let mut bytes = [0; 24];
    /// bytes[1] = 19;
    /// let entry = Entry::from_bytes(&bytes);
    /// assert_eq!(entry, Entry { target: Target::Ship, rule: Rule::NotAHull });
    /// assert_eq!(entry.to_bytes(), bytes);
    /// ```
    pub fn from_bytes(bytes: &[u8; ENTRY_BYTES]) -> Entry {
        let [target, rule, sub, zero, ..] = *bytes;
        let word = |number: usize| {
            let at = 4 * number;
            u32::from_le_bytes([bytes[at], bytes[at + 1], bytes[at + 2], bytes[at + 3]])
        };
        let words = [word(2), word(3), word(4), word(5)];
        let target = match (target, word(1)) {
            (0, 0) => Target::Ship,
            (1, index) => Target::Item {
                index: index as usize,
            },
            (target, index) => Target::Unknown { target, index },
        };
        let unknown = Entry {
            target,
            rule: Rule::Unknown {
                rule,
                sub,
                zero,
                words,
            },
        };
        // Known are exactly the bytes that a known rule is laid out as.
        known(rule, sub, words)
            .map(|rule| Entry { target, rule })
            .filter(|entry| entry.to_bytes() == *bytes)
            .unwrap_or(unknown)
    }

    /// The 24 bytes as document 01 lays them out.
    pub fn to_bytes(&self) -> [u8; ENTRY_BYTES] {
        let (target, index) = match self.target {
            Target::Ship => (0, 0),
            // No fit has so many items; the highest index stands for more.
            Target::Item { index } => (1, u32::try_from(index).unwrap_or(u32::MAX)),
            Target::Unknown { target, index } => (target, index),
        };
        let (sub, zero, words) = fields(&self.rule);
        let mut bytes = [0; ENTRY_BYTES];
        bytes[..4].copy_from_slice(&[target, self.rule.number(), sub, zero]);
        bytes[4..8].copy_from_slice(&index.to_le_bytes());
        for (place, word) in bytes[8..].chunks_exact_mut(4).zip(words) {
            place.copy_from_slice(&word.to_le_bytes());
        }
        bytes
    }
}

/// The rule of a number, from the fields that it has; none where the number,
/// the sub or a field has no meaning.
fn known(rule: u8, sub: u8, words: [u32; 4]) -> Option<Rule> {
    let id = |number: usize| words[number].cast_signed();
    let byte = |number: usize| u8::try_from(words[number]).ok();
    let double = |number: usize| {
        f64::from_bits(u64::from(words[number]) | u64::from(words[number + 1]) << 32)
    };
    Some(match rule {
        1 => Rule::Resource {
            resource: Resource::from_number(sub)?,
            used: double(0),
            available: double(2),
        },
        2 => Rule::Slots {
            slot: SlotKind::from_number(sub)?,
            used: words[0],
            available: words[1],
        },
        3 => Rule::WrongSlot {
            expected: SlotKind::from_number(sub)?,
        },
        4 => Rule::NotAModule,
        5 => Rule::NotADrone,
        6 => Rule::NotAFighter,
        7 => Rule::NotAnImplant,
        8 => Rule::SlotTaken,
        9 => Rule::WrongSlotIndex {
            expected: u16::try_from(words[0]).ok()?,
        },
        10 => Rule::SubsystemTaken,
        11 => Rule::Skill {
            type_id: id(0),
            required: byte(1)?,
            level: byte(2)?,
        },
        12 => Rule::RigSize {
            ship: byte(0)?,
            item: byte(1)?,
        },
        13 => Rule::ShipRestricted,
        14 => Rule::CapitalItem,
        15 => Rule::StructureItem,
        16 => Rule::ShipItem,
        17 => Rule::MaxGroup {
            group_id: id(0),
            limit: GroupLimit::from_number(sub)?,
            used: words[1],
            allowed: words[2],
        },
        18 => Rule::MaxType {
            type_id: id(0),
            used: words[1],
            allowed: words[2],
        },
        19 => Rule::NotAHull,
        20 => Rule::NotAMode,
        21 => Rule::NotASkill { type_id: id(0) },
        24 => Rule::Banned { group_id: id(0) },
        25 => Rule::Points {
            used: words[0],
            allowed: words[1],
        },
        26 => Rule::UnknownType { type_id: id(0) },
        _ => return None,
    })
}

/// Sub, the byte behind it, and the payload.
fn fields(rule: &Rule) -> (u8, u8, [u32; 4]) {
    let halves = |value: f64| {
        let bits = value.to_bits();
        [(bits & 0xFFFF_FFFF) as u32, (bits >> 32) as u32]
    };
    match *rule {
        Rule::Resource {
            resource,
            used,
            available,
        } => {
            let ([a, b], [c, d]) = (halves(used), halves(available));
            (resource.number(), 0, [a, b, c, d])
        }
        Rule::Slots {
            slot,
            used,
            available,
        } => (slot.number(), 0, [used, available, 0, 0]),
        Rule::WrongSlot { expected } => (expected.number(), 0, [0; 4]),
        Rule::WrongSlotIndex { expected } => (0, 0, [expected.into(), 0, 0, 0]),
        Rule::Skill {
            type_id,
            required,
            level,
        } => {
            let skill = type_id.cast_unsigned();
            (0, 0, [skill, required.into(), level.into(), 0])
        }
        Rule::RigSize { ship, item } => (0, 0, [ship.into(), item.into(), 0, 0]),
        Rule::MaxGroup {
            group_id,
            limit,
            used,
            allowed,
        } => {
            let group = group_id.cast_unsigned();
            (limit.number(), 0, [group, used, allowed, 0])
        }
        Rule::MaxType {
            type_id,
            used,
            allowed,
        } => (0, 0, [type_id.cast_unsigned(), used, allowed, 0]),
        Rule::NotASkill { type_id } => (0, 0, [type_id.cast_unsigned(), 0, 0, 0]),
        Rule::Banned { group_id } => (0, 0, [group_id.cast_unsigned(), 0, 0, 0]),
        Rule::Points { used, allowed } => (0, 0, [used, allowed, 0, 0]),
        Rule::UnknownType { type_id } => (0, 0, [type_id.cast_unsigned(), 0, 0, 0]),
        Rule::Unknown {
            sub, zero, words, ..
        } => (sub, zero, words),
        Rule::NotAModule
        | Rule::NotADrone
        | Rule::NotAFighter
        | Rule::NotAnImplant
        | Rule::SlotTaken
        | Rule::SubsystemTaken
        | Rule::ShipRestricted
        | Rule::CapitalItem
        | Rule::StructureItem
        | Rule::ShipItem
        | Rule::NotAHull
        | Rule::NotAMode => (0, 0, [0; 4]),
    }
}

/// The sentence, as far as it can be told without the fit.
impl fmt::Display for Entry {
    fn fmt(&self, formatter: &mut fmt::Formatter<'_>) -> fmt::Result {
        formatter.pad(&explain(self, &[], &Names::default()))
    }
}
