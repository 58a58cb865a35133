//! What a run has to meet of base values: every class of f32 that is widened,
//! buffers between the old and the new length, and values that no f32 is.

/// A class of f32.
#[derive(Clone, Copy, Debug, PartialEq, Eq, PartialOrd, Ord)]
pub enum Class {
    Zero,
    MinusZero,
    SmallestSubnormal,
    Subnormal,
    MinusSubnormal,
    LargestSubnormal,
    Normal,
    MinusNormal,
    Largest,
    Infinity,
    MinusInfinity,
    QuietNan,
    MinusQuietNan,
    PayloadNan,
    MinusPayloadNan,
    SignallingNan,
    MinusSignallingNan,
}

impl Class {
    pub const ALL: [Class; 17] = [
        Class::Zero,
        Class::MinusZero,
        Class::SmallestSubnormal,
        Class::Subnormal,
        Class::MinusSubnormal,
        Class::LargestSubnormal,
        Class::Normal,
        Class::MinusNormal,
        Class::Largest,
        Class::Infinity,
        Class::MinusInfinity,
        Class::QuietNan,
        Class::MinusQuietNan,
        Class::PayloadNan,
        Class::MinusPayloadNan,
        Class::SignallingNan,
        Class::MinusSignallingNan,
    ];

    /// The class of an f32's bits.
    pub fn of(bits: u32) -> Class {
        let signed = |plus: Class, minus: Class| if bits >> 31 == 0 { plus } else { minus };
        match bits & 0x7FFF_FFFF {
            0 => signed(Class::Zero, Class::MinusZero),
            1 => Class::SmallestSubnormal,
            0x007F_FFFF => Class::LargestSubnormal,
            ..0x0080_0000 => signed(Class::Subnormal, Class::MinusSubnormal),
            0x7F7F_FFFF => Class::Largest,
            ..0x7F80_0000 => signed(Class::Normal, Class::MinusNormal),
            0x7F80_0000 => signed(Class::Infinity, Class::MinusInfinity),
            ..0x7FC0_0000 => signed(Class::SignallingNan, Class::MinusSignallingNan),
            0x7FC0_0000 => signed(Class::QuietNan, Class::MinusQuietNan),
            _ => signed(Class::PayloadNan, Class::MinusPayloadNan),
        }
    }

    pub fn words(self) -> &'static str {
        match self {
            Class::Zero => "+0",
            Class::MinusZero => "-0",
            Class::SmallestSubnormal => "the smallest subnormal",
            Class::Subnormal => "a subnormal",
            Class::MinusSubnormal => "a subnormal below zero",
            Class::LargestSubnormal => "the largest subnormal",
            Class::Normal => "a number above zero",
            Class::MinusNormal => "a number below zero",
            Class::Largest => "the largest number",
            Class::Infinity => "infinity",
            Class::MinusInfinity => "minus infinity",
            Class::QuietNan => "the quiet NaN",
            Class::MinusQuietNan => "the quiet NaN with the sign set",
            Class::PayloadNan => "a quiet NaN with a payload",
            Class::MinusPayloadNan => "a quiet NaN with a payload and the sign set",
            Class::SignallingNan => "a signalling NaN",
            Class::MinusSignallingNan => "a signalling NaN with the sign set",
        }
    }
}

/// A buffer for a catalogue with bases.
#[derive(Clone, Copy, Debug, PartialEq, Eq, PartialOrd, Ord)]
pub enum WidenRoom {
    /// As long as the old form.
    OldLength,
    /// Longer than the old form and shorter than the new one.
    Between,
    /// A catalogue without bases, in as much as it is long.
    NoBases,
}

impl WidenRoom {
    pub const ALL: [WidenRoom; 3] = [WidenRoom::OldLength, WidenRoom::Between, WidenRoom::NoBases];

    /// The kind of a buffer, by the lengths of both forms.
    pub fn of(old: usize, new: usize, length: usize) -> Option<WidenRoom> {
        match length {
            _ if old == new => (length == new).then_some(WidenRoom::NoBases),
            _ if length == old => Some(WidenRoom::OldLength),
            _ if old < length && length < new => Some(WidenRoom::Between),
            _ => None,
        }
    }

    pub fn words(self) -> &'static str {
        match self {
            WidenRoom::OldLength => "a buffer as long as the old form",
            WidenRoom::Between => "a buffer between both forms",
            WidenRoom::NoBases => "no bases and a buffer of the exact length",
        }
    }
}

/// What a base value that no f32 is decides.
#[derive(Clone, Copy, Debug, PartialEq, Eq, PartialOrd, Ord)]
pub enum Fine {
    /// A skill's id that an f32 rounds to another.
    Id,
    /// A level below a whole number that an f32 rounds up to it.
    Level,
    /// A value that counts for nothing.
    Unread,
}

impl Fine {
    pub const ALL: [Fine; 3] = [Fine::Id, Fine::Level, Fine::Unread];

    pub fn words(self) -> &'static str {
        match self {
            Fine::Id => "the id of a skill",
            Fine::Level => "a level",
            Fine::Unread => "under no name",
        }
    }
}

#[cfg(test)]
mod tests {
    use super::*;

    #[test]
    fn classes_of_their_own() {
        let bits = [
            (0x0000_0000, Class::Zero),
            (0x8000_0000, Class::MinusZero),
            (0x8000_0001, Class::SmallestSubnormal),
            (0x0000_0002, Class::Subnormal),
            (0x8040_0000, Class::MinusSubnormal),
            (0x007F_FFFF, Class::LargestSubnormal),
            (0x0080_0000, Class::Normal),
            (0xBF80_0000, Class::MinusNormal),
            (0xFF7F_FFFF, Class::Largest),
            (0x7F80_0000, Class::Infinity),
            (0xFF80_0000, Class::MinusInfinity),
            (0x7FC0_0000, Class::QuietNan),
            (0xFFC0_0000, Class::MinusQuietNan),
            (0x7FC0_0001, Class::PayloadNan),
            (0xFFFF_FFFF, Class::MinusPayloadNan),
            (0x7F80_0001, Class::SignallingNan),
            (0xFFA0_0000, Class::MinusSignallingNan),
        ];
        for (bits, class) in bits {
            assert_eq!(Class::of(bits), class, "{bits:#010x}");
        }
    }

    #[test]
    fn rooms_of_both_forms() {
        assert_eq!(WidenRoom::of(20, 20, 20), Some(WidenRoom::NoBases));
        assert_eq!(WidenRoom::of(32, 36, 32), Some(WidenRoom::OldLength));
        assert_eq!(WidenRoom::of(32, 36, 35), Some(WidenRoom::Between));
        assert_eq!(WidenRoom::of(32, 36, 36), None);
    }
}
