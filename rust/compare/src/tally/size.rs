//! Sizes, places and ids that a run has to meet: full size, every limit and its
//! neighbours, both ends of the ids.

/// The most that a fit may hold of each, and one less.
pub const HELD: [(Part, u32); 8] = [
    (Part::Skills, 1_023),
    (Part::Skills, 1_024),
    (Part::Items, 255),
    (Part::Items, 256),
    (Part::Results, 255),
    (Part::Results, 256),
    (Part::Attributes, 29_999),
    (Part::Attributes, 30_000),
];

/// Buffer lengths around 16 and 20 bits, around what holds any list or any
/// skills (from there on the library writes without counting first), and far
/// beyond.
pub const LIST_BUFFERS: [u32; 9] = [
    65_520, 65_535, 65_536, 65_537, 135_695, 135_696, 135_697, 1_048_576, 16_777_216,
];
pub const SKILL_BUFFERS: [u32; 7] = [
    12_287, 12_288, 12_289, 65_535, 65_536, 1_048_576, 16_777_216,
];

/// Result numbers that are low again where 8, 16 or 31 bits are left of them.
pub const RESULTS: [u32; 6] = [258, 65_536, 65_537, 65_538, 0x8000_0000, 0x8000_0002];

/// Amounts beside 256 pairs: around that number, and around the widths that
/// an amount could be cut to.
pub const AMOUNTS: [f64; 8] = [
    255.0,
    255.9,
    256.0,
    257.0,
    65_535.0,
    65_536.0,
    4_294_967_295.0,
    4_294_967_296.0,
];

/// Items and results of fits that list nothing: none of one kind; one or two
/// more (the ship and the character have a result each); as many as may be.
pub const UNREAD: [(u32, u32); 10] = [
    (1, 0),
    (2, 0),
    (3, 1),
    (256, 0),
    (256, 255),
    (0, 1),
    (0, 2),
    (1, 3),
    (0, 256),
    (255, 256),
];

/// The bytes of a hall input of 64 fits that hold as much as they may.
pub const LARGEST_HALL: u32 = 23_632_388;

/// The entries of the longest list: NotAMode, 1,024 times NotASkill, twelve
/// resources, one rack and both hardpoints, and eleven for each of 256
/// subsystems.
pub const LONGEST_LIST: u32 = 3_856;

/// The same with a profile that bans each of the subsystems.
pub const LONGEST_LEAGUE: u32 = LONGEST_LIST + 256;

/// The same where the catalogue has none of their types and group 0 is banned.
pub const LONGEST_UNKNOWN: u32 = LONGEST_LEAGUE + 256;

/// What a fit holds.
#[derive(Clone, Copy, Debug, PartialEq, Eq, PartialOrd, Ord)]
pub enum Part {
    Skills,
    Items,
    Results,
    Attributes,
}

impl Part {
    pub fn words(self) -> &'static str {
        match self {
            Part::Skills => "skills",
            Part::Items => "items",
            Part::Results => "results",
            Part::Attributes => "attributes",
        }
    }
}

/// A block of the catalogue that can take up nearly all of it.
#[derive(Clone, Copy, Debug, PartialEq, Eq, PartialOrd, Ord)]
pub enum Block {
    Effects,
    Types,
    Links,
    Bases,
}

impl Block {
    pub const ALL: [Block; 4] = [Block::Effects, Block::Types, Block::Links, Block::Bases];

    /// The rows that count as full size, in the manner of the game's data.
    pub fn full_size(self) -> usize {
        match self {
            Block::Effects => 3_500,
            Block::Types => 48_000,
            Block::Links => 50_000,
            Block::Bases => 600_000,
        }
    }

    /// Bytes of one row.
    pub fn width(self) -> usize {
        match self {
            Block::Effects | Block::Links => 8,
            Block::Types => 20,
            Block::Bases => 16,
        }
    }

    pub fn words(self) -> &'static str {
        match self {
            Block::Effects => "effects",
            Block::Types => "types",
            Block::Links => "links",
            Block::Bases => "bases",
        }
    }
}

/// Whose result it is.
#[derive(Clone, Copy, Debug, PartialEq, Eq, PartialOrd, Ord)]
pub enum Holder {
    Ship,
    Character,
    FirstItem,
    MiddleItem,
    LastItem,
}

impl Holder {
    pub const ALL: [Holder; 5] = [
        Holder::Ship,
        Holder::Character,
        Holder::FirstItem,
        Holder::MiddleItem,
        Holder::LastItem,
    ];

    pub fn words(self) -> &'static str {
        match self {
            Holder::Ship => "the ship",
            Holder::Character => "the character",
            Holder::FirstItem => "the first of 256 items",
            Holder::MiddleItem => "an item amid 256",
            Holder::LastItem => "the last of 256 items",
        }
    }
}

/// Where an attribute that a rule reads stands in a result of 30,000.
#[derive(Clone, Copy, Debug, PartialEq, Eq, PartialOrd, Ord)]
pub enum Place {
    Front,
    Middle,
    End,
}

impl Place {
    pub const ALL: [Place; 3] = [Place::Front, Place::Middle, Place::End];

    /// The place of a number among so many.
    pub fn of(number: usize, count: usize) -> Option<Place> {
        match number {
            0 => Some(Place::Front),
            _ if number + 1 == count => Some(Place::End),
            _ if number / (count / 3) == 1 => Some(Place::Middle),
            _ => None,
        }
    }

    pub fn words(self) -> &'static str {
        match self {
            Place::Front => "in front",
            Place::Middle => "in the middle",
            Place::End => "at the end",
        }
    }
}

/// What an id is the id of.
#[derive(Clone, Copy, Debug, PartialEq, Eq, PartialOrd, Ord)]
pub enum IdOf {
    Type,
    Effect,
    Attribute,
    Trained,
    Wanted,
}

impl IdOf {
    pub const ALL: [IdOf; 5] = [
        IdOf::Type,
        IdOf::Effect,
        IdOf::Attribute,
        IdOf::Trained,
        IdOf::Wanted,
    ];

    pub fn words(self) -> &'static str {
        match self {
            IdOf::Type => "type of an item",
            IdOf::Effect => "effect of an item",
            IdOf::Attribute => "attribute with a name",
            IdOf::Trained => "trained skill",
            IdOf::Wanted => "wanted skill",
        }
    }
}

/// Where an id stands in the range of an i32.
#[derive(Clone, Copy, Debug, PartialEq, Eq, PartialOrd, Ord)]
pub enum Region {
    Lowest,
    Low,
    Middle,
    High,
    Highest,
}

impl Region {
    pub const ALL: [Region; 5] = [
        Region::Lowest,
        Region::Low,
        Region::Middle,
        Region::High,
        Region::Highest,
    ];

    pub fn of(id: i32) -> Region {
        match id {
            i32::MIN => Region::Lowest,
            i32::MAX => Region::Highest,
            ..-1_000_000_000 => Region::Low,
            1_000_000_000.. => Region::High,
            _ => Region::Middle,
        }
    }

    pub fn words(self) -> &'static str {
        match self {
            Region::Lowest => "-2,147,483,648",
            Region::Low => "below -1,000,000,000",
            Region::Middle => "in between",
            Region::High => "1,000,000,000 or above",
            Region::Highest => "2,147,483,647",
        }
    }
}

/// Which rule counts 256 pairs.
#[derive(Clone, Copy, Debug, PartialEq, Eq, PartialOrd, Ord)]
pub enum Counting {
    Slots,
    MaxGroup,
    MaxType,
}

impl Counting {
    pub const ALL: [Counting; 3] = [Counting::Slots, Counting::MaxGroup, Counting::MaxType];

    pub fn words(self) -> &'static str {
        match self {
            Counting::Slots => "256 pairs in a rack, slots",
            Counting::MaxGroup => "256 pairs of a group, allowed",
            Counting::MaxType => "256 pairs of a type, allowed",
        }
    }
}

#[cfg(test)]
mod tests {
    use super::*;

    #[test]
    fn the_largest_hall_is_64_fits_that_are_full() {
        let fit = 36 + 5 * 1_024 + 12 * 256 + 4 * 256 + 12 * 30_000;
        assert_eq!(LARGEST_HALL, 4 + 64 * (4 + fit));
    }

    #[test]
    fn places_and_regions() {
        assert_eq!(Place::of(0, 30_000), Some(Place::Front));
        assert_eq!(Place::of(15_000, 30_000), Some(Place::Middle));
        assert_eq!(Place::of(29_999, 30_000), Some(Place::End));
        assert_eq!(Place::of(9_999, 30_000), None);
        assert_eq!(Region::of(-1), Region::Middle);
        assert_eq!(Region::of(-2_000_000_000), Region::Low);
    }
}
