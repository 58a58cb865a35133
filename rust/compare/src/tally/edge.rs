//! Edges of numbers and shapes of inputs that a run has to meet.

use crate::numbers::Width;

/// Where a number stands to the range of its cast.
#[derive(Clone, Copy, Debug, PartialEq, Eq, PartialOrd, Ord)]
pub enum Spot {
    NotANumber,
    MinusInfinity,
    Below,
    JustBelow,
    AtLow,
    Whole,
    Fraction,
    AtHigh,
    JustAbove,
    Above,
    Infinity,
}

impl Spot {
    pub const ALL: [Spot; 11] = [
        Spot::NotANumber,
        Spot::MinusInfinity,
        Spot::Below,
        Spot::JustBelow,
        Spot::AtLow,
        Spot::Whole,
        Spot::Fraction,
        Spot::AtHigh,
        Spot::JustAbove,
        Spot::Above,
        Spot::Infinity,
    ];

    pub fn of(value: f64, width: Width) -> Spot {
        let (low, high) = (width.low(), width.high());
        match value {
            _ if value.is_nan() => Spot::NotANumber,
            f64::NEG_INFINITY => Spot::MinusInfinity,
            f64::INFINITY => Spot::Infinity,
            _ if value <= low - 1.0 => Spot::Below,
            _ if value < low => Spot::JustBelow,
            _ if value == low => Spot::AtLow,
            _ if value == high => Spot::AtHigh,
            _ if value >= high + 1.0 => Spot::Above,
            _ if value > high => Spot::JustAbove,
            _ if value.fract() == 0.0 => Spot::Whole,
            _ => Spot::Fraction,
        }
    }

    pub fn words(self) -> &'static str {
        match self {
            Spot::NotANumber => "NaN",
            Spot::MinusInfinity => "minus infinity",
            Spot::Below => "a whole step or more below the range",
            Spot::JustBelow => "a fraction below the range",
            Spot::AtLow => "the lowest number",
            Spot::Whole => "a whole number inside",
            Spot::Fraction => "a fraction inside",
            Spot::AtHigh => "the highest number",
            Spot::JustAbove => "a fraction above the range",
            Spot::Above => "a whole step or more above the range",
            Spot::Infinity => "infinity",
        }
    }
}

/// Where used stands to available.
#[derive(Clone, Copy, Debug, PartialEq, Eq, PartialOrd, Ord)]
pub enum Edge {
    AtLimit,
    StepOver,
    StepUnder,
    InSlack,
    UsedNan,
    AvailableNan,
    AvailableInfinite,
    AvailableMinusInfinite,
    AvailableNegative,
    AvailableSubnormal,
    UsedMinusZero,
}

impl Edge {
    pub const ALL: [Edge; 11] = [
        Edge::AtLimit,
        Edge::StepOver,
        Edge::StepUnder,
        Edge::InSlack,
        Edge::UsedNan,
        Edge::AvailableNan,
        Edge::AvailableInfinite,
        Edge::AvailableMinusInfinite,
        Edge::AvailableNegative,
        Edge::AvailableSubnormal,
        Edge::UsedMinusZero,
    ];

    pub fn words(self) -> &'static str {
        match self {
            Edge::AtLimit => "used exactly at the limit",
            Edge::StepOver => "used one step over the limit",
            Edge::StepUnder => "used one step under the limit",
            Edge::InSlack => "used above available, within the slack",
            Edge::UsedNan => "used NaN",
            Edge::AvailableNan => "available NaN",
            Edge::AvailableInfinite => "available infinity",
            Edge::AvailableMinusInfinite => "available minus infinity",
            Edge::AvailableNegative => "available below zero",
            Edge::AvailableSubnormal => "available subnormal",
            Edge::UsedMinusZero => "used minus zero",
        }
    }
}

/// Launched drones that 32 bits do not hold.
#[derive(Clone, Copy, Debug, PartialEq, Eq, PartialOrd, Ord)]
pub enum Hangar {
    First,
    Most,
    Over,
    InSlack,
    LimitLarger,
    LimitNan,
    LimitInfinite,
    LimitMinusInfinite,
    NoRoom,
    Grown,
}

impl Hangar {
    pub const ALL: [Hangar; 10] = [
        Hangar::First,
        Hangar::Most,
        Hangar::Over,
        Hangar::InSlack,
        Hangar::LimitLarger,
        Hangar::LimitNan,
        Hangar::LimitInfinite,
        Hangar::LimitMinusInfinite,
        Hangar::NoRoom,
        Hangar::Grown,
    ];

    pub fn words(self) -> &'static str {
        match self {
            Hangar::First => "4294967296 launched drones",
            Hangar::Most => "1099511627520 launched drones",
            Hangar::Over => "drones over 32 bits, listed",
            Hangar::InSlack => "drones over 32 bits, within the slack",
            Hangar::LimitLarger => "drones over 32 bits, not above their limit",
            Hangar::LimitNan => "drones over 32 bits of NaN",
            Hangar::LimitInfinite => "drones over 32 bits of infinity",
            Hangar::LimitMinusInfinite => "drones over 32 bits of minus infinity",
            Hangar::NoRoom => "drones over 32 bits, refused by 10",
            Hangar::Grown => "listed drones, grown from 32 bits to more",
        }
    }
}

/// Where an item's volume stands to 3500.
#[derive(Clone, Copy, Debug, PartialEq, Eq, PartialOrd, Ord)]
pub enum CapitalEdge {
    At,
    StepOver,
    HalfOver,
}

impl CapitalEdge {
    pub fn words(self) -> &'static str {
        match self {
            CapitalEdge::At => "3500",
            CapitalEdge::StepOver => "one step over 3500",
            CapitalEdge::HalfOver => "3500.5",
        }
    }
}

/// A shape of the input, or of a growth.
#[derive(Clone, Copy, Debug, PartialEq, Eq, PartialOrd, Ord)]
pub enum Shape {
    MoreItems,
    MoreResults,
    NegativeType,
    NegativeAttribute,
    SharedAttribute,
    RackMarksDiffer,
    HardpointMarksDiffer,
    UnknownEffect,
    UnknownType,
    BasesDiffer,
    SkillRing,
    EmptyCargoSum,
    GrownByNothing,
    GrownMoreItems,
    GrownMoreResults,
    GrownCargo,
    GrownLowered,
    GrownEntries,
    GrownNumbers,
}

impl Shape {
    pub const ALL: [Shape; 19] = [
        Shape::MoreItems,
        Shape::MoreResults,
        Shape::NegativeType,
        Shape::NegativeAttribute,
        Shape::SharedAttribute,
        Shape::RackMarksDiffer,
        Shape::HardpointMarksDiffer,
        Shape::UnknownEffect,
        Shape::UnknownType,
        Shape::BasesDiffer,
        Shape::SkillRing,
        Shape::EmptyCargoSum,
        Shape::GrownByNothing,
        Shape::GrownMoreItems,
        Shape::GrownMoreResults,
        Shape::GrownCargo,
        Shape::GrownLowered,
        Shape::GrownEntries,
        Shape::GrownNumbers,
    ];

    pub fn words(self) -> &'static str {
        match self {
            Shape::MoreItems => "more items than results",
            Shape::MoreResults => "more results than items",
            Shape::NegativeType => "a negative type id fitted",
            Shape::NegativeAttribute => "a negative attribute id under a name",
            Shape::SharedAttribute => "two names with one attribute id",
            Shape::RackMarksDiffer => "an item with two different rack marks",
            Shape::HardpointMarksDiffer => "an item with both hardpoint marks",
            Shape::UnknownEffect => "an item with an effect that is not there",
            Shape::UnknownType => "an item whose type is not there",
            Shape::BasesDiffer => "a wanted skill with two values for one demand",
            Shape::SkillRing => "skills that demand each other",
            Shape::EmptyCargoSum => "CargoBay listed with an empty sum, or of -0 alone",
            Shape::GrownByNothing => "grown by nothing",
            Shape::GrownMoreItems => "grown by more items than results",
            Shape::GrownMoreResults => "grown by more results than items",
            Shape::GrownCargo => "grown by cargo",
            Shape::GrownLowered => "levels lowered",
            Shape::GrownEntries => "the grown list has more entries",
            Shape::GrownNumbers => "the grown list has other used numbers or levels",
        }
    }
}

#[cfg(test)]
mod tests {
    use super::*;

    #[test]
    fn spots_of_the_signed_and_the_unsigned_range() {
        assert_eq!(Spot::of(-0.5, Width::U8), Spot::JustBelow);
        assert_eq!(Spot::of(-1.0, Width::U8), Spot::Below);
        assert_eq!(Spot::of(-0.0, Width::U8), Spot::AtLow);
        assert_eq!(Spot::of(255.9, Width::U8), Spot::JustAbove);
        assert_eq!(Spot::of(256.0, Width::U8), Spot::Above);
        assert_eq!(Spot::of(254.5, Width::U8), Spot::Fraction);
        assert_eq!(Spot::of(-2.7, Width::I32), Spot::Fraction);
        assert_eq!(Spot::of(-2_147_483_648.9, Width::I32), Spot::JustBelow);
        assert_eq!(Spot::of(f64::NAN, Width::U16), Spot::NotANumber);
    }
}
