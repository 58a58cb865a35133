//! Why a builder makes no image.

use std::error::Error;
use std::fmt;

use crate::{Attribute, SlotType};

/// Why a builder makes no image: the field, and what stands in it.
#[non_exhaustive]
#[derive(Debug, Clone, Copy, PartialEq)]
pub enum BuildError {
    /// An attribute name has two ids.
    DuplicateName {
        /// The name.
        attribute: Attribute,
    },
    /// An effect stands twice.
    DuplicateEffect {
        /// Its id.
        effect_id: i32,
    },
    /// A type stands twice.
    DuplicateType {
        /// Its id.
        type_id: i32,
    },
    /// The catalogue is longer than the checker takes.
    CatalogueTooLong {
        /// How long it would be.
        bytes: usize,
    },
    /// A part of the fit has more rows than the checker takes.
    TooMany {
        /// Which part.
        part: FitPart,
        /// How many rows it has.
        count: usize,
    },
    /// A skill stands twice.
    DuplicateSkill {
        /// The skill's type id.
        type_id: i32,
    },
    /// A result has two values for one attribute.
    DuplicateAttribute {
        /// The result: 0 is the ship's, 1 the character's, 2 the first item's.
        result: usize,
        /// The attribute's id.
        attribute_id: i32,
    },
    /// The kind of slot has no such index.
    SlotIndex {
        /// The kind.
        slot: SlotType,
        /// The index.
        index: u16,
    },
    /// There are items without a result and results without an item: in the
    /// image they would belong together.
    Unpaired {
        /// How many items have no result.
        items: usize,
        /// How many results have no item.
        results: usize,
    },
}

/// The parts of a fit that have a limit.
#[non_exhaustive]
#[derive(Debug, Clone, Copy, PartialEq, Eq)]
pub enum FitPart {
    /// Listed skills.
    Skills,
    /// Items.
    Items,
    /// Results of items.
    Results,
    /// Attributes of all results together.
    Attributes,
}

impl FitPart {
    /// How many rows the checker takes at most.
    pub fn most(self) -> usize {
        match self {
            FitPart::Skills => 1_024,
            FitPart::Items | FitPart::Results => 256,
            FitPart::Attributes => 30_000,
        }
    }
}

impl fmt::Display for FitPart {
    fn fmt(&self, formatter: &mut fmt::Formatter<'_>) -> fmt::Result {
        formatter.write_str(match self {
            FitPart::Skills => "skills",
            FitPart::Items => "items",
            FitPart::Results => "results of items",
            FitPart::Attributes => "attributes of all results",
        })
    }
}

impl fmt::Display for BuildError {
    fn fmt(&self, formatter: &mut fmt::Formatter<'_>) -> fmt::Result {
        match self {
            BuildError::DuplicateName { attribute } => {
                write!(formatter, "attribute name {attribute} has two ids")
            }
            BuildError::DuplicateEffect { effect_id } => {
                write!(formatter, "effect id {effect_id} stands twice")
            }
            BuildError::DuplicateType { type_id } => {
                write!(formatter, "type id {type_id} stands twice")
            }
            BuildError::CatalogueTooLong { bytes } => write!(
                formatter,
                "the catalogue has {bytes} bytes: the most is {}",
                crate::CATALOGUE_BYTES
            ),
            BuildError::TooMany { part, count } => {
                write!(formatter, "{count} {part}: the most is {}", part.most())
            }
            BuildError::DuplicateSkill { type_id } => {
                write!(formatter, "skill {type_id} stands twice")
            }
            BuildError::DuplicateAttribute {
                result,
                attribute_id,
            } => write!(
                formatter,
                "attribute id {attribute_id} stands twice in result {result} (0 is the ship's, 1 \
                 the character's, 2 the first item's)"
            ),
            BuildError::SlotIndex { slot, index } => match slot {
                SlotType::FighterBay | SlotType::DroneBay | SlotType::Cargo => {
                    let name = slot.name().replace('_', " ");
                    write!(formatter, "slot index {index}: {name} has no other than 0")
                }
                SlotType::FighterTube => write!(
                    formatter,
                    "slot index {index}: the highest of a fighter tube is {}",
                    slot.highest_index()
                ),
                _ => write!(
                    formatter,
                    "slot index {index}: the highest of a {slot} slot is {}",
                    slot.highest_index()
                ),
            },
            BuildError::Unpaired { items, results } => write!(
                formatter,
                "{items} items without a result and {results} results without an item would \
                 belong together in the image"
            ),
        }
    }
}

impl Error for BuildError {}
