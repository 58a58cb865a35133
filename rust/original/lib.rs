//! The original fitting rules: EVEShipFit/dogma-engine at c562f6e7a8, MIT (see
//! `src/LICENSE`), compiled as published. `build.rs` says how.
//!
//! `validate` is private to its crate and `report` to its module; [`Run`] is
//! the way to call them. Nothing under `src/` is edited.

// The published modules, with the stand-ins beside them.
include!(concat!(env!("OUT_DIR"), "/engine/modules.rs"));

pub use calculate::{AttributeValue, Calculation, ItemResult};
pub use esf_data::{Info, eve};
pub use fit::{Character, Environment, Fit, FitItem, Ship, Slot, State};
pub use flatbuffers::Vector;
pub use projection::Projection;
pub use validate::{GroupLimit, Resource, Rule, SlotKind, Target, Violation};

/// A fit, what it calculated to, and the type data to judge it by.
pub struct Run<'a, I> {
    pub info: &'a I,
    pub fit: &'a Fit,
    pub calculation: &'a Calculation,
}

impl<I: Info> Run<'_, I> {
    /// Every rule that the fit breaks, as published.
    pub fn validate(&self) -> Vec<Violation> {
        validate::validate(self.info, self.fit, self.calculation)
    }

    /// Whether the fit's ship is a hull.
    pub fn is_hull(&self) -> bool {
        calculate::is_hull(self.info, self.fit.ship.type_id)
    }
}
