//! Stand-in for `esf-data`: `Info` is the published file, the tables are ours.

#[path = "../../../original/src/crates/esf-data/src/info.rs"]
mod info;
mod sde;

pub use info::{Info, InfoEsf, InfoExport, InfoName};
pub use sde::eve;
