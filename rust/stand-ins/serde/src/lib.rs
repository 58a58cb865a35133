//! Stand-in for `serde`: the traits and methods that `fit.rs` names, so that
//! it compiles as published. No format implements them.

pub mod de;

pub use de::{Deserialize, Deserializer};
pub use serde_derive::{Deserialize, Serialize};
