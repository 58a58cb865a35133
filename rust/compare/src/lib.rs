//! Holds a fit checker against the original Rust by running both on the same
//! images: see `README.md` in the workspace.

pub mod args;
pub mod case;
pub mod cases;
pub mod checker;
pub mod faults;
pub mod fixed;
pub mod generate;
pub mod grown;
pub mod guard;
pub mod hauled;
pub mod large;
pub mod model;
pub mod names;
pub mod numbers;
pub mod page;
pub mod plain;
pub mod profile;
pub mod rattle;
pub mod reader;
pub mod record;
pub mod reference;
pub mod rng;
pub mod run;
pub mod shrink;
pub mod sketch;
pub mod tally;
pub mod threads;
mod verdict;
pub mod words;
