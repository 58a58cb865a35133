//! The tests of the comparison, and the documents' examples on every checker.

mod agreement;
mod cause;
mod common;
mod document;
mod entries;
mod faults;
mod hall;
mod haul;
mod league;
mod leave_out;
mod original;
mod page;
mod reader;
mod recorded;
mod refusals;
mod train;
mod trim;
mod unknown;
mod widen;
