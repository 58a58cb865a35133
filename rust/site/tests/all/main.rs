//! The crate `fitcheck` beside the original and beside the comparison's own
//! layout of the images.

#![forbid(unsafe_code)]

mod buffers;
mod builders;
mod cause;
mod common;
mod entries;
mod hall;
mod league;
mod leave_out;
mod mapping;
mod original;
mod page;
mod reader;
mod threads;
mod train;
mod trim;
mod widen;
