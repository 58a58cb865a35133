//! A site that runs the original: how what it has becomes the two images.

#![forbid(unsafe_code)]

pub mod mapping;

/// The code of `docs/CALLING.md`, run with the doc tests.
#[cfg(doctest)]
#[doc = include_str!("../../../docs/CALLING.md")]
struct Page;
