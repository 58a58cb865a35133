//! Times the proved library beside the original: see `docs/BENCHMARKS.md`.

#![deny(unsafe_code)]

pub mod fits;
pub mod report;
pub mod scan;
pub mod stack;
pub mod subject;
pub mod svg;
pub mod tables;
pub mod timing;
pub mod world;
