//! The page `docs/FORMAT.md`: its worked bytes are run by every checker at
//! hand, its tables are held against the original's source, and every section
//! of document 01 that is cited has its heading there.
//!
//! The page's outcomes are worked out from document 01.

mod citations;
#[path = "../all/common.rs"]
#[allow(dead_code)]
mod common;
mod page;
mod tables;
mod worked;
