//! The crate and its command by running them, and what is declared in more
//! than one place. (What is held against the original stands in `rust/site`.)

#![forbid(unsafe_code)]

mod command;
mod declared;
mod dependency;
mod json;
#[path = "../../library.rs"]
#[allow(dead_code)]
mod library;
mod missing;
mod page;
mod sentences;
mod stale;
mod text;

use std::fs;
use std::path::{Path, PathBuf};

/// A folder of a test's own, empty.
fn folder(test: &str) -> PathBuf {
    let folder = Path::new(env!("CARGO_TARGET_TMPDIR")).join(test);
    if folder.exists() {
        fs::remove_dir_all(&folder).unwrap();
    }
    fs::create_dir_all(&folder).unwrap();
    folder
}
