//! Citations of document 01 by section, throughout the repository.

use std::collections::BTreeSet;
use std::fs;
use std::path::{Path, PathBuf};

use crate::page::headings;

/// The folders that cite it.
const FOLDERS: [&str; 4] = ["crates", "docs", "rust", "tests"];

/// The text files under a folder, but for what was built.
fn files(folder: &Path, found: &mut Vec<PathBuf>) {
    for entry in fs::read_dir(folder).unwrap() {
        let path = entry.unwrap().path();
        if path.is_dir() {
            if path.file_name().is_some_and(|name| name != "target") {
                files(&path, found);
            }
        } else {
            found.push(path);
        }
    }
}

/// The sections that a line names behind `Document 01, `.
fn cited(line: &str) -> Vec<&str> {
    match line.split_once("ocument 01, \"") {
        Some((_, rest)) => rest.split('"').step_by(2).collect(),
        None => Vec::new(),
    }
}

#[test]
fn every_section_that_is_cited_has_its_heading() {
    let root = Path::new(env!("CARGO_MANIFEST_DIR")).join("../..");
    let mut found = Vec::new();
    FOLDERS
        .iter()
        .for_each(|folder| files(&root.join(folder), &mut found));
    let headings = headings();
    let mut sections = BTreeSet::new();
    for path in found {
        let Ok(text) = fs::read_to_string(&path) else {
            continue;
        };
        for section in text.lines().flat_map(cited) {
            assert!(headings.contains(&section), "{}: {section}", path.display());
            sections.insert(section.to_string());
        }
    }
    assert!(sections.len() >= 9, "{sections:?}");
}
