//! The bytes are what the descriptions say, and `expected`, which was worked
//! out from document 01, is what the original answers.

use std::fs;

use compare::reference::{self, Original};
use samples::{OLD, SAMPLES, folder, images, old_form, printed, text, types};

#[test]
fn the_bytes_are_made_from_the_descriptions() {
    for sample in SAMPLES {
        let made = images(sample).unwrap();
        for (file, bytes) in [("types.bin", &made.types), ("fit.bin", &made.fit)] {
            let path = folder().join(sample).join(file);
            let stored = fs::read(&path).unwrap();
            assert!(
                stored == *bytes,
                "{}: run `cargo run -p samples`",
                path.display()
            );
        }
    }
}

/// By document 02 in plain code, the old catalogue widens to the one that the
/// other samples share.
#[test]
fn the_old_catalogue_is_the_same_one_in_the_old_form() {
    let new = types().unwrap().catalogue().build().unwrap();
    let stored = fs::read(folder().join(OLD).join("types.bin")).unwrap();
    assert!(
        stored == old_form(&new).unwrap(),
        "run `cargo run -p samples`"
    );
    assert!(stored.len() < new.len(), "it has bases");
    assert!(reference::widen(&stored).unwrap() == new);
}

#[test]
fn the_names_are_those_of_the_catalogue() {
    let stored = text("names.txt").unwrap();
    assert_eq!(
        stored,
        types().unwrap().names().to_string(),
        "run `cargo run -p samples`"
    );
    assert!(stored.contains("\n587 Rifter\n"));
    assert!(stored.contains("\ngroup 60 Damage Control\n"));
}

/// Nothing of the samples goes unchecked, so that nobody is warned of them.
#[test]
fn the_catalogue_lacks_no_name_and_no_mark() {
    assert_eq!(types().unwrap().catalogue().missing().to_string(), "");
}

/// Every group that a type of the samples is in has its name there.
#[test]
fn every_group_of_the_samples_has_a_name() {
    let types = types().unwrap();
    let mut groups = 0;
    for line in text("types.txt").unwrap().lines() {
        let words: Vec<&str> = line.split_whitespace().collect();
        if let ["type", _, "group", group, ..] = words[..] {
            let group = group.parse().unwrap();
            assert!(types.names().group_name(group).is_some(), "group {group}");
            groups += 1;
        }
    }
    assert!(groups > 10, "{groups} types");
}

#[test]
fn the_original_gives_the_expected_answers() {
    for sample in SAMPLES {
        let made = images(sample).unwrap();
        let expected = text(&format!("{sample}/expected")).unwrap();
        assert_eq!(printed(&Original, &made), expected, "{sample}");
    }
}
