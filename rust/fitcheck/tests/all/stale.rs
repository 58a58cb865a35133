//! Which library the build script links, and what it says of the others.

use std::fs::{self, File};
use std::path::{Path, PathBuf};
use std::time::{Duration, SystemTime};

use crate::folder;
use crate::library::{self, Verdict};

const CRATES: &str = "# lowest first\nwords:\nskill: words\nfitcheck: skill\n\
     fitcheck_c staticlib: fitcheck\nchecker: words fitcheck\n";

/// An archive as far as the build script looks at it.
fn archive(symbols: &str) -> Vec<u8> {
    [b"!<arch>\n".as_slice(), symbols.as_bytes(), b"\0"].concat()
}

/// A repository with a library of this interface, older than nothing.
fn repository(test: &str) -> PathBuf {
    let root = folder(test);
    for file in [
        "crates/words/specs/Words.antt",
        "crates/skill/src/lib.rt",
        "crates/skill/proofs/walk/Proof.antt",
        "crates/fitcheck/src/lib.rt",
        "crates/fitcheck_c/src/lib.rt",
        "crates/checker/src/main.rt",
        "crates/skill/must-fail/one.edit",
        "target/staticlib/libfitcheck.a",
    ] {
        let path = root.join(file);
        fs::create_dir_all(path.parent().unwrap()).unwrap();
        fs::write(path, archive(library::interface())).unwrap();
    }
    fs::write(root.join("crates.txt"), CRATES).unwrap();
    set(&root.join("target/staticlib/libfitcheck.a"), 10);
    root
}

/// Sets when a file was changed, in seconds from now.
fn set(path: &Path, seconds: u64) {
    let when = SystemTime::now() + Duration::from_secs(seconds);
    File::options()
        .append(true)
        .open(path)
        .and_then(|file| file.set_modified(when))
        .unwrap();
}

fn judged(root: &Path, is_named: bool) -> Verdict {
    library::verdict(&root.join("target/staticlib"), root, is_named)
}

fn refused(root: &Path) -> String {
    match judged(root, false) {
        Verdict::Unfit(message) => message,
        _ => panic!("it is linked"),
    }
}

#[test]
fn a_library_that_is_newer_than_its_sources_is_linked() {
    let root = repository("fresh");
    assert!(matches!(judged(&root, false), Verdict::Fit));
    assert!(matches!(judged(&root, true), Verdict::Fit));
}

#[test]
fn a_source_that_is_newer_than_the_library_is_named() {
    for source in [
        "crates.txt",
        "crates/words/specs/Words.antt",
        "crates/skill/src/lib.rt",
        "crates/skill/proofs/walk/Proof.antt",
        "crates/fitcheck/src/lib.rt",
        "crates/fitcheck_c/src/lib.rt",
    ] {
        let root = repository("newer");
        set(&root.join(source), 20);
        assert_eq!(
            refused(&root),
            format!(
                "target/staticlib/libfitcheck.a is older than {source}, so it may not do what the \
                 source says.\n\
                 Run `tools/staticlib` at the repository root, which proves and builds it, and \
                 build again.\n\
                 (A library that you know to be the right one is linked where FITCHECK_LIB_DIR \
                 names its directory.)"
            )
        );
        match judged(&root, true) {
            Verdict::Doubtful(message) => assert!(message.contains(source), "{message}"),
            _ => panic!("a named library is linked with a warning"),
        }
    }
}

/// The programs and the wrong edits are no part of the library.
#[test]
fn what_the_library_is_not_made_of_may_be_newer() {
    for other in [
        "crates/checker/src/main.rt",
        "crates/skill/must-fail/one.edit",
    ] {
        let root = repository("other");
        set(&root.join(other), 20);
        assert!(matches!(judged(&root, false), Verdict::Fit), "{other}");
    }
}

/// Puts everything in a folder, and itself, so many seconds back.
fn age(path: &Path, seconds: u64) {
    if path.is_dir() {
        for entry in fs::read_dir(path).unwrap() {
            age(&entry.unwrap().path(), seconds);
        }
    }
    let when = SystemTime::now() - Duration::from_secs(seconds);
    File::open(path).unwrap().set_modified(when).unwrap();
}

#[test]
fn a_source_that_was_taken_away_is_noticed() {
    let root = repository("taken");
    age(&root, 100);
    age(&root.join("target/staticlib/libfitcheck.a"), 50);
    assert!(matches!(judged(&root, false), Verdict::Fit));
    fs::remove_file(root.join("crates/skill/proofs/walk/Proof.antt")).unwrap();
    assert!(refused(&root).contains(" is older than crates/skill/proofs/walk,"));
}

#[test]
fn without_the_sources_the_library_is_taken_as_it_is() {
    let root = repository("alone");
    fs::remove_file(root.join("crates.txt")).unwrap();
    set(&root.join("crates/skill/src/lib.rt"), 20);
    assert!(matches!(judged(&root, false), Verdict::Fit));
}

#[test]
fn a_library_of_another_interface_is_not_linked() {
    let root = repository("interface");
    let library = root.join("target/staticlib/libfitcheck.a");
    let wanted = library::interface();
    for (content, said) in [
        (
            archive("fit_list"),
            "is older than this crate: it has no interface number",
        ),
        (
            archive("fit_interface_977"),
            "is of interface 977, and the calls here are those of",
        ),
        (
            archive(&format!("{wanted}7")),
            "their parameters, images or rules differ.",
        ),
        (b"fit_interface_9".to_vec(), "is not a static library."),
        (Vec::new(), "is not a static library."),
    ] {
        fs::write(&library, content).unwrap();
        set(&library, 10);
        for is_named in [false, true] {
            match judged(&root, is_named) {
                Verdict::Unfit(message) => {
                    assert!(message.starts_with("target/staticlib/libfitcheck.a is "));
                    assert!(message.contains(said), "{message}");
                    assert!(message.contains("Run `tools/staticlib`"), "{message}");
                }
                _ => panic!("{said}: it is linked"),
            }
        }
    }
    assert_eq!(library::interface_problem(&archive(wanted)), None);
}

#[test]
fn the_library_is_for_x86_64_linux_alone() {
    assert_eq!(
        library::unfit_target("x86_64", "linux", "x86_64-unknown-linux-gnu"),
        None
    );
    for (architecture, system, target) in [
        ("aarch64", "linux", "aarch64-unknown-linux-gnu"),
        ("x86_64", "macos", "x86_64-apple-darwin"),
        ("x86_64", "windows", "x86_64-pc-windows-msvc"),
    ] {
        let said = library::unfit_target(architecture, system, target).unwrap();
        assert!(said.contains("is for x86-64 Linux"), "{said}");
        assert!(said.contains(target) && said.contains(system), "{said}");
    }
}
