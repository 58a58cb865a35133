//! A site of its own workspace that names this crate by its folder, built by
//! cargo as a site's developer builds it, with libraries good and bad.

use std::fs::{self, File};
use std::path::{Path, PathBuf};
use std::process::{Command, Output};
use std::time::{Duration, SystemTime};

use crate::library;

const MANIFEST: &str = "\
[workspace]

[package]
name = \"hall-page\"
version = \"0.1.0\"
edition = \"2021\"

[dependencies]
fitcheck = { path = \"yazukoremi/rust/fitcheck\" }
";

const PROGRAM: &str = "\
fn main() {
    let hall = fitcheck::hall(&[0; 20], &[&[0; 36], &[0; 35]]).unwrap();
    println!(\"{} faulted, {} refused\", hall.faulted, hall.refused);
}
";

/// The site's folder, with the repository inside it as a site has it.
struct Site(PathBuf);

impl Site {
    fn new(test: &str) -> Site {
        let name = format!("fitcheck-{test}-{}", std::process::id());
        let site = Site(std::env::temp_dir().join(name));
        let here = Path::new(env!("CARGO_MANIFEST_DIR"));
        let inside = site.0.join("yazukoremi");
        fs::create_dir_all(site.0.join("src")).unwrap();
        fs::write(site.0.join("Cargo.toml"), MANIFEST).unwrap();
        fs::write(site.0.join("src/main.rs"), PROGRAM).unwrap();
        workspace(&here.join(".."), &inside.join("rust"));
        fs::create_dir_all(inside.join("crates/fitcheck/src")).unwrap();
        let crates = "fitcheck:\nfitcheck_c staticlib: fitcheck\n";
        fs::write(inside.join("crates.txt"), crates).unwrap();
        fs::write(site.source(), "// the calls\n").unwrap();
        fs::create_dir_all(inside.join("target/staticlib")).unwrap();
        site.put(&fs::read(Path::new(env!("FITCHECK_LINKED")).join(library::LIBRARY)).unwrap());
        site
    }

    fn source(&self) -> PathBuf {
        self.0.join("yazukoremi/crates/fitcheck/src/lib.rt")
    }

    fn libraries(&self) -> PathBuf {
        self.0.join("yazukoremi/target/staticlib")
    }

    /// Puts a library where `tools/staticlib` would, later than every source.
    fn put(&self, bytes: &[u8]) {
        let path = self.libraries().join(library::LIBRARY);
        fs::write(&path, bytes).unwrap();
        touch(&path, 10);
    }

    fn cargo(&self, words: &str) -> Command {
        let mut cargo = Command::new(env!("CARGO"));
        cargo
            .args(words.split_whitespace())
            .current_dir(&self.0)
            .env("CARGO_TARGET_DIR", self.0.join("target"))
            .env_remove("FITCHECK_LIB_DIR")
            // What `cargo test` and `cargo run` set for their own build.
            .env_remove("RUSTC_WORKSPACE_WRAPPER")
            .env_remove("CARGO_BUILD_TARGET");
        cargo
    }
}

fn touch(path: &Path, seconds: u64) {
    let when = SystemTime::now() + Duration::from_secs(seconds);
    let file = File::options().append(true).open(path).unwrap();
    file.set_modified(when).unwrap();
}

impl Drop for Site {
    fn drop(&mut self) {
        // What is left behind stands in the system's own temporary folder.
        let _ = fs::remove_dir_all(&self.0);
    }
}

/// Copies the workspace: its manifest and its crates.
fn workspace(from: &Path, to: &Path) {
    fs::create_dir_all(to).unwrap();
    fs::copy(from.join("Cargo.toml"), to.join("Cargo.toml")).unwrap();
    for entry in fs::read_dir(from).unwrap() {
        let (path, name) = (entry.as_ref().unwrap().path(), entry.unwrap().file_name());
        if path.join("Cargo.toml").is_file() || name == "stand-ins" {
            copy(&path, &to.join(name));
        }
    }
}

/// Copies a folder but for what cargo builds in it.
fn copy(from: &Path, to: &Path) {
    fs::create_dir_all(to).unwrap();
    for entry in fs::read_dir(from).unwrap() {
        let entry = entry.unwrap();
        let target = to.join(entry.file_name());
        if !entry.file_type().unwrap().is_dir() {
            fs::copy(entry.path(), target).unwrap();
        } else if entry.file_name() != "target" {
            copy(&entry.path(), &target);
        }
    }
}

fn said(ran: &Output) -> String {
    format!(
        "{}{}",
        String::from_utf8_lossy(&ran.stdout),
        String::from_utf8_lossy(&ran.stderr)
    )
}

/// The archive with one name in the place of another of the same length.
fn renamed(archive: &[u8], from: &str, to: &str) -> Vec<u8> {
    assert_eq!(from.len(), to.len());
    let mut bytes = archive.to_vec();
    let mut found = 0;
    for at in 0..bytes.len() - from.len() {
        if bytes[at..].starts_with(from.as_bytes()) {
            bytes[at..at + to.len()].copy_from_slice(to.as_bytes());
            found += 1;
        }
    }
    assert!(found > 0, "{from} is in the archive");
    bytes
}

/// An archive with one more member, which is no object.
fn with_member(archive: &[u8], content: &str) -> Vec<u8> {
    let mut bytes = archive.to_vec();
    if bytes.len() % 2 == 1 {
        bytes.push(b'\n');
    }
    let header = format!(
        "{:<16}{:<12}{:<6}{:<6}{:<8}{:<10}`\n",
        "note.txt/",
        0,
        0,
        0,
        644,
        content.len()
    );
    bytes.extend(header.as_bytes());
    bytes.extend(content.as_bytes());
    if bytes.len() % 2 == 1 {
        bytes.push(b'\n');
    }
    bytes
}

#[test]
fn a_site_with_a_workspace_of_its_own_links_the_library_that_belongs_to_it() {
    let site = Site::new("dependency");
    let good = fs::read(site.libraries().join(library::LIBRARY)).unwrap();

    let ran = site.cargo("run --offline --quiet").output().unwrap();
    assert!(ran.status.success(), "{}", said(&ran));
    assert_eq!(
        String::from_utf8_lossy(&ran.stdout),
        "1 faulted, 1 refused\n"
    );

    // The source changes, and the build says what to run.
    touch(&site.source(), 20);
    let ran = site.cargo("build --offline").output().unwrap();
    assert!(!ran.status.success(), "{}", said(&ran));
    for part in [
        "target/staticlib/libfitcheck.a is older than crates/fitcheck/src/lib.rt",
        "Run `tools/staticlib` at the repository root",
    ] {
        assert!(said(&ran).contains(part), "no {part:?} in {}", said(&ran));
    }
    let ran = site
        .cargo("build --offline")
        .env("FITCHECK_LIB_DIR", site.libraries())
        .output()
        .unwrap();
    assert!(ran.status.success(), "{}", said(&ran));
    assert!(said(&ran).contains("warning: fitcheck"), "{}", said(&ran));
    assert!(said(&ran).contains("is older than crates/fitcheck/src/lib.rt"));
    touch(&site.source(), 0);

    // Libraries of other interfaces.
    let wanted = library::interface();
    let none = wanted.replacen("fit_", "fut_", 1);
    let mut other = wanted.to_string();
    let last = other.pop();
    other.push(if last == Some('9') { '8' } else { '9' });
    let number = other.trim_start_matches("fit_interface_");
    let is_other = format!("is of interface {number}");
    for (archive, part) in [
        (renamed(&good, wanted, &none), "it has no interface number"),
        (renamed(&good, wanted, &other), &is_other),
    ] {
        site.put(&archive);
        let ran = site.cargo("build --offline").output().unwrap();
        assert!(!ran.status.success(), "{}", said(&ran));
        assert!(said(&ran).contains(part), "no {part:?} in {}", said(&ran));
        assert!(said(&ran).contains("Run `tools/staticlib`"));
    }

    // One that names the number and does not have it: the link itself fails.
    site.put(&with_member(&renamed(&good, wanted, &none), wanted));
    let ran = site.cargo("build --offline").output().unwrap();
    assert!(!ran.status.success(), "{}", said(&ran));
    let undefined = said(&ran)
        .lines()
        .any(|line| line.contains("undefined") && line.contains(wanted));
    assert!(undefined, "{}", said(&ran));

    site.put(&good);
    let ran = site.cargo("run --offline --quiet").output().unwrap();
    assert!(ran.status.success(), "{}", said(&ran));
}
