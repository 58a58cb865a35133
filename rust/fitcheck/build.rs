//! Finds `libfitcheck.a`, the proved library, or has `tools/staticlib` build
//! it; without one that belongs to the calls and sources here this crate is not
//! built, and the message says what to do.

#![forbid(unsafe_code)]

mod library;

use std::io::ErrorKind;
use std::path::PathBuf;
use std::process::Command;

use library::{BUILD, LIBRARY, Verdict};

fn main() {
    println!("cargo:rerun-if-changed=build.rs");
    println!("cargo:rerun-if-changed=library.rs");
    println!("cargo:rerun-if-changed=src/exported.rs");
    match judged() {
        Ok(directory) => {
            library::link(&directory);
            // For the tests, which link it from C.
            println!("cargo:rustc-env=FITCHECK_LINKED={}", directory.display());
        }
        Err(message) => library::tell("error", &message),
    }
}

/// The directory of a library that may be linked, or why there is none.
fn judged() -> Result<PathBuf, String> {
    let named = library::named();
    let directory = directory(named.clone())?;
    match library::verdict(&directory, &library::root(), named.is_some()) {
        Verdict::Fit => {}
        Verdict::Doubtful(message) => library::tell("warning", &message),
        Verdict::Unfit(message) => return Err(message),
    }
    Ok(directory)
}

/// The directory that has the library, or why there is none.
fn directory(named: Option<PathBuf>) -> Result<PathBuf, String> {
    if let Some(problem) = library::target_problem() {
        return Err(problem);
    }
    if let Some(named) = named {
        if library::is_in(&named) {
            return Ok(named);
        }
        let from = match named.is_relative() {
            true => " (a relative path counts from the folder of this crate)",
            false => "",
        };
        return Err(format!(
            "FITCHECK_LIB_DIR is {}{from}, and there is no {LIBRARY} in it.\n\
             Build it by `{BUILD}` at the repository root and name the directory that has it, or \
             take FITCHECK_LIB_DIR away: target/staticlib is looked at by itself.",
            named.display()
        ));
    }
    let built = library::built();
    if library::is_in(&built) {
        return Ok(built);
    }
    build()?;
    if library::is_in(&built) {
        return Ok(built);
    }
    Err(format!(
        "`{BUILD}` ended well and left no {LIBRARY} in the repository's target/staticlib."
    ))
}

/// Has the library proved and built, which takes minutes from nothing.
fn build() -> Result<(), String> {
    let root = library::root();
    let missing = format!(
        "no {LIBRARY}, the proved fit checker, in the repository's target/staticlib, and \
         FITCHECK_LIB_DIR names no directory."
    );
    if !root.join("crates.txt").is_file() {
        return Err(format!(
            "{missing}\n\
             This crate stands outside its repository, so it cannot build the library itself: run \
             `{BUILD}` in the repository and set FITCHECK_LIB_DIR to the directory that has it."
        ));
    }
    let kit = Command::new("rt").arg("version").output();
    if kit.is_err_and(|error| error.kind() == ErrorKind::NotFound) {
        return Err(format!(
            "{missing}\n\
             Install the Rattle kit, which puts `rt` on the PATH, and build again (this build then \
             runs `{BUILD}` itself); or set FITCHECK_LIB_DIR to a directory that has {LIBRARY}."
        ));
    }
    let run = Command::new(root.join(BUILD)).current_dir(&root).output();
    match run {
        Ok(run) if run.status.success() => Ok(()),
        Ok(run) => {
            let said = [run.stdout, run.stderr].concat();
            let said = String::from_utf8_lossy(&said);
            let lines: Vec<&str> = said.lines().collect();
            let last = &lines[lines.len().saturating_sub(10)..];
            Err(format!(
                "{missing}\n\
                 `{BUILD}` was run to build it and failed ({}). Its last lines:\n{}",
                run.status,
                last.join("\n")
            ))
        }
        Err(error) => Err(format!(
            "{missing}\n`{BUILD}` could not be run to build it: {error}."
        )),
    }
}
