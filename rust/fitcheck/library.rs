// Where the build scripts find libfitcheck.a, the proved library, and what is
// wrong with it where it should not be linked. `compare` builds without a
// library too; `fitcheck` does not.

use std::path::{Path, PathBuf};
use std::time::SystemTime;
use std::{env, fs};

pub const LIBRARY: &str = "libfitcheck.a";

/// What builds the library, at the repository's root.
pub const BUILD: &str = "tools/staticlib";

/// The declarations that the library has to have been built for.
const CALLS: &str = include_str!("src/exported.rs");

/// How the symbol begins that has the interface's number behind it.
const INTERFACE: &str = "fit_interface_";

/// The repository's root, seen from a crate of this workspace.
pub fn root() -> PathBuf {
    let here = env::var_os("CARGO_MANIFEST_DIR").expect("cargo names the crate");
    let root = Path::new(&here).join("../..");
    fs::canonicalize(&root).unwrap_or(root)
}

/// The directory that FITCHECK_LIB_DIR names, if it names one.
pub fn named() -> Option<PathBuf> {
    println!("cargo:rerun-if-env-changed=FITCHECK_LIB_DIR");
    env::var_os("FITCHECK_LIB_DIR").map(PathBuf::from)
}

/// Where `tools/staticlib` puts the library.
pub fn built() -> PathBuf {
    root().join("target/staticlib")
}

/// Whether the directory has the library; cargo asks again when that changes.
pub fn is_in(directory: &Path) -> bool {
    let library = directory.join(LIBRARY);
    println!("cargo:rerun-if-changed={}", library.display());
    library.is_file()
}

/// Why the library cannot be linked into what is being built, if it cannot.
pub fn target_problem() -> Option<String> {
    let of = |name: &str| env::var(name).unwrap_or_default();
    unfit_target(
        &of("CARGO_CFG_TARGET_ARCH"),
        &of("CARGO_CFG_TARGET_OS"),
        &of("TARGET"),
    )
}

/// The library is for x86-64 and Linux alone.
pub fn unfit_target(architecture: &str, system: &str, target: &str) -> Option<String> {
    match (architecture, system) {
        ("x86_64", "linux") => None,
        _ => Some(format!(
            "{LIBRARY} is for x86-64 Linux, and this build is for {target} (architecture \
             {architecture}, system {system})."
        )),
    }
}

/// What is to be said about a library that is there: nothing, a warning, or
/// why it is not linked.
pub enum Verdict {
    Fit,
    Doubtful(String),
    Unfit(String),
}

/// Judges the library of a directory. One that `FITCHECK_LIB_DIR` names may be
/// older than the sources here, as whoever names it may know better.
pub fn verdict(directory: &Path, root: &Path, is_named: bool) -> Verdict {
    let library = directory.join(LIBRARY);
    let shown = library.strip_prefix(root).unwrap_or(&library).display();
    let bytes = match fs::read(&library) {
        Ok(bytes) => bytes,
        Err(error) => return Verdict::Unfit(format!("{shown} cannot be read: {error}.")),
    };
    if let Some(problem) = interface_problem(&bytes) {
        return Verdict::Unfit(format!(
            "{shown} {problem}\n\
             Run `{BUILD}` at the root of the repository that this crate belongs to, and build \
             again."
        ));
    }
    let Some(source) = newer_source(root, &library) else {
        return Verdict::Fit;
    };
    let source = source.strip_prefix(root).unwrap_or(&source).display();
    let stale = format!(
        "{shown} is older than {source}, so it may not do what the source says.\n\
         Run `{BUILD}` at the repository root, which proves and builds it, and build again."
    );
    match is_named {
        true => Verdict::Doubtful(stale),
        false => Verdict::Unfit(format!(
            "{stale}\n\
             (A library that you know to be the right one is linked where FITCHECK_LIB_DIR names \
             its directory.)"
        )),
    }
}

/// The symbol of the interface that the declarations are for.
pub fn interface() -> &'static str {
    let at = CALLS.find(INTERFACE).expect("the calls have a number");
    let digits = CALLS[at + INTERFACE.len()..].chars();
    let digits = digits.take_while(char::is_ascii_digit).count();
    &CALLS[at..at + INTERFACE.len() + digits]
}

/// What is wrong with the interface of an archive, as the end of a sentence
/// that begins with its name.
pub fn interface_problem(archive: &[u8]) -> Option<String> {
    let wanted = interface();
    if !archive.starts_with(b"!<arch>\n") {
        return Some("is not a static library.".to_string());
    }
    let there = interfaces(archive);
    if there.iter().any(|symbol| symbol == wanted) {
        return None;
    }
    let number = &wanted[INTERFACE.len()..];
    Some(match there.first() {
        None => format!(
            "is older than this crate: it has no interface number, and the calls here are those \
             of interface {number} ({wanted})."
        ),
        Some(other) => format!(
            "is of interface {}, and the calls here are those of interface {number}: their \
             parameters, images or rules differ.",
            &other[INTERFACE.len()..]
        ),
    })
}

/// The interface symbols that an archive names.
fn interfaces(archive: &[u8]) -> Vec<String> {
    let prefix = INTERFACE.as_bytes();
    let mut found = Vec::new();
    for (at, window) in archive.windows(prefix.len()).enumerate() {
        if window == prefix {
            let digits = archive[at + prefix.len()..].iter();
            let digits = digits.take_while(|byte| byte.is_ascii_digit());
            let symbol = prefix.iter().chain(digits).map(|byte| char::from(*byte));
            found.push(symbol.collect());
        }
    }
    found
}

/// The newest source that is newer than the library, if one is: `crates.txt`,
/// and what the crate `fitcheck_c` and those it names are made and proved of.
/// None where there are no sources here.
pub fn newer_source(root: &Path, library: &Path) -> Option<PathBuf> {
    let built = changed(library)?;
    let mut newest = None;
    for source in sources(root) {
        println!("cargo:rerun-if-changed={}", source.display());
        newest = newest.max(newest_in(&source));
    }
    newest
        .filter(|(when, _)| *when > built)
        .map(|found| found.1)
}

/// `crates.txt` and the folders behind the library.
fn sources(root: &Path) -> Vec<PathBuf> {
    let list = root.join("crates.txt");
    let Ok(text) = fs::read_to_string(&list) else {
        return Vec::new();
    };
    let names_of = |crate_name: &str| {
        let line = text.lines().find_map(|line| {
            let (name, names) = line.split_once(':')?;
            // A static library's line has a word behind its name.
            (name.split_whitespace().next() == Some(crate_name)).then_some(names)
        });
        line.unwrap_or("").split_whitespace()
    };
    let mut reached = vec!["fitcheck_c"];
    let mut next = 0;
    while next < reached.len() {
        for name in names_of(reached[next]) {
            if !reached.contains(&name) {
                reached.push(name);
            }
        }
        next += 1;
    }
    let folders = reached.into_iter().flat_map(|name| {
        let home = root.join("crates").join(name);
        ["src", "specs", "proofs"].map(|part| home.join(part))
    });
    let folders = folders.filter(|folder| folder.is_dir());
    folders.chain([list.clone()]).collect()
}

/// When a file, or anything in a folder, last changed, and which it is. A
/// folder counts itself: it changes where a file is taken away.
fn newest_in(path: &Path) -> Option<(SystemTime, PathBuf)> {
    let own = changed(path).map(|when| (when, path.to_path_buf()));
    let entries = fs::read_dir(path).into_iter().flatten().flatten();
    entries
        .map(|entry| newest_in(&entry.path()))
        .fold(own, Option::max)
}

fn changed(path: &Path) -> Option<SystemTime> {
    fs::metadata(path).and_then(|it| it.modified()).ok()
}

/// Has cargo link the library of that directory.
pub fn link(directory: &Path) {
    let directory = fs::canonicalize(directory).unwrap_or(directory.to_path_buf());
    println!("cargo:rustc-link-search=native={}", directory.display());
    println!("cargo:rustc-link-lib=static=fitcheck");
}

/// Tells cargo each line of a message, as an error or as a warning.
pub fn tell(kind: &str, message: &str) {
    for line in message.lines() {
        println!("cargo::{kind}={line}");
    }
}
