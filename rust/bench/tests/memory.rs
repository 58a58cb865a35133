//! The stack and the heap of the calls.

#[path = "../../fitcheck/library.rs"]
#[allow(dead_code)]
mod library;

use std::collections::BTreeSet;
use std::fs;
use std::thread;

use bench::stack::{BUDGET, Call, Prepared};

/// Makes the call of the largest inputs in a thread with no more stack than
/// the budget; one byte too many ends the whole test program.
fn fits_the_budget(call: Call) {
    let mut prepared = Prepared::new(call);
    let thread = thread::Builder::new().stack_size(BUDGET);
    let thread = thread.spawn(move || prepared.make());
    thread.expect("a thread can be started").join().unwrap();
}

#[test]
fn the_list_call_fits_the_stack_budget() {
    fits_the_budget(Call::List);
}

#[test]
fn the_skill_call_fits_the_stack_budget() {
    fits_the_budget(Call::Skill);
}

#[test]
fn the_hall_call_fits_the_stack_budget() {
    fits_the_budget(Call::Hall);
}

#[test]
fn the_widening_fits_the_stack_budget() {
    fits_the_budget(Call::Widen);
}

#[test]
fn the_training_fits_the_stack_budget() {
    fits_the_budget(Call::Train);
}

#[test]
fn the_trim_fits_the_stack_budget() {
    fits_the_budget(Call::Trim);
}

#[test]
fn the_cause_fits_the_stack_budget() {
    fits_the_budget(Call::Cause);
}

#[test]
fn leaving_out_fits_the_stack_budget() {
    fits_the_budget(Call::LeaveOut);
}

/// The library that is linked.
fn archive() -> Vec<u8> {
    let directory = std::env::var_os("FITCHECK_LIB_DIR").map(Into::into);
    let path = directory
        .unwrap_or_else(library::built)
        .join(library::LIBRARY);
    fs::read(&path).unwrap_or_else(|error| panic!("{}: {error}", path.display()))
}

/// The object files of an archive.
fn objects(archive: &[u8]) -> Vec<&[u8]> {
    let mut rest = archive.strip_prefix(b"!<arch>\n").expect("an archive");
    let mut objects = Vec::new();
    while rest.len() >= 60 {
        let size = str::from_utf8(&rest[48..58]).unwrap().trim();
        let size: usize = size.parse().unwrap();
        let file = &rest[60..60 + size];
        if file.starts_with(b"\x7fELF") {
            objects.push(file);
        }
        rest = rest.get(60 + size + size % 2..).unwrap_or_default();
    }
    objects
}

/// The names that an object file needs, and those that it has: what
/// `nm` reads, in the form of 64 bits.
fn symbols(object: &[u8]) -> (BTreeSet<&str>, BTreeSet<&str>) {
    let number = |at: usize, n: usize| {
        let bytes = object[at..at + n].iter().rev();
        bytes.fold(0, |number, &byte| number << 8 | usize::from(byte))
    };
    let section = |i: usize| number(40, 8) + i * number(58, 2);
    let (mut needed, mut had) = (BTreeSet::new(), BTreeSet::new());
    for table in (0..number(60, 2)).map(section) {
        let is_table = number(table + 4, 4) == 2;
        if !is_table {
            continue;
        }
        let names = number(section(number(table + 40, 4)) + 24, 8);
        let first = number(table + 24, 8);
        for symbol in (first..first + number(table + 32, 8)).step_by(24) {
            let name = &object[names + number(symbol, 4)..];
            let name = name.split(|&byte| byte == 0).next().unwrap();
            let name = str::from_utf8(name).unwrap();
            let is_elsewhere = number(symbol + 6, 2) == 0;
            if name.is_empty() {
                continue;
            }
            if is_elsewhere {
                needed.insert(name);
            } else {
                had.insert(name);
            }
        }
    }
    (needed, had)
}

#[test]
fn the_library_needs_two_names_of_the_c_library() {
    let archive = archive();
    let (mut needed, mut had) = (BTreeSet::new(), BTreeSet::new());
    for object in objects(&archive) {
        let (more, own) = symbols(object);
        needed.extend(more);
        had.extend(own);
    }
    let needed: Vec<_> = needed.difference(&had).copied().collect();
    assert_eq!(needed, ["memcpy", "memset"]);
}

#[test]
fn the_library_names_no_allocator() {
    let archive = archive();
    let names = |symbol: &str| {
        let stored = [b"\0", symbol.as_bytes(), b"\0"].concat();
        archive.windows(stored.len()).any(|part| part == stored)
    };
    // A symbol that is called stands among the names, as this one does.
    assert!(names("memset"));
    for allocator in [
        "malloc",
        "calloc",
        "realloc",
        "free",
        "aligned_alloc",
        "posix_memalign",
        "mmap",
        "brk",
        "sbrk",
        "__rust_alloc",
    ] {
        assert!(!names(allocator), "{allocator} is called");
    }
}
