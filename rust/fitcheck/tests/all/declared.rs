//! The calls as they are declared for Rust and for C, held against the Rattle
//! source that exports them.

use std::collections::BTreeMap;
use std::fs;
use std::path::Path;

use crate::library;

const EXPORTED: &str = include_str!("../../src/exported.rs");
const HEADER: &str = include_str!("../../include/fitcheck.h");

/// A symbol's parameters in the words of Rust, a slice as its pointer and its
/// length, and what it returns.
type Calls = BTreeMap<String, (Vec<String>, String)>;

/// The text without what stands behind `//`, and without `/* .. */`.
fn without_comments(text: &str) -> String {
    let lines: Vec<&str> = text
        .lines()
        .map(|line| line.split("//").next().unwrap_or(""))
        .collect();
    let joined = lines.join("\n");
    let mut parts = joined.split("/*");
    let mut rest = parts.next().unwrap_or("").to_string();
    for part in parts {
        rest += part.split_once("*/").expect("a comment ends").1;
    }
    rest
}

/// The words between two marks, spaces made single.
fn between<'a>(text: &'a str, from: &str, to: &str) -> &'a str {
    let (_, rest) = text.split_once(from).unwrap_or(("", text));
    rest.split_once(to).expect("it ends").0
}

fn words(text: &str) -> Vec<String> {
    text.split(',')
        .map(|word| word.split_whitespace().collect::<Vec<_>>().join(" "))
        .filter(|word| !word.is_empty())
        .collect()
}

/// The functions that Rattle exports from a source.
fn rattle(source: &str) -> Calls {
    let source = without_comments(source);
    let mut calls = Calls::new();
    for item in source.split("#[unsafe(no_mangle)]").skip(1) {
        let item = item.trim_start();
        let item = item
            .strip_prefix("pub extern \"C\" fn ")
            .expect("what is not mangled is a public C function");
        let (name, rest) = item.split_once('(').expect("parameters");
        let (parameters, rest) = rest.split_once(')').expect("the parameters end");
        let returned = rest.trim_start().strip_prefix("-> ").expect("a result");
        let returned = returned.split_whitespace().next().expect("its type");
        let mut flat = Vec::new();
        for parameter in words(parameters) {
            let (name, kind) = parameter.split_once(": ").expect("a type");
            // `result` is a word of Rattle's clauses.
            let name = if name == "res" { "result" } else { name };
            let pointer = match kind {
                "&[u8]" => "*const u8",
                "&mut [u8]" => "*mut u8",
                number => {
                    assert!(["u32", "u64"].contains(&number), "{number} is no C number");
                    flat.push(format!("{name}: {number}"));
                    continue;
                }
            };
            flat.push(format!("{name}: {pointer}"));
            flat.push(format!("{name}_length: usize"));
        }
        calls.insert(name.to_string(), (flat, returned.to_string()));
    }
    calls
}

/// Everything that the crate `fitcheck_c` of the Rattle side exports.
fn exports() -> Calls {
    let folder = Path::new(env!("CARGO_MANIFEST_DIR")).join("../../crates/fitcheck_c/src");
    let mut calls = Calls::new();
    for file in fs::read_dir(&folder).expect("the Rattle source is there") {
        let path = file.unwrap().path();
        if path.extension().is_some_and(|it| it == "rt") {
            calls.extend(rattle(&fs::read_to_string(path).unwrap()));
        }
    }
    calls
}

/// The functions of an `extern` block; a `link_name` is the symbol.
fn rust(source: &str) -> Calls {
    let source = without_comments(source);
    assert_eq!(source.matches("extern \"C\"").count(), 1, "one block");
    let block = between(&source, "extern \"C\" {", "\n}");
    let mut calls = Calls::new();
    for item in block.split(';').filter(|item| !item.trim().is_empty()) {
        let (before, function) = item.split_once("fn ").expect("a function");
        let (name, rest) = function.split_once('(').expect("parameters");
        let (parameters, returned) = rest.split_once(") -> ").expect("a result");
        let symbol = match before.split_once("#[link_name = \"") {
            Some((_, named)) => named.split('"').next().unwrap_or(""),
            None => name,
        };
        calls.insert(
            symbol.to_string(),
            (words(parameters), returned.to_string()),
        );
    }
    calls
}

/// The functions of a C header.
fn header(source: &str) -> Calls {
    let source = without_comments(source);
    let mut calls = Calls::new();
    for item in source.split("uint64_t fit_").skip(1) {
        let (name, rest) = item.split_once('(').expect("parameters");
        let (parameters, _) = rest.split_once(");").expect("the parameters end");
        let mut flat = Vec::new();
        for parameter in words(parameters).iter().filter(|word| *word != "void") {
            let kinds = [
                ("const uint8_t *", "*const u8"),
                ("uint8_t *", "*mut u8"),
                ("size_t ", "usize"),
                ("uint32_t ", "u32"),
                ("uint64_t ", "u64"),
            ];
            let found = kinds.iter().find_map(|(written, kind)| {
                let name = parameter.strip_prefix(written)?;
                Some(format!("{name}: {kind}"))
            });
            flat.push(found.unwrap_or_else(|| panic!("{parameter} has no known type")));
        }
        calls.insert(format!("fit_{name}"), (flat, "u64".to_string()));
    }
    calls
}

#[test]
fn rust_declares_what_rattle_exports() {
    let exports = exports();
    assert!(exports.contains_key("fit_list"), "{exports:?}");
    assert_eq!(rust(EXPORTED), exports);
}

#[test]
fn the_c_header_declares_what_rattle_exports() {
    assert_eq!(header(HEADER), exports());
}

/// The readers above tell declarations apart: each change of one is noticed.
#[test]
fn a_changed_declaration_is_noticed() {
    let exports = exports();
    for (from, to) in [
        ("catalogue_length: usize", "catalogue_size: usize"),
        ("result: u32", "result: u64"),
        ("out: *mut u8", "out: *const u8"),
        ("fn fit_hall", "fn fit_halls"),
        (library::interface(), "fit_interface_0"),
    ] {
        assert!(EXPORTED.contains(from), "{from}");
        assert_ne!(rust(&EXPORTED.replace(from, to)), exports, "{from}");
    }
    for (from, to) in [
        ("size_t fit_length", "uint32_t fit_length"),
        ("uint8_t *out", "const uint8_t *out"),
        ("uint32_t result,", ""),
        (library::interface(), "fit_interface_0"),
    ] {
        assert!(HEADER.contains(from), "{from}");
        assert_ne!(header(&HEADER.replace(from, to)), exports, "{from}");
    }
}

/// The number is in one place on each side: here, and in the Rattle source.
#[test]
fn both_sides_have_one_interface_number_and_the_same() {
    let numbered: Vec<String> = exports()
        .into_keys()
        .filter(|name| name.starts_with("fit_interface_"))
        .collect();
    assert_eq!(numbered, [library::interface()]);
    assert_eq!(EXPORTED.matches("fit_interface_").count(), 1);
    let number = library::interface().trim_start_matches("fit_interface_");
    assert_eq!(
        fitcheck::interface().to_string(),
        number,
        "the library's own"
    );
}

/// What the header's constants say is what the crate's say.
#[test]
fn the_headers_numbers_are_the_crates() {
    let number = |name: &str| -> usize {
        let line = HEADER
            .lines()
            .find_map(|line| line.strip_prefix("#define ")?.strip_prefix(name))
            .unwrap_or_else(|| panic!("no {name}"));
        line.trim().parse().unwrap()
    };
    assert_eq!(number("FITCHECK_ENTRY_BYTES"), fitcheck::ENTRY_BYTES);
    assert_eq!(number("FITCHECK_MOST_ENTRIES"), fitcheck::MOST_ENTRIES);
    assert_eq!(number("FITCHECK_MOST_SKILLS"), fitcheck::MOST_SKILLS);
    assert_eq!(number("FITCHECK_FITS_PER_CALL"), fitcheck::FITS_PER_CALL);
    assert_eq!(number("FITCHECK_CAUSE_BYTES"), fitcheck::CAUSE_BYTES);
    let leave_out = number("FITCHECK_LEAVE_OUT_BYTES");
    assert_eq!(leave_out, fitcheck::LEAVE_OUT_BYTES);
    let tries = number("FITCHECK_MOST_TRIES");
    assert_eq!(tries, fitcheck::MOST_TRIES as usize);
    for (name, refusal) in [
        ("FITCHECK_NO_SUCH_ENTRY", fitcheck::Refusal::NoSuchEntry),
        (
            "FITCHECK_CARGO_VOLUME",
            fitcheck::Refusal::CargoVolume(None),
        ),
        ("FITCHECK_LISTED_SKILLS", fitcheck::Refusal::ListedSkills),
    ] {
        assert_eq!(number(name), refusal.number() as usize);
    }
    for (name, reader) in [
        ("FITCHECK_GUEST", fitcheck::Reader::Guest),
        ("FITCHECK_PILOT", fitcheck::Reader::Pilot),
        ("FITCHECK_OFFICER", fitcheck::Reader::Officer),
    ] {
        assert_eq!(number(name), usize::from(reader.number()));
    }
    for (name, rule) in [
        ("FITCHECK_BANNED", "banned"),
        ("FITCHECK_POINTS", "points"),
        ("FITCHECK_UNKNOWN_TYPE", "unknown_type"),
    ] {
        let mut bytes = [0; fitcheck::ENTRY_BYTES];
        bytes[1] = u8::try_from(number(name)).unwrap();
        let entry = fitcheck::Entry::from_bytes(&bytes);
        assert_eq!(entry.rule.name(), rule);
    }
}

/// A rule, refusal or slot that is added later breaks no caller's `match`.
#[test]
fn every_public_enum_may_grow() {
    let folder = Path::new(env!("CARGO_MANIFEST_DIR")).join("src");
    let mut found = 0;
    for file in fs::read_dir(&folder).unwrap() {
        let path = file.unwrap().path();
        let Ok(text) = fs::read_to_string(&path) else {
            continue;
        };
        let lines: Vec<&str> = text.lines().map(str::trim).collect();
        for (at, line) in lines.iter().enumerate() {
            if line.starts_with("pub enum ") {
                let above = lines[..at].iter().rev();
                let mut above = above.take_while(|line| line.starts_with('#'));
                let may_grow = above.any(|line| *line == "#[non_exhaustive]");
                assert!(may_grow, "{}: {line}", path.display());
                found += 1;
            }
        }
    }
    assert!(found >= 8, "{found} enums");
}
