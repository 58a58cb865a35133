//! What the tests share: every checker at hand, and calls on sketches.
//!
//! Expected values in these tests are worked out from documents 01 and 02.

use compare::checker::{Checker, Terms, refused};
use compare::plain::Plain;
use compare::rattle;
use compare::reference::Original;
use compare::sketch::Sketch;

/// The original, the plain port, and the library where this build has it.
pub fn checkers() -> Vec<(&'static str, Box<dyn Checker>)> {
    let mut checkers: Vec<(&'static str, Box<dyn Checker>)> = vec![
        ("the original", Box::new(Original)),
        ("the plain port", Box::new(Plain::default())),
    ];
    if let Some(library) = rattle::library() {
        checkers.push(("the Rattle library", library));
    }
    checkers
}

/// An entry as document 01 lays it out.
pub fn entry(target: u8, rule: u8, sub: u8, index: u32, words: [u32; 4]) -> Vec<u8> {
    let mut bytes = vec![target, rule, sub, 0];
    bytes.extend(index.to_le_bytes());
    bytes.extend(words.iter().flat_map(|word| word.to_le_bytes()));
    bytes
}

/// A Resource entry on the ship.
pub fn resource(sub: u8, used: f64, available: f64) -> Vec<u8> {
    let mut bytes = vec![0, 1, sub, 0, 0, 0, 0, 0];
    bytes.extend(used.to_le_bytes());
    bytes.extend(available.to_le_bytes());
    bytes
}

pub fn ship(rule: u8) -> Vec<u8> {
    entry(0, rule, 0, 0, [0; 4])
}

pub fn item(index: u32, rule: u8) -> Vec<u8> {
    entry(1, rule, 0, index, [0; 4])
}

/// An UnknownType entry.
pub fn unknown(index: u32, type_id: i32) -> Vec<u8> {
    entry(1, 26, 0, index, [type_id as u32, 0, 0, 0])
}

/// What a call gives on a buffer that is long enough.
#[derive(Debug, PartialEq)]
pub enum Given {
    Entries(Vec<Vec<u8>>),
    Refusal(u8),
}

fn given(name: &str, call: impl FnOnce(&mut [u8]) -> u64) -> Given {
    const UNTOUCHED: u8 = 0xC3;
    let mut out = vec![UNTOUCHED; 24 * 600 + 5];
    let word = call(&mut out);
    let count = (word % (1 << 32)) as usize;
    let refusal = (word >> 32) as u8;
    if refusal != 0 {
        assert_eq!(word, refused(refusal), "{name}: a refusal has no count");
        assert!(
            out.iter().all(|byte| *byte == UNTOUCHED),
            "{name}: a refusal writes nothing"
        );
        return Given::Refusal(refusal);
    }
    assert!(
        out[24 * count..].iter().all(|byte| *byte == UNTOUCHED),
        "{name}: only the entries' bytes are written"
    );
    Given::Entries(out[..24 * count].chunks(24).map(<[u8]>::to_vec).collect())
}

/// Asserts what every checker's list call gives on raw images.
pub fn assert_list_of(catalogue: &[u8], fit: &[u8], expected: &Given) {
    assert_list_with(catalogue, fit, Terms::default(), expected);
}

/// The same where the call brings something besides.
pub fn assert_list_with(catalogue: &[u8], fit: &[u8], terms: Terms, expected: &Given) {
    for (name, checker) in checkers() {
        let got = given(name, |out| checker.list(catalogue, fit, terms, out));
        assert_eq!(got, *expected, "{name}");
    }
}

/// Asserts what every checker's skill call gives on raw images.
pub fn assert_skill_of(catalogue: &[u8], fit: &[u8], result: u32, expected: &Given) {
    assert_skill_with(catalogue, fit, result, Terms::default(), expected);
}

/// The same where the call brings something besides.
pub fn assert_skill_with(
    catalogue: &[u8],
    fit: &[u8],
    result: u32,
    terms: Terms,
    expected: &Given,
) {
    for (name, checker) in checkers() {
        let got = given(name, |out| {
            checker.skill(catalogue, fit, result, terms, out)
        });
        assert_eq!(got, *expected, "{name}");
    }
}

/// Asserts the whole list of a sketch.
pub fn assert_list(sketch: Sketch, expected: &[Vec<u8>]) {
    let sketch = sketch.finish();
    let expected = Given::Entries(expected.to_vec());
    assert_list_of(&sketch.catalogue.image(), &sketch.fit.image(), &expected);
}

/// Asserts the whole skill list of one result of a sketch.
pub fn assert_skills(sketch: Sketch, result: u32, expected: &[Vec<u8>]) {
    let sketch = sketch.finish();
    let expected = Given::Entries(expected.to_vec());
    assert_skill_of(
        &sketch.catalogue.image(),
        &sketch.fit.image(),
        result,
        &expected,
    );
}
