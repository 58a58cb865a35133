//! Document 02's P10 on every checker: base values of f64, and old catalogues
//! widened. Expected bytes are worked out from the document and IEEE 754.

use crate::common::{Given, assert_skill_of, checkers, entry};
use compare::checker::refused;
use compare::model::{Base, Catalogue, Effect, Type};
use compare::names::REQUIRED;
use compare::sketch::Sketch;

/// Bits of an f32, and of the f64 that is the same number; a NaN of whatever
/// sign and payload is one pattern.
const VALUES: [(u32, u64); 21] = [
    (0x0000_0000, 0x0000_0000_0000_0000),
    (0x8000_0000, 0x8000_0000_0000_0000),
    (0x0000_0001, 0x36A0_0000_0000_0000),
    (0x8000_0001, 0xB6A0_0000_0000_0000),
    (0x007F_FFFF, 0x380F_FFFF_C000_0000),
    (0x807F_FFFF, 0xB80F_FFFF_C000_0000),
    (0x0080_0000, 0x3810_0000_0000_0000),
    (0x3F80_0000, 0x3FF0_0000_0000_0000),
    (0x3FC0_0000, 0x3FF8_0000_0000_0000),
    (0xC020_0000, 0xC004_0000_0000_0000),
    (0x4B7F_FFFF, 0x416F_FFFF_E000_0000),
    (0x7F7F_FFFF, 0x47EF_FFFF_E000_0000),
    (0xFF7F_FFFF, 0xC7EF_FFFF_E000_0000),
    (0x7F80_0000, 0x7FF0_0000_0000_0000),
    (0xFF80_0000, 0xFFF0_0000_0000_0000),
    (0x7FC0_0000, 0x7FF8_0000_0000_0000),
    (0xFFC0_0000, 0x7FF8_0000_0000_0000),
    (0x7FC0_0001, 0x7FF8_0000_0000_0000),
    (0xFFFF_FFFF, 0x7FF8_0000_0000_0000),
    (0x7F80_0001, 0x7FF8_0000_0000_0000),
    (0xFFA0_0000, 0x7FF8_0000_0000_0000),
];

/// The sizes of a catalogue with bases alone, and their keys and values.
fn bases(values: &[Vec<u8>]) -> Vec<u8> {
    let mut image = [0; 16].to_vec();
    image.extend((values.len() as u32).to_le_bytes());
    image.extend(values.iter().flat_map(|_| 7u32.to_le_bytes()));
    image.extend(values.concat());
    image
}

fn value(attribute: i32, bits: &[u8]) -> Vec<u8> {
    [&attribute.to_le_bytes(), bits].concat()
}

#[test]
fn every_class_of_f32_widens_to_its_f64() {
    let rows = (-10..).zip(VALUES);
    let old = rows
        .clone()
        .map(|(id, row)| value(id, &row.0.to_le_bytes()));
    let new = rows.map(|(id, row)| value(id, &row.1.to_le_bytes()));
    let (old, new) = (
        bases(&old.collect::<Vec<_>>()),
        bases(&new.collect::<Vec<_>>()),
    );
    for (name, checker) in checkers() {
        let mut out = vec![0xC3; new.len() + 9];
        assert_eq!(checker.widen(&old, &mut out), new.len() as u64, "{name}");
        assert_eq!(out[..new.len()], new, "{name}");
        assert_eq!(out[new.len()..], [0xC3; 9], "{name}");
    }
}

/// What every checker's widening gives with a buffer of so many bytes.
fn assert_refused(old: &[u8], length: usize, refusal: u8) {
    for (name, checker) in checkers() {
        let mut out = vec![0xC3; length];
        assert_eq!(checker.widen(old, &mut out), refused(refusal), "{name}");
        assert!(out.iter().all(|byte| *byte == 0xC3), "{name}");
    }
}

#[test]
fn the_old_form_is_judged_and_the_buffer_by_the_new_one() {
    let one = |bits: &[u8]| bases(&[value(5, bits)]);
    let (old, new) = (one(&1.5f32.to_le_bytes()), one(&1.5f64.to_le_bytes()));
    assert_eq!((old.len(), new.len()), (32, 36));
    for length in [0, 31, 32, 33, 35] {
        assert_refused(&old, length, 10);
    }
    for (name, checker) in checkers() {
        let mut out = [0; 36];
        assert_eq!(checker.widen(&old, &mut out), 36, "{name}");
        assert_eq!(out, *new, "{name}");
    }
    // A new catalogue is no old one, nor is what is cut or goes on.
    assert_refused(&new, 99, 1);
    assert_refused(&old[..31], 99, 1);
    assert_refused(&[&old[..], &[0]].concat(), 99, 1);
    assert_refused(&[], 99, 1);
}

#[test]
fn without_bases_both_forms_are_one() {
    for (name, checker) in checkers() {
        let mut out = [1; 20];
        assert_eq!(checker.widen(&[0; 20], &mut out), 20, "{name}");
        assert_eq!(out, [0; 20], "{name}");
    }
}

#[test]
fn keys_and_fields_of_the_old_form() {
    let unordered = Catalogue {
        bases: vec![Base::single(2, 1, 0.0), Base::single(1, 1, 0.0)],
        ..Catalogue::default()
    };
    assert_refused(&unordered.old_image(), 99, 2);
    let marked = Catalogue {
        effects: vec![Effect { id: 1, mark: 9 }],
        bases: vec![Base::single(1, 1, 0.0)],
        ..Catalogue::default()
    };
    assert_refused(&marked.old_image(), 0, 3);
    let both = Catalogue {
        effects: marked.effects,
        ..unordered
    };
    assert_refused(&both.old_image(), 0, 2);
}

#[test]
fn a_volumes_bits_stay() {
    let a_type = |id, flag, volume| Type {
        id,
        group: -1,
        category: 7,
        flag,
        volume,
    };
    let catalogue = Catalogue {
        types: vec![a_type(1, 0, 0xFF80_0001), a_type(2, 1, 0x7FC0_0001)],
        bases: vec![Base::single(1, 3, 2.5)],
        ..Catalogue::default()
    };
    let (old, new) = (catalogue.old_image(), catalogue.image());
    for (name, checker) in checkers() {
        let mut out = vec![0; new.len()];
        assert_eq!(checker.widen(&old, &mut out), new.len() as u64, "{name}");
        assert_eq!(out, new, "{name}");
    }
}

/// Skill 7 demands 16,777,217, which an f32 makes 16,777,216, at a level that
/// an f32 makes 5.
#[test]
fn a_value_finer_than_an_f32_counts() {
    let sketch = Sketch::hull()
        .ship(REQUIRED, 7.0)
        .ship(REQUIRED + 1, 1.0)
        .fine(7, REQUIRED, 16_777_217.0)
        .fine(7, REQUIRED + 1, 4.999_999_999)
        .finish();
    let expected = Given::Entries(vec![
        entry(0, 11, 0, 0, [7, 1, 0, 0]),
        entry(0, 11, 0, 0, [16_777_217, 4, 0, 0]),
    ]);
    let (catalogue, fit) = (sketch.catalogue.image(), sketch.fit.image());
    assert_skill_of(&catalogue, &fit, 0, &expected);
}
