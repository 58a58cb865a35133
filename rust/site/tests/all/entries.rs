//! Entries of any 24 bytes.

use compare::checker::{Checker, Terms};
use compare::plain::Plain;
use compare::profile::League;
use compare::rng::Rng;
use fitcheck::{Entry, Explainer, Names, Rule, Target};

use crate::common::{images, numbers};

/// An entry as document 01 lays it out.
fn bytes(target: u8, rule: u8, sub: u8, zero: u8, index: u32, words: [u32; 4]) -> [u8; 24] {
    let mut bytes = [0; 24];
    bytes[..4].copy_from_slice(&[target, rule, sub, zero]);
    bytes[4..8].copy_from_slice(&index.to_le_bytes());
    for (place, word) in bytes[8..].chunks_exact_mut(4).zip(words) {
        place.copy_from_slice(&word.to_le_bytes());
    }
    bytes
}

/// Every entry that bytes decode to leads back to them and has a sentence.
fn leads_back(bytes: [u8; 24]) -> Entry {
    let entry = Entry::from_bytes(&bytes);
    assert_eq!(entry.to_bytes(), bytes);
    let names = Names::default();
    for fit in [[0; 36].as_slice(), &[], &[1, 0, 0]] {
        assert!(!Explainer::new(fit, &names).explain(&entry).is_empty());
        let result = entry.to_bytes()[4].into();
        let skill = Explainer::new(fit, &names).explain_skill(result, &entry);
        assert!(!skill.is_empty());
    }
    entry
}

#[test]
fn any_bytes_decode_and_lead_back() {
    let mut rng = Rng::new(5);
    for _ in 0..20_000 {
        let mut any = [0; 24];
        for byte in &mut any {
            *byte = rng.draw() as u8;
        }
        leads_back(any);
        // Nearer to what a call writes: few bytes are not zero.
        let mut near = [0; 24];
        near[0] = rng.below(3) as u8;
        near[1] = rng.below(28) as u8;
        near[2] = rng.below(15) as u8;
        near[3] = u8::from(rng.chance(50));
        for _ in 0..rng.below(5) {
            near[4 + rng.below(20)] = rng.draw() as u8;
        }
        leads_back(near);
    }
}

#[test]
fn what_the_calls_write_is_known() {
    // Every group that a generated module may have, banned or priced.
    let groups = (-1..2_000).map(|group| (group, if group % 2 == 0 { u32::MAX } else { 9 }));
    let league = League::of(&groups.collect::<Vec<_>>(), 5);
    let profile = league.image();
    let terms = Terms {
        profile: &profile,
        allowance: league.allowance,
        ..Terms::default()
    };
    let mut seen = [0; 27];
    for case in numbers(300) {
        let (catalogue, fits) = images(13, case);
        for fit in fits {
            let mut room = vec![0; 24 * fitcheck::MOST_ENTRIES];
            let word = Plain::default().list(&catalogue, &fit, terms, &mut room);
            if word >> 32 != 0 {
                continue;
            }
            for bytes in room[..24 * word as usize].chunks_exact(24) {
                let entry = leads_back(bytes.try_into().unwrap());
                assert!(!matches!(entry.rule, Rule::Unknown { .. }), "{entry:?}");
                assert!(!matches!(entry.target, Target::Unknown { .. }), "{entry:?}");
                seen[usize::from(entry.rule.number())] += 1;
            }
        }
    }
    for (rule, count) in seen.iter().enumerate() {
        // Rule 11 is the skill call's; 22 and 23 are about charges.
        let is_listed = ![0, 11, 22, 23].contains(&rule);
        assert_eq!(*count > 0, is_listed, "rule {rule}: {count}");
    }
}

#[test]
fn a_field_outside_document_01_is_not_taken_for_a_known_rule() {
    let known = [
        bytes(0, 1, 12, 0, 0, [9; 4]),
        bytes(0, 2, 7, 0, 0, [9, 8, 0, 0]),
        bytes(1, 3, 5, 0, 1, [0; 4]),
        bytes(1, 9, 0, 0, 255, [65_535, 0, 0, 0]),
        bytes(1, 11, 0, 0, 0, [u32::MAX, 255, 254, 0]),
        bytes(1, 12, 0, 0, 0, [255, 254, 0, 0]),
        bytes(1, 17, 2, 0, 0, [u32::MAX, 2, 1, 0]),
        bytes(0, 21, 0, 0, 0, [u32::MAX, 0, 0, 0]),
        bytes(1, 24, 0, 0, 255, [u32::MAX, 0, 0, 0]),
        bytes(0, 25, 0, 0, 0, [9, 8, 0, 0]),
        bytes(1, 26, 0, 0, 255, [u32::MAX, 0, 0, 0]),
    ];
    for known in known {
        assert!(!matches!(leads_back(known).rule, Rule::Unknown { .. }));
    }
    let unknown = [
        bytes(0, 0, 0, 0, 0, [0; 4]),
        bytes(0, 22, 0, 0, 0, [0; 4]),
        bytes(0, 1, 13, 0, 0, [0; 4]),
        bytes(0, 2, 8, 0, 0, [9, 8, 0, 0]),
        bytes(0, 2, 7, 0, 0, [9, 8, 1, 0]),
        bytes(1, 3, 5, 0, 1, [1, 0, 0, 0]),
        bytes(1, 4, 1, 0, 1, [0; 4]),
        bytes(1, 9, 0, 0, 0, [65_536, 0, 0, 0]),
        bytes(1, 11, 0, 0, 0, [1, 256, 0, 0]),
        bytes(1, 12, 0, 0, 0, [0, 256, 0, 0]),
        bytes(1, 17, 3, 0, 0, [1, 2, 1, 0]),
        bytes(1, 18, 0, 0, 0, [1, 2, 1, 1]),
        bytes(0, 19, 0, 1, 0, [0; 4]),
        bytes(1, 24, 1, 0, 0, [1, 0, 0, 0]),
        bytes(0, 25, 0, 0, 0, [9, 8, 1, 0]),
        bytes(1, 26, 1, 0, 0, [1, 0, 0, 0]),
        bytes(1, 26, 0, 1, 0, [1, 0, 0, 0]),
        bytes(1, 26, 0, 0, 0, [1, 1, 0, 0]),
        bytes(1, 27, 0, 0, 0, [1, 0, 0, 0]),
    ];
    for unknown in unknown {
        assert!(matches!(leads_back(unknown).rule, Rule::Unknown { .. }));
    }
    for target in [bytes(0, 19, 0, 0, 1, [0; 4]), bytes(2, 19, 0, 0, 0, [0; 4])] {
        let entry = leads_back(target);
        assert!(matches!(entry.target, Target::Unknown { .. }));
    }
}

#[test]
fn numbers_keep_every_bit() {
    for bits in [0x7FF8_0000_0000_0001, 0x8000_0000_0000_0000, 1, u64::MAX] {
        let low = (bits & 0xFFFF_FFFF) as u32;
        let high = (bits >> 32) as u32;
        let entry = leads_back(bytes(0, 1, 0, 0, 0, [low, high, high, low]));
        let Rule::Resource { used, .. } = entry.rule else {
            panic!("{entry:?}");
        };
        assert_eq!(used.to_bits(), bits);
    }
}
