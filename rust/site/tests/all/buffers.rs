//! The caller's buffer, and images of any bytes.

use compare::rng::Rng;
use fitcheck::{
    CatalogueImage, Entry, Explainer, FitImage, ListOptions, Names, Reader, Refusal, Rule,
    SkillOptions, Target,
};

use crate::common::{images, numbers};

const UNTOUCHED: u8 = 0xC3;
const LIST: ListOptions = ListOptions::new(Reader::Officer);
const SKILL: SkillOptions = SkillOptions::new(Reader::Officer);

/// Document 01: "A refusal returns its number and writes nothing. An answered
/// call returns the count and writes that many entries from byte 0."
#[test]
fn only_the_entries_bytes_are_written() {
    let mut listed = 0;
    for case in numbers(200) {
        let (catalogue, fits) = images(51, case);
        for fit in fits.iter().take(2) {
            let Ok(expected) = fitcheck::list(&catalogue, fit, &LIST) else {
                let mut buffer = vec![UNTOUCHED; 24 * fitcheck::MOST_ENTRIES];
                assert!(fitcheck::list_into(&catalogue, fit, &LIST, &mut buffer).is_err());
                assert!(buffer.iter().all(|byte| *byte == UNTOUCHED));
                continue;
            };
            let length = 24 * expected.len();
            let mut buffer = vec![UNTOUCHED; length + 40];
            let entries = fitcheck::list_into(&catalogue, fit, &LIST, &mut buffer).unwrap();
            let bytes: Vec<[u8; 24]> = expected.iter().map(Entry::to_bytes).collect();
            assert_eq!(entries, bytes, "case {case}");
            assert_eq!(buffer[length..], [UNTOUCHED; 40]);
            if length > 0 {
                let short = &mut vec![UNTOUCHED; length - 1];
                let refused = fitcheck::list_into(&catalogue, fit, &LIST, short);
                assert_eq!(refused, Err(Refusal::BufferLength));
                assert!(short.iter().all(|byte| *byte == UNTOUCHED));
                listed += 1;
            }
        }
    }
    assert!(listed > 200, "{listed} lists");
}

#[test]
fn bytes_of_any_kind_are_answered_and_explained() {
    let rng = &mut Rng::new(52);
    let names = Names::parse("0 Zero\n").unwrap();
    for case in numbers(150) {
        let (mut catalogue, fits) = images(53, case);
        for mut fit in fits.into_iter().take(1) {
            for image in [&mut fit, &mut catalogue] {
                match rng.below(4) {
                    0 => image.truncate(rng.below(image.len() + 1)),
                    1 => image.push(rng.draw() as u8),
                    _ => {
                        for _ in 0..rng.below(4) {
                            if !image.is_empty() {
                                let place = rng.below(image.len());
                                image[place] = rng.draw() as u8;
                            }
                        }
                    }
                }
            }
            if let Some(image) = CatalogueImage::new(&catalogue) {
                let missing = image.missing();
                assert_eq!(missing.is_empty(), missing.unchecked().is_empty());
            }
            let explainer = Explainer::new(&fit, &names);
            for entry in fitcheck::list(&catalogue, &fit, &LIST).unwrap_or_default() {
                assert!(!explainer.explain(&entry).is_empty());
            }
            for result in 0..5 {
                for entry in fitcheck::skills(&catalogue, &fit, result, &SKILL).unwrap_or_default()
                {
                    assert!(!explainer.explain_skill(result, &entry).is_empty());
                }
            }
            // Entries of another fit, about items that this one may not have.
            for index in [0, 1, 255, 256, usize::MAX] {
                let target = Target::Item { index };
                for rule in [Rule::SlotTaken, Rule::NotADrone, Rule::NotAMode] {
                    assert!(!explainer.explain(&Entry { target, rule }).is_empty());
                }
            }
            if let Some(image) = FitImage::new(&fit) {
                assert!(image.pairs() <= image.items() && image.pairs() <= image.results());
                for index in 0..image.items() + 2 {
                    assert!(index < image.items() || image.item(index).is_none());
                }
            }
        }
    }
}
