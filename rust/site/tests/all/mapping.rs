//! The mapping of the page, run beside the original: what a site has, made
//! into images, is answered as the original answers it.

use std::cell::RefCell;
use std::collections::BTreeSet;

use compare::reference::{Catalogue, Fit};
use fitcheck::{ListOptions, Reader, SkillOptions, TypeData};
use original::{Info, Run, Vector, Violation, eve};
use site::mapping;

use crate::common::{images, numbers};
use crate::original::{from_plus_zero, printed, printed_originals, unknown_types, without_unknown};

/// Every id that a catalogue's image has: of types, links and bases.
fn type_ids(image: &[u8]) -> BTreeSet<i32> {
    let word = |at: usize| i32::from_le_bytes(image[4 * at..4 * at + 4].try_into().unwrap());
    let [n, e, t, l, b] = [0, 1, 2, 3, 4].map(|block| word(block) as usize);
    let types = 5 + 2 * n + 2 * e;
    let links = types + 5 * t;
    let bases = links + 2 * l;
    let keys = |first: usize, count: usize| (first..first + count).map(word);
    keys(types, t)
        .chain(keys(links, l))
        .chain(keys(bases, b))
        .collect()
}

#[test]
fn what_a_site_has_is_answered_as_the_original_does() {
    let (mut fits_seen, mut entries, mut lacking, mut unequal) = (0, 0, 0, 0);
    let mut missing = 0;
    for case in numbers(300) {
        let (catalogue_image, fits) = images(61, case);
        let Ok(info) = Catalogue::decode(&catalogue_image) else {
            continue;
        };
        // Base values finer than an f32, the original's structures cannot hold.
        if info.is_fine() {
            continue;
        }
        let all = mapping::catalogue(&info, type_ids(&catalogue_image)).unwrap();
        for image in fits.iter().take(2) {
            let Ok(fit) = Fit::decode(image) else {
                continue;
            };
            // More drones than 32 bits hold, the original cannot add up.
            if fit.hangar(&info).is_some() {
                continue;
            }
            let mapped = mapping::fit(&fit.fit, &fit.calculation);
            let mapped_image = mapped.build().unwrap();
            assert_eq!(mapped_image, *image, "case {case}");
            let own = mapping::catalogue_of(&info, &mapped).unwrap();
            let run = Run {
                info: &info,
                fit: &fit.fit,
                calculation: &fit.calculation,
            };
            let found: Vec<Violation> = run
                .validate()
                .into_iter()
                .filter(|violation| !matches!(violation.rule, original::Rule::Skill { .. }))
                .collect();
            let expected = from_plus_zero(printed_originals(&found));
            for catalogue in [&all, &own] {
                let list =
                    fitcheck::list(catalogue, &mapped_image, &ListOptions::new(Reader::Officer))
                        .unwrap();
                let (list, unknown) = without_unknown(list);
                assert_eq!(printed(&list), expected, "case {case}");
                assert_eq!(unknown, unknown_types(&run), "case {case}");
                missing += unknown.len();
            }
            for result in 0..fit.calculation.items.len().min(6) as u32 + 2 {
                let skills = |catalogue: &[u8]| {
                    fitcheck::skills(
                        catalogue,
                        &mapped_image,
                        result,
                        &SkillOptions::new(Reader::Officer),
                    )
                };
                let expected = skills(&catalogue_image);
                assert_eq!(skills(&all), expected, "case {case}, result {result}");
                assert_eq!(skills(&own), expected, "case {case}, result {result}");
                lacking += expected.map_or(0, |skills| skills.len());
            }
            fits_seen += 1;
            entries += found.len();
            // Those beyond the pairs are in the image too: it is the same one.
            unequal += usize::from(fit.fit.items.len() != fit.calculation.items.len());
        }
    }
    assert!(
        fits_seen > 300 && entries > 1_000 && lacking > 500 && unequal > 30,
        "{fits_seen} fits, {entries} entries, {lacking} lacking, {unequal} unequal"
    );
    assert!(missing > 100, "{missing} missing");
}

/// Type data that notes what is asked of it.
#[derive(Default)]
struct Noting {
    asked: RefCell<BTreeSet<&'static str>>,
}

impl Noting {
    fn note(&self, what: &'static str) {
        self.asked.borrow_mut().insert(what);
    }
}

impl Info for Noting {
    fn get_dogma_attributes(&self, _: i32) -> Option<Vector<'_, eve::TypeDogmaAttribute>> {
        self.note("get_dogma_attributes");
        None
    }

    fn get_dogma_attribute(&self, _: i32) -> Option<eve::DogmaAttribute<'_>> {
        self.note("get_dogma_attribute");
        None
    }

    fn get_dogma_effects(&self, _: i32) -> Option<Vector<'_, eve::TypeDogmaEffect>> {
        self.note("get_dogma_effects");
        const HAS: [eve::TypeDogmaEffect; 0] = [];
        Some(Vector::new(&HAS))
    }

    fn get_dogma_effect(&self, _: i32) -> Option<eve::DogmaEffect<'_>> {
        self.note("get_dogma_effect");
        Some(eve::DogmaEffect::new("hiPower"))
    }

    fn get_type(&self, _: i32) -> Option<eve::Type<'_>> {
        self.note("get_type");
        Some(eve::Type::new(25, 6, None))
    }

    fn get_dbuff_collection(&self, _: i32) -> Option<eve::DbuffCollection<'_>> {
        self.note("get_dbuff_collection");
        None
    }

    fn attribute_name_to_id(&self, _: &str) -> Option<i32> {
        self.note("attribute_name_to_id");
        None
    }
}

/// The trait is as small as what is read: its five questions are the five of
/// `Info` that the fitting rules ask, and no other is asked.
#[test]
fn the_five_questions_are_those_that_the_rules_ask() {
    let noting = Noting::default();
    let data = mapping::Data(&noting);
    assert_eq!(data.effect_name(7), Some("hiPower"));
    assert_eq!(data.type_info(7).unwrap().group_id, 25);
    mapping::catalogue(&noting, [1, 2, 3]).unwrap();
    let five = [
        "attribute_name_to_id",
        "get_dogma_attributes",
        "get_dogma_effect",
        "get_dogma_effects",
        "get_type",
    ];
    assert!(noting.asked.borrow().iter().eq(&five), "{:?}", noting.asked);
}

/// The mapping that the page shows is the one that is run here.
#[test]
fn the_page_shows_this_mapping() {
    let page = include_str!("../../../../docs/CALLING.md");
    let mapping = include_str!("../../src/mapping.rs");
    assert!(page.contains(&format!("```rust\n{mapping}```\n")));
}
