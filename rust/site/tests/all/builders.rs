//! Images of the builders: those of the comparison's own encoder, accepted by
//! every checker at hand.

use compare::checker::{Checker, Terms};
use compare::model::{Base, Catalogue, Effect, Fit, Item, Link, Name, Outcome, Type};
use compare::names;
use compare::plain::Plain;
use compare::reference::Original;
use compare::rng::Rng;
use fitcheck::{
    Attribute, BuildError, CatalogueBuilder, FitBuilder, FitItem, FitPart, ItemResult, ListOptions,
    Mark, Reader, Slot, SlotType, State,
};

use crate::common::{models, numbers};

#[test]
fn attributes_are_the_88_names_in_their_order() {
    let all: Vec<&str> = Attribute::ALL.iter().map(|name| name.name()).collect();
    assert_eq!(all, names::NAMES);
}

#[test]
fn marks_are_the_named_arms_in_their_order() {
    let all: Vec<&str> = Mark::ALL.iter().map(|mark| mark.name()).collect();
    assert_eq!(all[1..], names::MARKS[1..]);
}

/// Puts rows out of order, those of equal key left in theirs.
fn mixed<T: Clone, K: Ord>(rng: &mut Rng, rows: &[T], key: impl Fn(&T) -> K) -> Vec<T> {
    let mut order: Vec<usize> = (0..rows.len()).collect();
    rng.shuffle(&mut order);
    let mut rest = rows.to_vec();
    let mut mixed = Vec::new();
    for place in order {
        // The next of this key that has not been taken.
        let key_here = key(&rows[place]);
        let next = rest.iter().position(|row| key(row) == key_here).unwrap();
        mixed.push(rest.remove(next));
    }
    mixed
}

fn catalogue_of(rng: &mut Rng, model: &Catalogue) -> CatalogueBuilder {
    let mut builder = CatalogueBuilder::new();
    for row in mixed(rng, &model.names, |row| row.number) {
        let attribute = Attribute::from_number(row.number as u8).unwrap();
        builder.name(attribute, row.attribute);
    }
    for row in mixed(rng, &model.effects, |row| row.id) {
        builder.effect(row.id, Mark::from_number(row.mark as u8).unwrap());
    }
    for row in mixed(rng, &model.types, |row| row.id) {
        let volume = (row.flag == 1).then_some(f32::from_bits(row.volume));
        builder.type_info(row.id, row.group, row.category, volume);
    }
    for row in mixed(rng, &model.links, |row| row.type_id) {
        builder.link(row.type_id, row.effect);
    }
    for row in mixed(rng, &model.bases, |row| row.type_id) {
        builder.base(row.type_id, row.attribute, f64::from_bits(row.value));
    }
    builder
}

fn result_of(rng: &mut Rng, outcome: &Outcome) -> ItemResult {
    let mut result = ItemResult::new(State::from_number(outcome.state).unwrap());
    for (id, bits) in mixed(rng, &outcome.attributes, |row| row.0) {
        result = result.with(id, f64::from_bits(bits));
    }
    result
}

fn item_of(item: &Item) -> FitItem {
    let slot = SlotType::from_number(item.kind).unwrap();
    let slot = Slot::new(slot, item.index).unwrap();
    FitItem::new(item.type_id, slot).quantity(item.quantity)
}

fn fit_of(rng: &mut Rng, model: &Fit) -> FitBuilder {
    let mut builder = FitBuilder::new(model.ship_type);
    if model.mode_flag == 1 {
        builder.mode(model.mode);
    }
    for skill in mixed(rng, &model.skills, |skill| skill.id) {
        builder.skill(skill.id, skill.level);
    }
    builder.ship(result_of(rng, &model.ship));
    builder.character(result_of(rng, &model.character));
    let pairs = model.items.len().min(model.results.len());
    for (item, result) in model.items.iter().zip(&model.results) {
        builder.item(item_of(item), result_of(rng, result));
    }
    for item in &model.items[pairs..] {
        builder.item_without_result(item_of(item));
    }
    for result in &model.results[pairs..] {
        builder.result_without_item(result_of(rng, result));
    }
    builder
}

/// Whether the checkers take the catalogue, and the fit with it.
fn assert_accepted(catalogue: &[u8], fit: &[u8]) {
    let checkers: [&dyn Checker; 2] = [&Plain::default(), &Original];
    for checker in checkers {
        let mut room = vec![0; 24 * fitcheck::MOST_ENTRIES];
        let word = checker.list(catalogue, fit, Terms::default(), &mut room);
        assert_eq!(word >> 32, 0, "refused");
    }
    let listed = fitcheck::list(catalogue, fit, &ListOptions::new(Reader::Officer));
    assert!(listed.is_ok(), "{listed:?}");
}

/// Of the comparison's cases, those that a builder can hold at all: rows in
/// order and fields in range.
#[test]
fn rows_in_any_order_give_the_image_that_the_comparison_lays_out() {
    let rng = &mut Rng::new(21);
    let mut catalogues = 0;
    let mut fits = 0;
    let empty = CatalogueBuilder::new().build().unwrap();
    for case in numbers(400) {
        let (catalogue, models) = models(21, case);
        let mut built = empty.clone();
        if let Some(mut model) = catalogue {
            // Of a type without volume the bits are free; the builder has zeros.
            for row in model.types.iter_mut().filter(|row| row.flag == 0) {
                row.volume = 0;
            }
            // Every NaN is stored as one.
            for row in &mut model.bases {
                if f64::from_bits(row.value).is_nan() {
                    row.value = 0x7FF8_0000_0000_0000;
                }
            }
            let image = model.image();
            if compare::reference::Catalogue::decode(&image).is_ok()
                && model.bases.len() + model.links.len() < 4_000
            {
                built = catalogue_of(rng, &model).build().unwrap();
                assert_eq!(built, image, "case {case}");
                catalogues += 1;
            }
        }
        for model in models {
            let image = model.image();
            if compare::reference::Fit::decode(&image).is_ok() {
                let fit = fit_of(rng, &model).build().unwrap();
                assert_eq!(fit, image, "case {case}");
                assert_accepted(&built, &fit);
                fits += 1;
            }
        }
    }
    assert!(
        catalogues > 500 && fits > 500,
        "{catalogues} catalogues and {fits} fits"
    );
}

/// Rows at random, duplicates and all: an image that every checker accepts, or
/// an error that says what is wrong with a row that is there.
#[test]
fn whatever_is_put_in_the_image_is_accepted_or_not_built() {
    let rng = &mut Rng::new(22);
    let (mut built, mut refused) = (0, 0);
    for _ in 0..3_000 {
        let id = |rng: &mut Rng| match rng.below(4) {
            0 => rng.pick(&[i32::MIN, -1, 0, i32::MAX]),
            _ => rng.between(-30, 30) as i32,
        };
        let mut catalogue = CatalogueBuilder::new();
        for _ in 0..rng.below(6) {
            catalogue.name(rng.pick(Attribute::ALL), id(rng));
        }
        for _ in 0..rng.below(5) {
            catalogue.effect(id(rng), rng.pick(Mark::ALL));
        }
        for _ in 0..rng.below(5) {
            let volume = rng.chance(500).then(|| f32::from_bits(rng.draw() as u32));
            catalogue.type_info(id(rng), id(rng), id(rng), volume);
        }
        for _ in 0..rng.below(8) {
            catalogue.link(id(rng), id(rng));
            let value = match rng.below(8) {
                0 => f64::from_bits(rng.draw()),
                _ => f32::from_bits(rng.draw() as u32).into(),
            };
            catalogue.base(id(rng), id(rng), value);
        }
        let result = |rng: &mut Rng| {
            let mut result = ItemResult::new(rng.pick(State::ALL));
            for _ in 0..rng.below(4) {
                result = result.with(id(rng), f64::from_bits(rng.draw()));
            }
            result
        };
        let mut fit = FitBuilder::new(id(rng));
        if rng.chance(300) {
            fit.mode(id(rng));
        }
        for _ in 0..rng.below(4) {
            fit.skill(id(rng), rng.draw() as u8);
        }
        fit.ship(result(rng)).character(result(rng));
        for _ in 0..rng.below(6) {
            let slot = rng.pick(SlotType::ALL);
            let index = rng.between(0, slot.highest_index().into()) as u16;
            let item = FitItem::new(id(rng), Slot::new(slot, index).unwrap());
            let item = item.quantity(rng.draw() as u32);
            match rng.below(8) {
                0 => fit.item_without_result(item),
                1 => fit.result_without_item(result(rng)),
                _ => fit.item(item, result(rng)),
            };
        }
        match (catalogue.build(), fit.build()) {
            (Ok(catalogue), Ok(fit)) => {
                assert_accepted(&catalogue, &fit);
                built += 1;
            }
            (Err(error), _) | (_, Err(error)) => {
                assert!(!error.to_string().is_empty());
                refused += 1;
            }
        }
    }
    assert!(built > 500 && refused > 500, "{built} and {refused}");
}

#[test]
fn links_and_bases_of_a_type_keep_their_order() {
    let mut builder = CatalogueBuilder::new();
    builder
        .link(9, 1)
        .link(-5, 7)
        .link(9, 3)
        .link(9, 2)
        .base(9, 4, 1.5)
        .base(9, 4, 0.5)
        .base(-5, 4, 2.5);
    let link = |type_id, effect| Link { type_id, effect };
    let base = |type_id, value| Base::single(type_id, 4, value);
    let model = Catalogue {
        links: vec![link(-5, 7), link(9, 1), link(9, 3), link(9, 2)],
        bases: vec![base(-5, 2.5), base(9, 1.5), base(9, 0.5)],
        ..Catalogue::default()
    };
    assert_eq!(builder.build().unwrap(), model.image());
}

#[test]
fn keys_are_sorted_as_signed_numbers() {
    let mut builder = CatalogueBuilder::new();
    builder
        .name(Attribute::MaxTypeFitted, -2)
        .name(Attribute::CpuLoad, 49)
        .effect(i32::MAX, Mark::LauncherFitted)
        .effect(i32::MIN, Mark::HiPower)
        .type_info(3, 1, 2, Some(f32::NAN))
        .type_info(-3, 4, 5, None);
    let name = |number, attribute| Name { number, attribute };
    let effect = |id, mark| Effect { id, mark };
    let model = Catalogue {
        names: vec![name(0, 49), name(75, -2)],
        effects: vec![effect(i32::MIN, 1), effect(i32::MAX, 8)],
        types: vec![
            Type {
                id: -3,
                group: 4,
                category: 5,
                flag: 0,
                volume: 0,
            },
            Type {
                id: 3,
                group: 1,
                category: 2,
                flag: 1,
                volume: f32::NAN.to_bits(),
            },
        ],
        ..Catalogue::default()
    };
    assert_eq!(builder.build().unwrap(), model.image());
}

#[test]
fn duplicates_are_named() {
    let build = |change: fn(&mut CatalogueBuilder)| {
        let mut builder = CatalogueBuilder::new();
        change(&mut builder);
        builder.build().unwrap_err()
    };
    assert_eq!(
        build(|it| {
            it.name(Attribute::CpuLoad, 1).name(Attribute::CpuLoad, 1);
        }),
        BuildError::DuplicateName {
            attribute: Attribute::CpuLoad
        }
    );
    assert_eq!(
        build(|it| {
            it.effect(7, Mark::Other).effect(7, Mark::HiPower);
        }),
        BuildError::DuplicateEffect { effect_id: 7 }
    );
    assert_eq!(
        build(|it| {
            it.type_info(7, 0, 0, None).type_info(7, 0, 0, None);
        }),
        BuildError::DuplicateType { type_id: 7 }
    );
    let twice = ItemResult::default().with(5, 1.0).with(5, 1.0);
    let mut fit = FitBuilder::new(1);
    fit.item(FitItem::new(1, Slot::Cargo), twice);
    assert_eq!(
        fit.build(),
        Err(BuildError::DuplicateAttribute {
            result: 2,
            attribute_id: 5
        })
    );
    let mut fit = FitBuilder::new(1);
    fit.skill(-4, 1).skill(3, 1).skill(-4, 2);
    assert_eq!(fit.build(), Err(BuildError::DuplicateSkill { type_id: -4 }));
}

/// Document 01: "S ≤ 1,024, F ≤ 256, R ≤ 256, A ≤ 30,000".
#[test]
fn a_fit_at_its_limits_is_built_and_accepted_and_one_beyond_is_not_built() {
    let catalogue = CatalogueBuilder::new().build().unwrap();
    let full = || {
        let mut fit = FitBuilder::new(1);
        for id in 0..1_024 {
            fit.skill(id, 5);
        }
        for _ in 0..256 {
            fit.item(FitItem::new(1, Slot::Cargo), ItemResult::default());
        }
        fit
    };
    let attributes = |count: i32| ItemResult {
        attributes: (0..count).map(|id| (id, 0.0)).collect(),
        ..ItemResult::default()
    };
    let mut fit = full();
    fit.ship(attributes(30_000));
    let image = fit.build().unwrap();
    assert_eq!(image.len(), fitcheck::FIT_BYTES);
    assert_accepted(&catalogue, &image);

    let too_many = |fit: &FitBuilder, part: FitPart, count: usize| {
        assert_eq!(fit.build(), Err(BuildError::TooMany { part, count }));
    };
    let mut fit = full();
    fit.ship(attributes(29_999)).character(attributes(2));
    too_many(&fit, FitPart::Attributes, 30_001);
    let mut fit = full();
    fit.skill(-1, 0);
    too_many(&fit, FitPart::Skills, 1_025);
    let mut fit = full();
    fit.item_without_result(FitItem::new(1, Slot::Cargo));
    too_many(&fit, FitPart::Items, 257);
    let mut fit = full();
    fit.result_without_item(ItemResult::default());
    too_many(&fit, FitPart::Results, 257);
}

/// 20 + 20 + 8 + 16 × 1,048,573 is 16,777,216.
#[test]
fn a_catalogue_at_its_limit_is_built_and_accepted_and_a_longer_one_is_not_built() {
    let mut builder = CatalogueBuilder::new();
    builder.type_info(1, 25, 6, None).link(1, 1);
    for row in 0..1_048_573 {
        builder.base(row % 1_000, row, 1.0);
    }
    let image = builder.build().unwrap();
    assert_eq!(image.len(), 16_777_216);
    let fit = FitBuilder::new(1).build().unwrap();
    assert_eq!(
        fitcheck::list(&image, &fit, &ListOptions::new(Reader::Officer)),
        Ok(vec![])
    );

    builder.link(1, 1);
    let bytes = 16_777_224;
    assert_eq!(builder.build(), Err(BuildError::CatalogueTooLong { bytes }));
}

#[test]
fn items_and_results_that_would_pair_up_are_not_built() {
    let item = FitItem::new(1, Slot::Cargo);
    let mut fit = FitBuilder::new(1);
    fit.item_without_result(item)
        .result_without_item(ItemResult::default());
    let error = fit.build().unwrap_err();
    assert_eq!(
        error,
        BuildError::Unpaired {
            items: 1,
            results: 1
        }
    );
}

/// Document 02's bases are f64: every value is stored to its last bit, and
/// every NaN as the one that a widening writes.
#[test]
fn a_base_value_is_stored_to_its_last_bit() {
    let stored = |value: f64| {
        let image = CatalogueBuilder::new().base(3302, 182, value).build();
        u64::from_le_bytes(*image.unwrap().last_chunk().unwrap())
    };
    for value in [
        0.0,
        -0.0,
        0.1,
        0.1f32.into(),
        16_777_217.0,
        -1e300,
        f64::from_bits(1),
        f64::MIN_POSITIVE,
        f64::MAX,
        f64::NEG_INFINITY,
    ] {
        assert_eq!(stored(value), value.to_bits(), "{value}");
    }
    for bits in [
        0x7FF8_0000_0000_0000,
        0xFFF8_0000_0000_0001,
        0x7FF0_0000_0000_0001,
    ] {
        assert_eq!(stored(f64::from_bits(bits)), 0x7FF8_0000_0000_0000);
    }
}

#[test]
fn errors_say_which_field_and_what_stands_in_it() {
    let said = |error: BuildError| error.to_string();
    assert_eq!(
        said(BuildError::TooMany {
            part: FitPart::Skills,
            count: 1_025
        }),
        "1025 skills: the most is 1024"
    );
    assert_eq!(
        said(BuildError::DuplicateName {
            attribute: Attribute::CpuOutput
        }),
        "attribute name cpuOutput has two ids"
    );
    assert_eq!(
        said(Slot::new(SlotType::DroneBay, 1).unwrap_err()),
        "slot index 1: drone bay has no other than 0"
    );
    assert_eq!(
        said(Slot::new(SlotType::FighterTube, 256).unwrap_err()),
        "slot index 256: the highest of a fighter tube is 255"
    );
}
