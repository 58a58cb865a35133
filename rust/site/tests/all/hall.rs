//! The hall number and the verdicts behind it.

use compare::checker::{Checker, Terms};
use compare::model::{Damage, hall_image};
use compare::reference::Original;
use fitcheck::{
    CatalogueBuilder, FitBuilder, FitItem, Hall, ItemResult, ListOptions, Reader, Refusal, Slot,
    Unpaired, Verdict,
};

use crate::common::{images, numbers, slices};

/// Type 587 is a ship and 34 a mineral without a volume; every other type is
/// unknown.
fn catalogue() -> Vec<u8> {
    CatalogueBuilder::new()
        .type_info(587, 25, 6, None)
        .type_info(34, 18, 4, None)
        .build()
        .unwrap()
}

fn clear() -> Vec<u8> {
    FitBuilder::new(587).build().unwrap()
}

fn faulted() -> Vec<u8> {
    FitBuilder::new(588).build().unwrap()
}

/// A fit with an empty list: so many items in its hold, and so many results.
fn held(items: usize, results: usize) -> Vec<u8> {
    let item = FitItem::new(34, Slot::Cargo);
    let mut fit = FitBuilder::new(587);
    for number in 0..items.max(results) {
        match (number < items, number < results) {
            (true, true) => fit.item(item, ItemResult::default()),
            (true, false) => fit.item_without_result(item),
            _ => fit.result_without_item(ItemResult::default()),
        };
    }
    fit.build().unwrap()
}

#[test]
fn more_than_64_fits_are_counted_too() {
    for count in [0, 1, 63, 64, 65, 128, 129, 200] {
        let fits: Vec<Vec<u8>> = (0..count)
            .map(|number| match number % 7 {
                0 => clear(),
                1 | 2 => faulted(),
                3 => held(number, number + 1),
                4 => held(number / 2 + 1, number / 2),
                _ => vec![0; 35],
            })
            .collect();
        let hall = fitcheck::hall(&catalogue(), &slices(&fits)).unwrap();
        let of = |classes: &[usize]| {
            let counted = (0..count).filter(|number| classes.contains(&(number % 7)));
            counted.count()
        };
        let expected = Hall {
            clear: of(&[0]),
            faulted: of(&[1, 2, 3, 4]),
            refused: of(&[5, 6]),
        };
        assert_eq!(hall, expected, "{count} fits");
    }
}

/// An empty list is clear where the numbers are equal, and faulted where they
/// are not: alone, and beside one of every other kind.
#[test]
fn unequal_numbers_are_faulted_and_said() {
    for (items, results) in [
        (0, 0),
        (0, 1),
        (0, 2),
        (0, 256),
        (1, 0),
        (1, 1),
        (1, 3),
        (2, 0),
        (2, 1),
        (3, 1),
        (255, 256),
        (256, 0),
        (256, 255),
        (256, 256),
    ] {
        let fit = held(items, results);
        let listed = fitcheck::list(&catalogue(), &fit, &ListOptions::new(Reader::Officer));
        assert_eq!(listed, Ok(Vec::new()), "{items} items, {results} results");
        let verdict = match items.cmp(&results) {
            std::cmp::Ordering::Equal => Verdict::Clear,
            std::cmp::Ordering::Greater => Verdict::Faulted {
                entries: 0,
                unpaired: Some(Unpaired::Items(items - results)),
            },
            std::cmp::Ordering::Less => Verdict::Faulted {
                entries: 0,
                unpaired: Some(Unpaired::Results(results - items)),
            },
        };
        assert_eq!(
            fitcheck::verdicts(&catalogue(), &[&fit]),
            Ok(vec![verdict]),
            "{items} items, {results} results"
        );
        let clear_ones = usize::from(verdict == Verdict::Clear);
        let alone = Hall {
            clear: clear_ones,
            faulted: 1 - clear_ones,
            refused: 0,
        };
        assert_eq!(fitcheck::hall(&catalogue(), &[&fit]), Ok(alone));
        let among = [clear(), faulted(), fit, vec![0; 35], clear()];
        let mut numbers = alone;
        numbers += Hall {
            clear: 2,
            faulted: 1,
            refused: 1,
        };
        assert_eq!(fitcheck::hall(&catalogue(), &slices(&among)), Ok(numbers));
    }
}

/// Where there are entries, what was not checked is said beside their number.
#[test]
fn unequal_numbers_are_said_beside_entries_too() {
    let fit = FitBuilder::new(588)
        .item_without_result(FitItem::new(34, Slot::Cargo))
        .build()
        .unwrap();
    let verdict = fitcheck::verdicts(&catalogue(), &[&fit]).unwrap()[0];
    assert_eq!(
        verdict,
        Verdict::Faulted {
            entries: 1,
            unpaired: Some(Unpaired::Items(1))
        }
    );
    assert_eq!(
        verdict.to_string(),
        "faulted, 1 entry; 1 item has no result, so not all of it was checked"
    );
}

#[test]
fn the_numbers_are_the_originals_and_the_verdicts_add_up_to_them() {
    let (mut fits_seen, mut unread) = (0, [0, 0]);
    for case in numbers(400) {
        let (catalogue, fits) = images(31, case);
        // A hall input without fits shows whether the catalogue is refused.
        let frame = hall_image(&[], &Damage::default());
        let refusal = Original.hall(&catalogue, &frame) >> 32;
        let hall = fitcheck::hall(&catalogue, &slices(&fits));
        let verdicts = fitcheck::verdicts(&catalogue, &slices(&fits));
        if refusal != 0 {
            assert_eq!(u64::from(hall.unwrap_err().number()), refusal);
            assert_eq!(u64::from(verdicts.unwrap_err().number()), refusal);
            continue;
        }
        let mut sum = Hall::default();
        for (image, verdict) in fits.iter().zip(verdicts.unwrap()) {
            let mut room = vec![0; 24 * fitcheck::MOST_ENTRIES];
            let word = Original.list(&catalogue, image, Terms::default(), &mut room);
            // F and R as they stand in the image.
            let size = |at: usize| u32::from_le_bytes(image[at..at + 4].try_into().unwrap());
            let expected = match (word >> 32, word as usize) {
                (0, entries) if size(4) > size(8) => Verdict::Faulted {
                    entries,
                    unpaired: Some(Unpaired::Items((size(4) - size(8)) as usize)),
                },
                (0, entries) if size(4) < size(8) => Verdict::Faulted {
                    entries,
                    unpaired: Some(Unpaired::Results((size(8) - size(4)) as usize)),
                },
                (0, 0) => Verdict::Clear,
                (0, entries) => Verdict::Faulted {
                    entries,
                    unpaired: None,
                },
                (number, _) => Verdict::Refused(Refusal::from_number(number as u32).unwrap()),
            };
            assert_eq!(verdict, expected, "case {case}");
            if word == 0 {
                unread[0] += usize::from(size(4) > size(8));
                unread[1] += usize::from(size(4) < size(8));
            }
            match verdict {
                Verdict::Clear => sum.clear += 1,
                Verdict::Faulted { .. } => sum.faulted += 1,
                _ => sum.refused += 1,
            }
            fits_seen += 1;
        }
        assert_eq!(hall, Ok(sum), "case {case}");
    }
    assert!(fits_seen > 1_000, "{fits_seen} fits");
    assert!(unread.iter().all(|count| *count > 10), "{unread:?} unread");
}

#[test]
fn the_catalogue_is_judged_without_fits_too() {
    for (catalogue, refusal) in [
        ([0; 3].as_slice(), Refusal::CatalogueLength),
        // Two effects of id 0.
        (
            &[vec![0, 0, 0, 0, 2], vec![0; 15 + 16]].concat(),
            Refusal::CatalogueOrder,
        ),
        // One effect of mark 9.
        (
            &[vec![0, 0, 0, 0, 1], vec![0; 15 + 4], vec![9, 0, 0, 0]].concat(),
            Refusal::CatalogueField,
        ),
    ] {
        assert_eq!(fitcheck::hall(catalogue, &[]), Err(refusal));
        assert_eq!(fitcheck::verdicts(catalogue, &[]), Err(refusal));
        assert_eq!(fitcheck::hall(catalogue, &[&clear()]), Err(refusal));
        assert_eq!(fitcheck::verdicts(catalogue, &[&clear()]), Err(refusal));
    }
}

#[test]
fn a_fit_longer_than_any_is_refused_by_4_and_counted() {
    let long = vec![0; fitcheck::FIT_BYTES + 1];
    let fits = [clear(), long.clone(), faulted()];
    assert_eq!(
        fitcheck::list(&catalogue(), &long, &ListOptions::new(Reader::Officer)),
        Err(Refusal::FitLength)
    );
    assert_eq!(
        fitcheck::hall(&catalogue(), &slices(&fits)),
        Ok(Hall {
            clear: 1,
            faulted: 1,
            refused: 1
        })
    );
    assert_eq!(
        fitcheck::verdicts(&catalogue(), &slices(&fits)).unwrap()[1],
        Verdict::Refused(Refusal::FitLength)
    );
}
