//! The hall number: document 01's three counts and its refusals.

use crate::common::checkers;
use compare::cases;
use compare::checker::{Checker, Terms, refused};
use compare::fixed;
use compare::model::{Catalogue, Damage, Effect, Fit, hall_image};
use compare::names::MAX_ACTIVE_DRONES;
use compare::sketch::*;

fn assert_hall(catalogue: &[u8], input: &[u8], expected: u64) {
    for (name, checker) in checkers() {
        assert_eq!(checker.hall(catalogue, input), expected, "{name}");
    }
}

/// A catalogue with a hull and a drone.
fn ground() -> Sketch {
    Sketch::hull()
        .known(9, 1, CATEGORY_DRONE)
        .name(MAX_ACTIVE_DRONES)
        .finish()
}

/// Clear, faulted, refused by each of 4 to 6, and two hangars that 32 bits do
/// not hold, one over its limit and one within it.
fn fits() -> Vec<Fit> {
    let clear = ground().fit;
    let faulted = Fit {
        ship_type: 1,
        ..Fit::default()
    };
    let mut by_4 = clear.clone();
    by_4.damage.extra.push(0);
    let mut by_5 = clear.clone();
    by_5.ship.attributes = vec![(2, 0), (1, 0)];
    let mut by_6 = clear.clone();
    by_6.mode_flag = 2;
    let stack = |sketch: Sketch, quantity: u32| {
        sketch
            .item(9, DRONE_BAY, 0)
            .quantity(quantity)
            .state(ACTIVE)
    };
    let hangar = stack(stack(ground(), 4_294_967_295), 1);
    let led = hangar.clone().character(MAX_ACTIVE_DRONES, 4_294_967_296.0);
    vec![clear, faulted, by_4, by_5, by_6, hangar.fit, led.fit]
}

#[test]
fn clear_faulted_and_refused_add_to_k() {
    let catalogue = ground().catalogue.image();
    let input = hall_image(&fits(), &Damage::default());
    assert_hall(&catalogue, &input, 2 + 256 * 2 + 65_536 * 3);
    let clear = vec![ground().fit; 64];
    assert_hall(&catalogue, &hall_image(&clear, &Damage::default()), 64);
    let faulted = vec![Fit::default(); 64];
    assert_hall(
        &catalogue,
        &hall_image(&faulted, &Damage::default()),
        64 * 256,
    );
}

/// A hull with so many items in its hold and so many results, which lists
/// nothing.
fn holding(items: usize, results: usize) -> Fit {
    let mut sketch = ground();
    for _ in 0..items {
        sketch = sketch.unpaired(9, CARGO, 0);
    }
    for _ in 0..results {
        sketch = sketch.result();
    }
    sketch.fit
}

/// "From now on a fit is clear exactly when its list is empty and it has as
/// many results as items. With an empty list and unequal numbers it is faulted."
#[test]
fn clear_means_as_many_results_as_items() {
    let catalogue = ground().catalogue.image();
    for (items, results) in [
        (0, 0),
        (1, 1),
        (3, 3),
        (256, 256),
        (1, 0),
        (2, 0),
        (3, 1),
        (256, 0),
        (256, 255),
        (0, 1),
        (0, 2),
        (1, 3),
        (0, 256),
        (255, 256),
    ] {
        let fit = holding(items, results);
        for (name, checker) in checkers() {
            let word = checker.list(&catalogue, &fit.image(), Terms::default(), &mut []);
            assert_eq!(word, 0, "{name}: the list itself does not change");
        }
        let number = if items == results { 1 } else { 256 };
        let alone = hall_image(std::slice::from_ref(&fit), &Damage::default());
        assert_hall(&catalogue, &alone, number);
        let among = [fits(), vec![fit], fits()].concat();
        let kinds = 2 * (2 + 256 * 2 + 65_536 * 3);
        assert_hall(
            &catalogue,
            &hall_image(&among, &Damage::default()),
            kinds + number,
        );
    }
}

/// A refused fit is refused and one with entries is faulted, whatever the
/// numbers.
#[test]
fn unequal_numbers_change_no_other_fate() {
    let catalogue = ground().catalogue.image();
    for (items, results) in [(2, 1), (1, 2)] {
        let mut listed = holding(items, results);
        listed.ship_type = 1;
        let mut broken = holding(items, results);
        broken.mode_flag = 2;
        for (fit, number) in [(listed, 256), (broken, 65_536)] {
            assert_hall(&catalogue, &hall_image(&[fit], &Damage::default()), number);
        }
    }
}

/// What a hall says of one fit, from that fit's own list call and the two
/// sizes in its image.
fn share(checker: &dyn Checker, catalogue: &[u8], fit: &[u8]) -> u64 {
    let mut room = vec![0; 135_696];
    let word = checker.list(catalogue, fit, Terms::default(), &mut room);
    let size = |at: usize| u32::from_le_bytes(fit[at..at + 4].try_into().unwrap());
    match word {
        _ if word >> 32 != 0 => 65_536,
        0 if size(4) == size(8) => 1,
        _ => 256,
    }
}

/// The promise, of each checker by itself: a fit is clear, faulted or refused
/// beside its own list call, and the three numbers add up to K.
#[test]
fn a_hall_is_what_the_lists_of_its_fits_say() {
    for (name, checker) in checkers() {
        let (mut halls, mut unread) = (0, 0);
        let fixed = fixed::count() as u64;
        for number in (0..fixed - fixed::LONG as u64).chain(fixed..fixed + 600) {
            let case = cases::case(5, number);
            let catalogue = case.catalogue.image();
            if case.fits.len() > 64 || checker.hall(&catalogue, &[0; 4]) != 0 {
                continue;
            }
            let images: Vec<Vec<u8>> = case.fits.iter().map(Fit::image).collect();
            let mut sum = 0;
            for (fit, image) in case.fits.iter().zip(&images) {
                let share = share(checker.as_ref(), &catalogue, image);
                let alone = hall_image(std::slice::from_ref(fit), &Damage::default());
                assert_eq!(checker.hall(&catalogue, &alone), share, "{name}, {number}");
                let list = checker.list(&catalogue, image, Terms::default(), &mut []);
                unread += usize::from(share == 256 && list == 0);
                sum += share;
            }
            let hall = checker.hall(&catalogue, &hall_image(&case.fits, &Damage::default()));
            assert_eq!(hall, sum, "{name}, case {number}");
            let added = hall % 256 + hall / 256 % 256 + hall / 65_536;
            assert_eq!(added, images.len() as u64, "{name}, case {number}");
            halls += 1;
        }
        assert!(halls > 500 && unread > 100, "{name}: {halls}, {unread}");
    }
}

#[test]
fn no_fits_are_answered() {
    assert_hall(&[0; 20], &[0; 4], 0);
}

#[test]
fn refusal_4_for_a_broken_frame() {
    assert_hall(&[0; 20], &[0; 3], refused(4));
    assert_hall(&[0; 20], &[], refused(4));
    assert_hall(&[0; 20], &[0; 5], refused(4));
    let many = vec![Fit::default(); 65];
    assert_hall(&[0; 20], &hall_image(&many, &Damage::default()), refused(4));
    // K = 1 and no length.
    assert_hall(&[0; 20], &[1, 0, 0, 0], refused(4));
    // A length of one byte more than there is, and of one less.
    for length in [35, 37] {
        let frame = Damage {
            sizes: vec![(1, length)],
            ..Damage::default()
        };
        assert_hall(&[0; 20], &hall_image(&[Fit::default()], &frame), refused(4));
    }
}

#[test]
fn lengths_add_without_wrapping() {
    let frame = Damage {
        sizes: vec![(1, 36 + 0x8000_0000), (2, 36 + 0x8000_0000)],
        ..Damage::default()
    };
    let input = hall_image(&[Fit::default(), Fit::default()], &frame);
    assert_hall(&[0; 20], &input, refused(4));
}

#[test]
fn the_catalogue_is_judged_before_the_input() {
    assert_hall(&[0; 3], &[], refused(1));
    let marked = |mark: u32, id: i32| Catalogue {
        effects: vec![Effect { id: 1, mark }, Effect { id, mark: 0 }],
        ..Catalogue::default()
    };
    assert_hall(&marked(0, 1).image(), &[], refused(2));
    assert_hall(&marked(9, 2).image(), &[], refused(3));
}

#[test]
fn a_long_list_is_faulted_and_an_empty_fit_slice_is_refused() {
    let catalogue = ground().catalogue.image();
    let mut long = ground();
    for index in 0..256 {
        long = long.item(9, HIGH, index as u16);
    }
    let input = hall_image(&[long.fit], &Damage::default());
    assert_hall(&catalogue, &input, 256);
    // K = 1 with a fit of no bytes.
    assert_hall(&catalogue, &[1, 0, 0, 0, 0, 0, 0, 0], 65_536);
}
