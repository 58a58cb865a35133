//! What is timed gives the same bytes on both sides.

use bench::fits::{self, LARGEST, REALISTIC};
use bench::subject::{
    self, Catalogue, Fit, agreed_cause, agreed_hall, agreed_left, agreed_list, agreed_skills,
    agreed_trained, agreed_trimmed, agreed_widened,
};
use bench::world::{self, SMALL};
use compare::checker::{Checker, Terms};

#[test]
fn lists_agree_byte_by_byte() {
    let catalogue = Catalogue::new(&world::catalogue(SMALL));
    let library = subject::library();
    for shape in [REALISTIC, LARGEST] {
        let fit = Fit::new(&fits::fit(shape, 1));
        assert!(!agreed_list(&*library, &catalogue, &fit).is_empty());
    }
}

#[test]
fn skills_agree_byte_by_byte() {
    let library = subject::library();
    let chain = Catalogue::new(&world::chain(512, 12));
    let demanding = Fit::new(&fits::at_chain());
    let listed = agreed_skills(&*library, &chain, &demanding, 0);
    assert_eq!(listed.len(), 24 * 512);

    let small = Catalogue::new(&world::catalogue(SMALL));
    let realistic = Fit::new(&fits::fit(REALISTIC, 0));
    agreed_skills(&*library, &small, &realistic, 2);
}

#[test]
fn halls_agree() {
    let catalogue = Catalogue::new(&world::catalogue(SMALL));
    let fits: Vec<Fit> = (0..8)
        .map(|number| Fit::new(&fits::fit(REALISTIC, number)))
        .collect();
    assert!(agreed_hall(&*subject::library(), &catalogue, &fits) > 0);
}

#[test]
fn widened_catalogues_agree_byte_by_byte() {
    let catalogue = world::catalogue(SMALL);
    let new = agreed_widened(&*subject::library(), &catalogue.old_image());
    assert!(new == catalogue.image());
}

#[test]
fn trained_fits_agree_byte_by_byte() {
    let library = subject::library();
    let chain = Catalogue::new(&world::chain(512, 2));
    let demanding = Fit::new(&fits::at_chain());
    let trained = |steps| agreed_trained(&*library, &chain, &demanding, 0, steps);
    let before = demanding.image.len();
    assert!(trained(0) == demanding.image);
    assert_eq!(trained(1).len(), before + 5);
    assert_eq!(trained(u32::MAX).len(), before + 5 * 512);

    let small = Catalogue::new(&world::catalogue(SMALL));
    let realistic = Fit::new(&fits::fit(REALISTIC, 0));
    agreed_trained(&*library, &small, &realistic, 2, 3);
}

#[test]
fn trimmed_catalogues_agree_byte_by_byte() {
    let library = subject::library();
    let chain = world::chain(512, 2).image();
    let demanding = Fit::new(&fits::at_chain());
    assert!(agreed_trimmed(&*library, &chain, &demanding) == chain);

    let small = world::catalogue(SMALL).image();
    let realistic = Fit::new(&fits::fit(REALISTIC, 0));
    let left = agreed_trimmed(&*library, &small, &realistic);
    assert!(left.len() < small.len());
    assert!(agreed_trimmed(&*library, &left, &realistic) == left);
}

#[test]
fn causes_agree_byte_by_byte() {
    let library = subject::library();
    let small = Catalogue::new(&world::catalogue(SMALL));
    let crowded = vec![[1, 5], [1, 11], [2, 0], [17, 0]];
    let worst = vec![[2, 0], [8, 0], [17, 2], [18, 0]];
    for (fit, rules) in [
        (fits::crowded(1), crowded),
        (fits::worst(1), worst),
        (fits::laden(1), vec![[1, 11]]),
        (fits::full_hangar(1), vec![[1, 5]]),
    ] {
        let fit = Fit::new(&fit);
        for rule in rules {
            let position = subject::position(&small, &fit, rule);
            assert!(!agreed_cause(&*library, &small, &fit, position).is_empty());
        }
    }
}

#[test]
fn what_to_leave_out_agrees_byte_by_byte() {
    let library = subject::library();
    let small = Catalogue::new(&world::catalogue(SMALL));
    for (fit, budget, taken) in [
        (fits::gathered(16, 1), 65_552, 16),
        (fits::gathered(40, 1), 40, 40),
        (fits::gathered(16, 1), 0, 16),
        (fits::stepped(16, 1), 16, 8),
        (fits::stepped(16, 1), 65_552, 8),
        (fits::stepped(256, 1), 256, 128),
    ] {
        let fit = Fit::new(&fit);
        let left = agreed_left(&*library, &small, &fit, budget);
        assert_eq!((left.tries, left.numbers().len()), (budget, taken));
    }
    let crowded = Fit::new(&fits::crowded(1));
    assert!(
        !agreed_left(&*library, &small, &crowded, u32::MAX)
            .numbers()
            .is_empty()
    );
}

/// Each rule that has to go is broken, so that none of them is spared.
#[test]
fn what_is_left_out_breaks_every_rule() {
    let small = Catalogue::new(&world::catalogue(SMALL));
    for pairs in [16, 256] {
        let fit = Fit::new(&fits::gathered(pairs, 0));
        for rule in [[2, 0], [8, 0], [10, 0], [17, 0], [17, 1], [17, 2], [18, 0]] {
            subject::position(&small, &fit, rule);
        }
    }
}

/// A library whose second entry names another pair, or whose widened catalogue,
/// trained fit, trimmed catalogue, list of pairs or set to leave out has another byte.
struct OneByteOff;

impl Checker for OneByteOff {
    fn list(&self, catalogue: &[u8], fit: &[u8], terms: Terms, out: &mut [u8]) -> u64 {
        let word = subject::library().list(catalogue, fit, terms, out);
        out[28] ^= 1;
        word
    }

    fn skill(&self, _: &[u8], _: &[u8], _: u32, _: Terms, _: &mut [u8]) -> u64 {
        unreachable!("no skills are asked for")
    }

    fn hall(&self, _: &[u8], _: &[u8]) -> u64 {
        unreachable!("no hall is asked for")
    }

    fn widen(&self, old: &[u8], out: &mut [u8]) -> u64 {
        let word = subject::library().widen(old, out);
        out[28] ^= 1;
        word
    }

    fn train(&self, catalogue: &[u8], fit: &[u8], result: u32, steps: u32, out: &mut [u8]) -> u64 {
        let word = subject::library().train(catalogue, fit, result, steps, out);
        out[28] ^= 1;
        word
    }

    fn trim(&self, catalogue: &[u8], fit: &[u8], out: &mut [u8]) -> u64 {
        let word = subject::library().trim(catalogue, fit, out);
        out[28] ^= 1;
        word
    }

    fn cause(&self, catalogue: &[u8], fit: &[u8], position: u32, out: &mut [u8]) -> u64 {
        let word = subject::library().cause(catalogue, fit, position, out);
        out[0] ^= 1;
        word
    }

    fn leave_out(&self, catalogue: &[u8], fit: &[u8], budget: u32, out: &mut [u8]) -> u64 {
        let word = subject::library().leave_out(catalogue, fit, budget, out);
        out[4] ^= 1;
        word
    }
}

#[test]
#[should_panic(expected = "bytes of the library and of the original")]
fn one_byte_that_differs_stops_the_benchmark() {
    let catalogue = Catalogue::new(&world::catalogue(SMALL));
    let fit = Fit::new(&fits::fit(LARGEST, 1));
    agreed_list(&OneByteOff, &catalogue, &fit);
}

#[test]
#[should_panic(expected = "bytes of the library and of document 02")]
fn one_byte_of_a_widened_catalogue_that_differs_stops_it_too() {
    agreed_widened(&OneByteOff, &world::catalogue(SMALL).old_image());
}

#[test]
#[should_panic(expected = "bytes of the library and of the reference")]
fn one_byte_of_a_trained_fit_that_differs_stops_it_as_well() {
    let catalogue = Catalogue::new(&world::catalogue(SMALL));
    let fit = Fit::new(&fits::fit(REALISTIC, 0));
    agreed_trained(&OneByteOff, &catalogue, &fit, 2, 1);
}

#[test]
#[should_panic(expected = "bytes of the library and of document 02")]
fn one_byte_of_a_trimmed_catalogue_that_differs_stops_it_again() {
    let catalogue = world::catalogue(SMALL).image();
    let fit = Fit::new(&fits::fit(REALISTIC, 0));
    agreed_trimmed(&OneByteOff, &catalogue, &fit);
}

#[test]
#[should_panic(expected = "pairs of the library and of document 02")]
fn one_byte_of_a_cause_that_differs_stops_it_too() {
    let small = Catalogue::new(&world::catalogue(SMALL));
    let fit = Fit::new(&fits::crowded(0));
    let position = subject::position(&small, &fit, [2, 0]);
    agreed_cause(&OneByteOff, &small, &fit, position);
}

#[test]
#[should_panic(expected = "sets of the library and of document 02")]
fn one_byte_of_a_set_to_leave_out_that_differs_stops_it_too() {
    let small = Catalogue::new(&world::catalogue(SMALL));
    let fit = Fit::new(&fits::gathered(4, 0));
    agreed_left(&OneByteOff, &small, &fit, 9);
}
