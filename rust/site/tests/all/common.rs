//! What the tests share.

use std::sync::OnceLock;

use compare::cases;
use compare::fixed;
use compare::model::{Catalogue, Damage, Fit};

/// The longest catalogue of a fixed case that the tests take; the comparison
/// itself runs the longer ones.
const LONGEST: usize = 200_000;

/// Cases by number: the fixed ones of small images, and some that follow from a
/// seed.
pub fn numbers(more: u64) -> impl Iterator<Item = u64> {
    static SMALL: OnceLock<Vec<u64>> = OnceLock::new();
    let count = fixed::count() as u64;
    let small = SMALL.get_or_init(|| {
        let is_small = |number: &u64| {
            let (catalogue, fits) = images(0, *number);
            catalogue.len() + fits.iter().map(Vec::len).sum::<usize>() < LONGEST
        };
        (0..count).filter(is_small).collect()
    });
    small.iter().copied().chain(count..count + more)
}

/// The fits as the calls take them.
pub fn slices(fits: &[Vec<u8>]) -> Vec<&[u8]> {
    fits.iter().map(Vec::as_slice).collect()
}

/// The images of a case: the catalogue and each fit.
pub fn images(seed: u64, number: u64) -> (Vec<u8>, Vec<Vec<u8>>) {
    let case = cases::case(seed, number);
    let fits = case.fits.iter().map(Fit::image).collect();
    (case.catalogue.image(), fits)
}

/// Whether the bytes of a catalogue were broken on purpose.
pub fn is_whole(damage: &Damage) -> bool {
    *damage == Damage::default()
}

/// The models of a case whose bytes are as laid out.
pub fn models(seed: u64, number: u64) -> (Option<Catalogue>, Vec<Fit>) {
    let case = cases::case(seed, number);
    let catalogue = Some(case.catalogue).filter(|catalogue| is_whole(&catalogue.damage));
    let fits = case
        .fits
        .into_iter()
        .filter(|fit| is_whole(&fit.damage))
        .collect();
    (catalogue, fits)
}
