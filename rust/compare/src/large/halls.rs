//! Halls of 64 fits that hold as much as they may, over the catalogue of full
//! size: 23,632,388 bytes, which name over 10,000 types.

use super::catalogue::catalogue;
use super::fits::{WAYS, clear, faulted, refused};
use crate::case::{Ask, Case};
use crate::model::Fit;

pub const COUNT: usize = 3;

const FITS: usize = 64;

pub fn case(number: usize) -> Case {
    let fits: Vec<Fit> = match number {
        0 => (0..FITS).map(clear).collect(),
        // The last fit alone is faulted.
        1 => {
            let mut fits: Vec<Fit> = (0..FITS - 1).map(clear).collect();
            fits.push(faulted(8 * WAYS - 1));
            fits
        }
        _ => (0..FITS).map(mixed).collect(),
    };
    Case {
        title: "64 fits as large as may be".to_string(),
        catalogue: catalogue(),
        fits,
        asks: vec![Ask::Hall],
        ..Case::default()
    }
}

/// Clear, faulted and refused in no simple order, more of one than of another.
fn mixed(number: usize) -> Fit {
    match number * number % 7 {
        0 | 1 => clear(number),
        2 => refused(number / 4),
        _ => faulted(number),
    }
}
