//! What to take off 256 pairs, each of which takes one try; and 16 pairs with every rule
//! over the catalogue of full size, for 65,552 tries.

use super::{fits, full};
use crate::case::{Ask, Case, Room};
use crate::names::*;
use crate::sketch::*;

pub const COUNT: usize = 6;

/// How many pairs a fit may have.
const PAIRS: u16 = 256;

pub fn case(number: usize) -> Case {
    match number {
        0 => asked("256 in a rack of 255", guns().ship(RACKS, 255.0)),
        1 => asked("256 in a rack of 128", guns().ship(RACKS, 128.0)),
        2 => asked("256 of a type of which 255 may be", limits(255.0)),
        3 => asked("256 of a type of which none may be", limits(0.0)),
        4 => {
            let fit = fits::every_rule(true);
            full(
                "what to leave out where every rule is broken",
                fit,
                asks(256),
            )
        }
        _ => {
            let mut fit = fits::every_rule(true);
            fit.items.truncate(16);
            fit.results.truncate(16);
            full("16 pairs to leave out", fit, asks(16))
        }
    }
}

fn asks(pairs: u32) -> Vec<Ask> {
    let budgets = [0, 1, pairs - 1, pairs, pairs + 1, 255, 65_536];
    let budgets = [&budgets[..], &[65_551, 65_552, u32::MAX]].concat();
    let budgets = budgets.into_iter();
    let mut asks: Vec<Ask> = budgets.map(|b| Ask::LeaveOut(b, Room::Exact)).collect();
    asks.extend(ROOMS.map(|room| Ask::LeaveOut(pairs / 2, room)));
    asks
}

fn asked(title: &str, sketch: Sketch) -> Case {
    sketch.case(&format!("what to leave out: {title}"), &asks(256))
}

fn guns() -> Sketch {
    (0..PAIRS).fold(
        Sketch::hull().known(9, 60, CATEGORY_MODULE),
        |sketch, number| sketch.item(9, HIGH, number % 256).state(ACTIVE),
    )
}

/// Each pair has the limit.
fn limits(allowed: f64) -> Sketch {
    let mut sketch = guns().name(MAX_TYPE_FITTED);
    for result in &mut sketch.fit.results {
        result
            .attributes
            .push((id(MAX_TYPE_FITTED), allowed.to_bits()));
    }
    sketch
}

#[cfg(test)]
mod tests {
    use super::*;

    #[test]
    fn every_case_has_as_many_pairs_as_it_says() {
        for number in 0..COUNT {
            let fit = &case(number).fits[0];
            let pairs = fit.items.len().min(fit.results.len());
            assert!([16, 256].contains(&pairs), "{number}: {pairs}");
        }
    }
}
