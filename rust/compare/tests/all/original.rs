//! The original as it is reached here: the door to `report` says what
//! `validate` says, and the sum of nothing is what DIFFERENCES says.

use ::original::{Rule, Run, Target, Violation};
use compare::generate;
use compare::reference::{Catalogue, Fit};

/// What the published `validate` lists under skills where the ship alone has
/// results: the way to `report` that needs no door.
fn by_validate(catalogue: &Catalogue, fit: &Fit) -> Vec<Violation> {
    let run = Run {
        info: catalogue,
        fit: &fit.fit,
        calculation: &fit.calculation,
    };
    let mut found = run.validate();
    found.retain(|violation| matches!(violation.rule, Rule::Skill { .. }));
    found
}

#[test]
fn the_door_to_report_gives_what_validate_gives() {
    let mut compared = 0;
    for number in 0..600 {
        let case = generate::case(77, number);
        let Some(model) = case.fits.first() else {
            continue;
        };
        let (image, types) = (model.image(), case.catalogue.image());
        let (Ok(catalogue), Ok(fit)) = (Catalogue::decode(&types), Fit::decode(&image)) else {
            continue;
        };
        for result in 0..fit.calculation.items.len() as u32 + 2 {
            let run = Run {
                info: &catalogue,
                fit: &fit.fit,
                calculation: &fit.calculation,
            };
            if !run.is_hull() {
                continue;
            }
            let outcome = fit.result(result).unwrap();
            let door = run.report(outcome, Target::Ship);

            let mut moved = Fit::decode(&image).unwrap();
            moved.fit.items.clear();
            let calculation = &mut moved.calculation;
            match result {
                0 => {}
                1 => std::mem::swap(&mut calculation.ship, &mut calculation.character),
                _ => calculation.ship = calculation.items.swap_remove(result as usize - 2),
            }
            assert_eq!(door, by_validate(&catalogue, &moved));
            compared += door.len();
        }
    }
    assert!(compared > 500, "only {compared} entries compared");
}

#[test]
fn this_rust_begins_a_sum_at_minus_zero() {
    // Document 01 sums from +0, and so did earlier releases. Where this fails,
    // DIFFERENCES has to say so; the comparison takes either sign.
    let sum: f64 = std::iter::empty::<f64>().sum();
    assert_eq!(sum.to_bits(), (-0.0f64).to_bits());
}
