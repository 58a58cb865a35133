//! A short comparison of every checker with the original. The long ones are
//! run by `compare` itself.

use crate::common::checkers;
use compare::run::run;
use compare::tally::Tally;
use compare::{cases, fixed};

#[test]
fn every_checker_agrees_on_the_fixed_cases_and_some_more() {
    // The last few fixed cases have catalogues of 16 MiB; `compare` runs them.
    let long = fixed::LONG as u64;
    let fixed = fixed::count() as u64;
    for (name, checker) in checkers() {
        let mut tally = Tally::default();
        for number in (0..fixed - long).chain(fixed..fixed + 500) {
            let case = cases::case(2, number);
            if let Err(difference) = run(&case, checker.as_ref(), &mut tally) {
                panic!("{name}, case {number}: {}", difference.what);
            }
        }
    }
}
