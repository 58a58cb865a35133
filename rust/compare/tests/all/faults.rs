//! `FAULTS.md` against the port: its rows are the faults, the case of each row
//! tells the fault apart as the row says, and every rule and refusal has one.
//! That no case before it does is run by `compare --faults --check`.

use std::collections::{BTreeMap, BTreeSet};
use std::sync::LazyLock;

use compare::case::REFUSALS;
use compare::cases::Which;
use compare::faults::{self, Described};
use compare::plain::Flaw;
use compare::run::{Shown, Stage, quiet_checker_panics};

const PAGE: &str = include_str!("../../FAULTS.md");

/// A row's cells: fault, case, what differs, generated case, what is wrong.
fn rows() -> Vec<[&'static str; 5]> {
    let lines = PAGE.lines().filter(|line| line.starts_with("| "));
    let cells = lines.map(|line| {
        let cells: Vec<&str> = line.trim_matches('|').split('|').map(str::trim).collect();
        cells.try_into().expect("five cells")
    });
    cells.skip(1).collect()
}

/// What each row's case shows of its fault, if anything.
fn told() -> Vec<(Flaw, Option<Shown>)> {
    quiet_checker_panics();
    let mut by_case: BTreeMap<&str, Vec<usize>> = BTreeMap::new();
    for (number, row) in rows().iter().enumerate() {
        by_case.entry(row[1]).or_default().push(number);
    }
    let flaws: Vec<Flaw> = faults::flaws().iter().map(|known| known.flaw).collect();
    let mut told: Vec<_> = flaws.iter().map(|flaw| (*flaw, None)).collect();
    for (name, numbers) in by_case {
        let which = Which::named(name).expect("the row names a case");
        let case = which.case(1).expect("the case is there");
        let stage = Stage::new(&case);
        for number in numbers {
            told[number].1 = faults::shown(&stage, flaws[number]);
        }
    }
    told
}

static TOLD: LazyLock<Vec<(Flaw, Option<Shown>)>> = LazyLock::new(told);

#[test]
fn the_rows_are_the_faults() {
    let known: Vec<Described> = faults::flaws();
    assert_eq!(rows().len(), known.len());
    for (row, known) in rows().iter().zip(&known) {
        assert_eq!((row[0], row[4]), (&*known.name, &*known.words));
    }
}

#[test]
fn the_cases_tell_the_faults_apart_as_the_rows_say() {
    for (row, (flaw, shown)) in rows().iter().zip(&*TOLD) {
        let shown = shown.as_ref().map(Shown::to_string);
        assert_eq!(
            shown.as_deref(),
            Some(row[2]),
            "{flaw:?} in case {}",
            row[1]
        );
    }
}

/// A fault that shows in entries of that rule and no other.
#[test]
fn every_rule_has_a_fault_of_its_own() {
    let alone = TOLD.iter().filter_map(|(_, shown)| match shown {
        Some(Shown::Rules(rules)) if rules.len() == 1 => rules.first().copied(),
        _ => None,
    });
    assert_eq!(
        alone.collect::<BTreeSet<u8>>(),
        (1..=21).chain(24..=26).collect()
    );
}

/// One that fails to give it, and one that gives it where nothing is wrong; 7
/// is never deserved.
#[test]
fn every_refusal_has_a_fault_either_way() {
    let refusals = TOLD.iter().filter_map(|(_, shown)| match shown {
        Some(Shown::Refusals(deserved, given)) => Some((*deserved, *given)),
        _ => None,
    });
    let (mut missed, mut invented) = (BTreeSet::new(), BTreeSet::new());
    for (deserved, given) in refusals {
        if deserved != 0 {
            missed.insert(deserved);
        }
        if deserved == 0 {
            invented.insert(given);
        }
    }
    assert_eq!(missed, REFUSALS.into_iter().collect());
    assert_eq!(invented, (1..=16).chain([19, 20]).collect());
}
