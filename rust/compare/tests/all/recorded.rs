//! The recorded answers: they are what `record` writes, every checker gives
//! them, and they hold every rule, every refusal that an officer gets on the
//! main page and every call.

use std::collections::BTreeSet;

use crate::common::checkers;
use compare::case::REFUSALS;
use compare::checker::Terms;
use compare::record::{self, HALL, LIST, MOST, Record, WIDEN};

const FILE: &[u8] = include_bytes!("../../recorded.bin");

fn records() -> Vec<Record> {
    record::read(FILE).unwrap()
}

#[test]
fn the_file_is_what_record_writes() {
    assert!(
        FILE == record::file(&record::sample()),
        "run `compare record compare/recorded.bin`"
    );
    assert!(FILE.len() <= MOST);
}

/// The program `replay` runs over a copy, since a program is run on its own data.
#[test]
fn the_replayed_copy_is_the_same() {
    assert!(
        FILE == include_bytes!("../../../../crates/replay/data/recorded.bin"),
        "run `cp compare/recorded.bin ../crates/replay/data/`"
    );
}

fn terms(record: &Record) -> Terms<'_> {
    Terms {
        profile: &record.profile,
        allowance: record.allowance,
        ..Terms::default()
    }
}

#[test]
fn every_checker_gives_the_recorded_answers() {
    for (name, checker) in checkers() {
        for (number, record) in records().iter().enumerate() {
            let mut out = vec![0x5A; record.room as usize];
            let word = match record.result {
                LIST => checker.list(&record.catalogue, &record.fit, terms(record), &mut out),
                HALL => checker.hall(&record.catalogue, &record.fit),
                WIDEN => checker.widen(&record.catalogue, &mut out),
                result => {
                    let (catalogue, fit) = (&record.catalogue, &record.fit);
                    checker.skill(catalogue, fit, result, Terms::default(), &mut out)
                }
            };
            assert_eq!(word, record.word, "{name}, record {number}");
            let (written, rest) = out.split_at(record.written.len());
            assert_eq!(written, record.written, "{name}, record {number}");
            assert!(
                rest.iter().all(|byte| *byte == 0x5A),
                "{name}, record {number}"
            );
        }
    }
}

#[test]
fn every_rule_refusal_and_call_is_recorded() {
    let mut rules = BTreeSet::new();
    let mut refusals = BTreeSet::new();
    let mut calls = BTreeSet::new();
    for record in records() {
        let call = match record.result {
            LIST => "list",
            HALL => "hall",
            WIDEN => "widen",
            _ => "skill",
        };
        calls.insert((call, record.word >> 32 == 0));
        refusals.insert(record.word >> 32);
        if call != "widen" {
            rules.extend(record.written.chunks(24).map(|entry| entry[1]));
        }
    }
    assert_eq!(rules, (1..=21).chain(24..=26).collect());
    // The main page gives no 13, an officer gets neither 19 nor 20, 16 is a training's,
    // and 14 and 15 are a cause's.
    let is_given = |number: &u8| ![13, 14, 15, 16, 19, 20].contains(number);
    let given = REFUSALS.into_iter().filter(is_given);
    let given = given.map(u64::from);
    assert_eq!(refusals, given.chain([0]).collect());
    for call in ["list", "skill", "hall", "widen"] {
        assert!(calls.contains(&(call, true)), "{call} answered");
        assert!(calls.contains(&(call, false)), "{call} refused");
    }
}
