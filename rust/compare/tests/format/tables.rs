//! The page's numbers, against the source of the original that they follow.

use std::collections::BTreeSet;

use crate::page::{PAGE, table};

const FIT: &str = include_str!("../../../original/src/crates/esf-dogma-engine/src/fit.rs");
const CALCULATE: &str =
    include_str!("../../../original/src/crates/esf-dogma-engine/src/calculate/mod.rs");
const VALIDATE: &str =
    include_str!("../../../original/src/crates/esf-dogma-engine/src/validate/mod.rs");
const RESOURCE: &str =
    include_str!("../../../original/src/crates/esf-dogma-engine/src/validate/resource.rs");
const SLOT: &str =
    include_str!("../../../original/src/crates/esf-dogma-engine/src/validate/slot.rs");
const ITEM: &str =
    include_str!("../../../original/src/crates/esf-dogma-engine/src/validate/item.rs");
const SKILL: &str =
    include_str!("../../../original/src/crates/esf-dogma-engine/src/validate/skill.rs");

/// The names of the original's tables, in document 01's order; a name that
/// stands in no table is one row by itself.
const NAMED: [(&str, &str); 17] = [
    (RESOURCE, "LOADS"),
    (RESOURCE, "maxActiveDrones"),
    (RESOURCE, "capacity"),
    (SLOT, "RACKS"),
    (SLOT, "HARDPOINTS"),
    (SLOT, "implantness"),
    (SLOT, "boosterness"),
    (SLOT, "subSystemSlot"),
    (ITEM, "rigSize"),
    (ITEM, "SHIP_TYPES"),
    (ITEM, "SHIP_GROUPS"),
    (ITEM, "volume"),
    (ITEM, "isCapitalSize"),
    (ITEM, "STANDUP_FIGHTERS"),
    (ITEM, "GROUP_LIMITS"),
    (ITEM, "maxTypeFitted"),
    (SKILL, "REQUIRED"),
];

/// What stands between two texts.
fn between<'a>(source: &'a str, from: &str, to: &str) -> &'a str {
    let (_, rest) = source
        .split_once(from)
        .unwrap_or_else(|| panic!("no `{from}`"));
    rest.split_once(to)
        .unwrap_or_else(|| panic!("no `{to}` behind `{from}`"))
        .0
}

/// The strings of a text, in order.
fn quoted(text: &str) -> Vec<&str> {
    text.split('"').skip(1).step_by(2).collect()
}

/// The cases of an enum of the original, in order.
fn cases<'a>(source: &'a str, name: &str) -> Vec<&'a str> {
    between(source, &format!("pub enum {name} {{\n"), "\n}")
        .lines()
        .filter_map(|line| line.strip_prefix("    "))
        .filter(|line| line.starts_with(|first: char| first.is_ascii_uppercase()))
        .map(|line| {
            line.split(|end: char| !end.is_ascii_alphanumeric())
                .next()
                .unwrap()
        })
        .collect()
}

/// A column of a table; cells that are empty are left out.
fn column(heading: &str, first: &str, at: usize) -> Vec<&'static str> {
    let rows = table(heading, first);
    let cells = rows.iter().map(|row| row[at]);
    cells.filter(|cell| !cell.is_empty()).collect()
}

/// Numbers from the one given on, as a column has them.
fn numbers(from: usize, count: usize) -> Vec<String> {
    (from..from + count)
        .map(|number| number.to_string())
        .collect()
}

#[test]
fn the_88_names() {
    let mut expected = Vec::new();
    for (source, name) in NAMED {
        match source.split_once(&format!("const {name}: [")) {
            Some((_, rest)) => {
                let names = quoted(between(rest, "= [", "\n];"));
                expected.extend(names.into_iter().map(|each| (each, format!("`{name}`"))));
            }
            None => {
                assert!(
                    source.contains(&format!("\"{name}\"")),
                    "the original asks for {name}"
                );
                expected.push((name, name.to_string()));
            }
        }
    }
    let rows = table("Names", "number");
    assert_eq!(rows.len(), 88);
    assert_eq!(expected.len(), 88);
    for (number, (row, (name, source))) in rows.iter().zip(expected).enumerate() {
        assert_eq!((row[0], row[1]), (number.to_string().as_str(), name));
        assert_eq!(
            row[2] == source,
            source.starts_with('`'),
            "{name} stands in {source}"
        );
        assert_eq!(
            row[2].starts_with("alone"),
            !source.starts_with('`'),
            "{name}"
        );
    }
}

#[test]
fn the_marks() {
    let arms = between(VALIDATE, "match effect.name() {\n", "_ => {}");
    let expected: Vec<Vec<String>> = arms
        .lines()
        .filter(|line| line.contains("=>"))
        .zip(1..)
        .map(|(line, mark)| {
            let slot = between(line, "SlotKind::", ")");
            vec![
                mark.to_string(),
                quoted(line)[0].to_string(),
                slot.to_string(),
            ]
        })
        .collect();
    let rows = table("Marks", "mark");
    assert_eq!(rows[0], ["0", "any other", "none"]);
    assert_eq!(rows[1..], expected);
}

#[test]
fn the_slot_kinds_and_states() {
    let kinds = column("Slot kinds", "kind", 1);
    assert_eq!(kinds, cases(FIT, "Slot"));
    assert_eq!(column("Slot kinds", "kind", 0), numbers(0, kinds.len()));
    let states = column("States", "number", 1);
    assert_eq!(states, cases(FIT, "State"));
    assert_eq!(column("States", "number", 0), numbers(0, states.len()));
}

/// Every number of a category or group that the original has a name for stands
/// in the page's table, and no other.
#[test]
fn the_categories_and_groups() {
    let constants = between(CALCULATE, "const CATEGORY_SHIP", "\n\n");
    let expected: BTreeSet<i32> = constants
        .lines()
        .flat_map(|line| integers(line.split_once('=').unwrap().1))
        .collect();
    let cells = column("Categories and groups", "what", 1);
    let shown: BTreeSet<i32> = cells.into_iter().flat_map(integers).collect();
    assert_eq!(shown, expected);
}

fn integers(text: &str) -> Vec<i32> {
    text.split(|other: char| !other.is_ascii_digit())
        .filter_map(|number| number.parse().ok())
        .collect()
}

/// Rules from Resource to NotASkill, and their payload's words: as many as the
/// case has fields, but for that of the sub.
#[test]
fn the_rules() {
    let every = cases(VALIDATE, "Rule");
    let taken = every.iter().position(|case| *case == "NotASkill").unwrap() + 1;
    let mut rows = table("Entry", "rule");
    // Behind those of the original stand document 02's.
    let ours = rows.split_off(taken);
    let named: Vec<(&str, &str)> = ours.iter().map(|row| (row[0], row[1])).collect();
    let numbered = [("24", "Banned"), ("25", "Points"), ("26", "UnknownType")];
    assert_eq!(named, numbered);
    assert_eq!(
        rows.iter().map(|row| row[1]).collect::<Vec<_>>(),
        every[..taken]
    );
    assert_eq!(column("Entry", "rule", 0)[..taken], numbers(1, taken));
    let cases_of_rule = between(VALIDATE, "pub enum Rule {\n", "\n}");
    for row in rows {
        let [_, name, _, sub, payload, _] = row[..] else {
            panic!("six cells: {row:?}");
        };
        let fields = match cases_of_rule.split_once(&format!("\n    {name} {{\n")) {
            Some((_, rest)) => fields(between(rest, "", "\n    }")),
            None => Vec::new(),
        };
        let words = payload
            .split(',')
            .filter(|word| !word.trim().is_empty())
            .count();
        assert_eq!(
            words,
            fields.len() - usize::from(!sub.is_empty()),
            "{name}: {fields:?}"
        );
    }
}

fn fields(text: &str) -> Vec<&str> {
    text.lines()
        .map(str::trim)
        .filter(|line| !line.starts_with("///"))
        .filter_map(|line| line.split_once(':'))
        .map(|(name, _)| name)
        .collect()
}

#[test]
fn the_subs() {
    let resources = cases(VALIDATE, "Resource");
    let taken = resources
        .iter()
        .position(|case| *case == "CargoBay")
        .unwrap()
        + 1;
    assert_eq!(column("Entry", "sub", 0), numbers(0, taken));
    assert_eq!(column("Entry", "sub", 1), resources[..taken]);
    assert_eq!(column("Entry", "sub", 2), cases(VALIDATE, "SlotKind"));
    assert_eq!(column("Entry", "sub", 3), cases(VALIDATE, "GroupLimit"));
}

/// Document 01's order of the refusals, without 7, which document 02 takes away,
/// and with 19 and 20 in front, 11 and 12, 13 in both its places, 9 of a trim, 16, 14 and
/// 15, and 10 of a widening, of a training, of a trim, of a cause and of leaving out, which
/// it brings.
#[test]
fn the_order_of_the_refusals() {
    let order = column("Refusals in their order", "no.", 0);
    let numbers = "19 20 1 2 3 4 4 5 6 13 11 12 8 9 9 13 16 14 15 10 10 10 10 10 10";
    assert_eq!(order.join(" "), numbers);
}

/// A bar within a cell would shift those behind it.
#[test]
fn rows_have_as_many_cells_as_their_heads() {
    let mut width = 0;
    for line in PAGE.lines() {
        let bars = line.matches('|').count();
        match line.starts_with('|') {
            true if width == 0 => width = bars,
            true => assert_eq!(bars, width, "`{line}`"),
            false => width = 0,
        }
    }
}
