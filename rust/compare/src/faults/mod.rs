//! Does the comparison notice? Every deliberate fault of the plain port, and
//! the first case that tells it apart.

mod flaws;

use std::sync::Mutex;
use std::sync::atomic::{AtomicUsize, Ordering};

use crate::cases::Which;
use crate::plain::{Flaw, Plain};
use crate::run::{Readers, Shown, Stage};
use crate::tally::Zeros;
use crate::threads::spread;
use crate::{fixed, large};

pub use flaws::{Described, flaws, named};

/// How many generated cases are tried alone, without the fixed ones.
const GENERATED: u64 = 2_500;

/// The first case that tells a flaw apart, and what the difference is about.
#[derive(Clone, Debug, PartialEq)]
pub struct Told {
    pub by: Which,
    pub shown: Shown,
}

/// What tells a flaw apart in one case, if anything does. One that is not about
/// readers is looked for in the calls for the case's own.
pub fn shown(stage: &Stage, flaw: Flaw) -> Option<Shown> {
    let checker = Plain::with(flaw);
    let readers = match flaw.is_about_readers() {
        true => Readers::All,
        false => Readers::Own,
    };
    let held = stage.hold_for(readers, &checker, &mut Zeros::default());
    Some(stage.shown(held.err()?.ask, readers, &checker))
}

/// The first of the cases that tells each flaw apart.
fn told_apart(flaws: &[Flaw], cases: &[Which], seed: u64) -> Vec<Option<Told>> {
    let first: Vec<AtomicUsize> = flaws
        .iter()
        .map(|_| AtomicUsize::new(cases.len()))
        .collect();
    let told: Vec<Mutex<Option<Shown>>> = flaws.iter().map(|_| Mutex::new(None)).collect();
    spread(cases.len(), |place, (): &mut ()| {
        let open = |number: &usize| first[*number].load(Ordering::Relaxed) > place;
        let left: Vec<usize> = (0..flaws.len()).filter(open).collect();
        if left.is_empty() {
            return;
        }
        let case = cases[place].case(seed).expect("the case is there");
        let stage = Stage::new(&case);
        let can_show = |number: &usize| {
            let mut asks = case.asks.iter();
            asks.any(|ask| flaws[*number].can_show_in(ask))
        };
        for number in left.into_iter().filter(can_show) {
            let Some(shown) = shown(&stage, flaws[number]) else {
                continue;
            };
            // Another thread may have found one before, or one behind.
            let mut held = told[number].lock().expect("no thread panics");
            if first[number].fetch_min(place, Ordering::Relaxed) > place {
                *held = Some(shown);
            }
        }
    });
    let found = first.into_iter().zip(told);
    let found = found.map(|(first, told)| {
        let shown = told.into_inner().expect("no thread panics")?;
        let by = cases[first.into_inner()];
        Some(Told { by, shown })
    });
    found.collect()
}

/// A row of the table.
pub struct Row {
    pub described: Described,
    /// Among the fixed and the large cases.
    pub told: Option<Told>,
    /// Among generated ones; a size is not looked for there.
    pub generated: Option<Which>,
}

/// The cases that do not depend on the seed, those with the longest catalogues
/// last.
fn fixed_and_large() -> Vec<Which> {
    let fixed = fixed::count() as u64;
    let long = fixed - fixed::LONG as u64;
    let small = (0..long).map(Which::Numbered);
    let large = (0..large::count() as u64).map(Which::Large);
    let long = (long..fixed).map(Which::Numbered);
    small.chain(large).chain(long).collect()
}

/// Every fault with what tells it apart.
pub fn rows(seed: u64) -> Vec<Row> {
    let described = flaws();
    let all: Vec<Flaw> = described.iter().map(|known| known.flaw).collect();
    let fixed = fixed::count() as u64;
    let told = told_apart(&all, &fixed_and_large(), seed);

    let small = described.iter().filter(|known| !known.is_about_size());
    let small: Vec<Flaw> = small.map(|known| known.flaw).collect();
    let numbers = (fixed..fixed + GENERATED).map(Which::Numbered);
    let generated = told_apart(&small, &numbers.collect::<Vec<_>>(), seed);
    let mut generated = generated.into_iter();

    let rows = described.into_iter().zip(told);
    rows.map(|(described, told)| {
        let generated = match described.is_about_size() {
            true => None,
            false => generated.next().flatten().map(|told| told.by),
        };
        Row {
            described,
            told,
            generated,
        }
    })
    .collect()
}

impl Row {
    /// The row as the table has it.
    pub fn line(&self) -> String {
        let Described { name, words, .. } = &self.described;
        let generated = match self.generated {
            Some(which) => which.to_string(),
            None if self.described.is_about_size() => String::new(),
            None => "none".to_string(),
        };
        let (by, shown) = match &self.told {
            Some(told) => (told.by.to_string(), told.shown.to_string()),
            None => ("NOT TOLD APART".to_string(), String::new()),
        };
        format!("| {name} | {by} | {shown} | {generated} | {words} |")
    }
}

/// The page: what the table is, and the table.
pub fn page(rows: &[Row], seed: u64) -> String {
    let fixed = fixed::count();
    let large = large::count();
    let mut page = format!(
        "# Does the comparison notice?\n\n\
        Each row is one deliberate fault, switched on in the plain port by itself: {} of them, \
        of which {} are about sizes. It says the first case that tells the port from the \
        original, and what differs there. The page is what `cargo run --release -p compare -- \
        --faults` prints (seed {seed}); `run-tests.sh` holds it against a run, line by line.\n\n\
        Cases 0 to {} and the large ones, L0 to L{}, do not depend on the seed. The fourth column \
        is the first of {GENERATED} generated cases, from {fixed} on, that tells the fault apart \
        too; sizes are not looked for there, as generated fits and catalogues are small. Calls are \
        made for every reader where the fault is about readers, else for the case's own.\n\n\
        A cargo sum that begins at -0 is not among the faults: document 01 has runs count both \
        zeros equal there. Exchanging two names within `SHIP_TYPES`, `SHIP_GROUPS` or \
        `STANDUP_FIGHTERS` is not either: these are sets, and no rule shows their order. Nor is \
        an amount cast to u16 that stops at the end of its range: no more than 256 pairs are \
        counted, so nothing shows it. An amount that is cut to 16 bits is among them. Nor are \
        refusal 20 before 19, as no reader above 2 is a guest, and a pilot taken for an officer, \
        as each call gives both the same. Nor, of causes, is an id that is not compared: an item \
        has one entry of a rule and a sub, with one id, in every part that shows it, and NotASkill \
        stays whatever is dropped. Nor is another level of a trained skill in a part: no entry of \
        a list looks at one. Nor, of leaving out, is a slot or a part that earlier pairs alone \
        take: of two that share one, one sees the other whichever is asked.\n\n\
        | fault | told apart by case | by | generated | what is wrong |\n|---|---|---|---|---|\n",
        rows.len(),
        rows.iter()
            .filter(|row| row.described.is_about_size())
            .count(),
        fixed - 1,
        large - 1,
    );
    for row in rows {
        page += &row.line();
        page.push('\n');
    }
    page
}

/// Which lines of two pages differ, and how many do not: every line of the
/// printed page counts.
pub fn held_against(page: &str, file: &str) -> (u64, Vec<String>) {
    let (mut same, mut wrong) = (0, Vec::new());
    let mut held = file.lines();
    for line in page.lines() {
        match held.next() {
            Some(known) if known == line => same += 1,
            Some(known) => wrong.push(format!("the file has: {known}\nthe run says: {line}")),
            None => wrong.push(format!("the file lacks: {line}")),
        }
    }
    wrong.extend(held.map(|line| format!("the file has more: {line}")));
    (same, wrong)
}

#[cfg(test)]
mod tests {
    use super::*;

    #[test]
    fn pages_are_held_line_by_line() {
        assert_eq!(held_against("a\nb\n", "a\nb\n"), (2, vec![]));
        let (same, wrong) = held_against("a\nb\n", "a\nc\nd\n");
        assert_eq!((same, wrong.len()), (1, 2));
        assert_eq!(held_against("a\nb\n", "a\n").1.len(), 1);
    }
}
