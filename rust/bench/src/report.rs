//! The figures as Markdown tables.

use crate::subject::{Cause, Hall, LeaveOut, List, Skill, Train, Trim, Widen, WorstTrim};

/// Nanoseconds in microseconds.
pub fn micros(nanos: f64) -> String {
    let micros = nanos / 1e3;
    match micros {
        _ if micros < 10.0 => format!("{micros:.2}"),
        _ if micros < 100.0 => format!("{micros:.1}"),
        _ => format!("{micros:.0}"),
    }
}

/// A ratio that has no target.
fn ratio(ratio: f64) -> String {
    format!("{ratio:.2}")
}

/// A ratio, and whether it meets its target: no more than 1.
fn held(ratio: f64) -> String {
    let word = if ratio <= 1.0 { "met" } else { "missed" };
    format!("{ratio:.2} {word}")
}

/// A ratio, and whether it meets a target of its own.
fn held_to(target: f64, ratio: f64) -> String {
    let word = if ratio <= target { "met" } else { "missed" };
    format!("{ratio:.2} {word}")
}

pub fn list_head() {
    println!(
        "| | entries | list | 65,520 bytes | just the entries | scan | original | its list part \
         | list ÷ (scan + original) | list ÷ (scan + list part) | 65,520 bytes | just the entries |"
    );
    println!("|---|---|---|---|---|---|---|---|---|---|---|---|");
}

/// `target`: what a list may take of a scan and the original's list part, with
/// a buffer of each length.
pub fn list_row(title: &str, fits: usize, row: &List, target: f64) {
    let part = row.scan + row.part;
    println!(
        "| {title}, at most {target} | {:.1} | {} | {} | {} | {} | {} | {} | {} | {} | {} | {} |",
        row.entries as f64 / fits as f64,
        micros(row.list),
        micros(row.middle),
        micros(row.exact),
        micros(row.scan),
        micros(row.original),
        micros(row.part),
        held(row.list / (row.scan + row.original)),
        held_to(target, row.list / part),
        held_to(target, row.middle / part),
        held_to(target, row.exact / part),
    );
}

/// Hangars of single drones, and of as many as they hold.
pub fn hangar_table([ones, full]: [f64; 2]) {
    println!("| 256 stacks | list | ÷ single drones |");
    println!("|---|---|---|");
    println!("| of 1 | {} | |", micros(ones));
    println!(
        "| of 4,294,967,295 | {} | {} |",
        micros(full),
        ratio(full / ones)
    );
}

/// What a profile of 4,096 groups may cost beside the same call without.
const LEAGUE: f64 = 1.1;

pub fn league_head() {
    println!("| | list | with the profile | ÷ without, target {LEAGUE} |");
    println!("|---|---|---|---|");
}

/// `has_target`: the target is about the catalogue that a site has.
pub fn league_row(title: &str, [without, with]: [f64; 2], has_target: bool) {
    let shown = match with / without {
        ratio if !has_target => format!("{ratio:.2}"),
        ratio if ratio <= LEAGUE => format!("{ratio:.2} met"),
        ratio => format!("{ratio:.2} missed"),
    };
    println!(
        "| {title} | {} | {} | {shown} |",
        micros(without),
        micros(with)
    );
}

pub fn missing_head() {
    println!("| | list | none of the types there | ÷ all there |");
    println!("|---|---|---|---|");
}

pub fn missing_row(title: &str, [there, gone]: [f64; 2]) {
    println!(
        "| {title} | {} | {} | {} |",
        micros(there),
        micros(gone),
        ratio(gone / there)
    );
}

/// What a smaller page may cost beside the main one.
const PAGE: f64 = 1.1;

pub fn page_head() {
    println!("| | main page | smaller page | ÷ main, target {PAGE} |");
    println!("|---|---|---|---|");
}

pub fn page_row(title: &str, [main, smaller]: [f64; 2]) {
    let ratio = smaller / main;
    let shown = if ratio <= PAGE { "met" } else { "missed" };
    println!(
        "| {title} | {} | {} | {ratio:.2} {shown} |",
        micros(main),
        micros(smaller)
    );
}

/// What a guest's list may cost beside an officer's.
const GUEST: f64 = 1.0;

pub fn reader_head() {
    println!("| | an officer's list | a guest's | ÷ an officer's, target {GUEST} |");
    println!("|---|---|---|---|");
}

pub fn reader_row(title: &str, [officer, guest]: [f64; 2]) {
    let ratio = guest / officer;
    let shown = if ratio <= GUEST { "met" } else { "missed" };
    println!(
        "| {title} | {} | {} | {ratio:.2} {shown} |",
        micros(officer),
        micros(guest)
    );
}

pub fn skill_head() {
    println!(
        "| | entries | skill | short buffer | scan | original \
         | skill ÷ (scan + original) | skill ÷ original |"
    );
    println!("|---|---|---|---|---|---|---|---|");
}

/// `scanned`: whether the scan counts in the target, or the original alone.
pub fn skill_row(title: &str, fits: usize, row: &Skill, scanned: bool) {
    let (with_scan, alone) = if scanned {
        (held as fn(f64) -> String, ratio as fn(f64) -> String)
    } else {
        (ratio as fn(f64) -> String, held as fn(f64) -> String)
    };
    println!(
        "| {title} | {:.1} | {} | {} | {} | {} | {} | {} |",
        row.entries as f64 / fits as f64,
        micros(row.skill),
        micros(row.exact),
        micros(row.scan),
        micros(row.original),
        with_scan(row.skill / (row.scan + row.original)),
        alone(row.skill / row.original),
    );
}

/// `target`: what a hall may take of a scan and the small calls.
pub fn hall_table(kind: &str, fits: usize, row: &Hall, target: f64) {
    let scan = row.scans / fits as f64;
    println!("| | µs | hall ÷ this |");
    println!("|---|---|---|");
    let faulted = row.faulted;
    let title = format!("(d) hall of {fits} {kind} fits, of which {faulted} faulted");
    println!("| {title} | {} | |", micros(row.hall));
    let small = scan + row.small_lists;
    let what = "one scan of the catalogue, and list calls on the small catalogue";
    println!(
        "| {what}, at most {target} | {} | {} |",
        micros(small),
        held_to(target, row.hall / small)
    );
    let what = "one scan of the catalogue, scans of the fits, the original's list part";
    let time = scan + row.fit_scans + row.part;
    println!("| {what} | {} | {} |", micros(time), ratio(row.hall / time));
}

pub fn widen_head() {
    println!(
        "| | old, bytes | new, bytes | widen | copy | scan + copy | plain \
         | widen ÷ copy | widen ÷ (scan + copy) | widen ÷ plain |"
    );
    println!("|---|---|---|---|---|---|---|---|---|---|");
}

pub fn widen_row(title: &str, row: &Widen) {
    println!(
        "| {title} | {} | {} | {} | {} | {} | {} | {} | {} | {} |",
        row.old,
        row.new,
        micros(row.widen),
        micros(row.copy),
        micros(row.scan),
        micros(row.plain),
        ratio(row.widen / row.copy),
        ratio(row.widen / row.scan),
        ratio(row.widen / row.plain),
    );
}

/// What training may cost beside a skill call and a copy of the fit.
const TRAINING: f64 = 2.0;

pub fn train_head() {
    println!(
        "| | levels missing | 1 step | as many as are missing | 4,294,967,295 | skill | copy \
         | the most ÷ (skill + copy), target {TRAINING} |"
    );
    println!("|---|---|---|---|---|---|---|---|");
}

pub fn train_row(title: &str, fits: usize, row: &Train) {
    let most = row.steps.iter().copied().fold(0.0, f64::max);
    let ratio = most / (row.skill + row.copy);
    let shown = if ratio <= TRAINING { "met" } else { "missed" };
    let [one, all, greatest] = row.steps.map(micros);
    println!(
        "| {title} | {:.1} | {one} | {all} | {greatest} | {} | {} | {ratio:.2} {shown} |",
        f64::from(row.missing) / fits as f64,
        micros(row.skill),
        micros(row.copy),
    );
}

/// What a trim may cost beside the list call of the same fit.
const TRIMMING: f64 = 2.0;

pub fn trim_head() {
    println!(
        "| | bytes before | after | trim | trimmed again | list \
         | trim ÷ list, target {TRIMMING} at full size |"
    );
    println!("|---|---|---|---|---|---|---|");
}

pub fn trim_row(title: &str, fits: usize, row: &Trim, has_target: bool) {
    let ratio = row.trim / row.list;
    let shown = match (has_target, ratio <= TRIMMING) {
        (false, _) => "",
        (true, true) => " met",
        (true, false) => " missed",
    };
    println!(
        "| {title} | {} | {} | {} | {} | {} | {ratio:.2}{shown} |",
        row.whole,
        row.small / fits,
        micros(row.trim),
        micros(row.again),
        micros(row.list),
    );
}

pub fn worst_trim_row(title: &str, results: usize, row: &WorstTrim) {
    println!(
        "{title}: {} bytes, {} after; {} ms, {:.2} times {results} skill calls of {} ms each.",
        row.whole,
        row.small,
        micros(row.trim / 1e3),
        row.trim / (results as f64 * row.skill),
        micros(row.skill / 1e3),
    );
}

/// What a cause may cost beside the list call of the same fit.
const CAUSING: f64 = 3.0;

pub fn cause_head() {
    println!("| | pairs kept | cause | list | cause ÷ list, target {CAUSING} |");
    println!("|---|---|---|---|---|");
}

pub fn cause_row(title: &str, fits: usize, row: &Cause) {
    let ratio = row.cause / row.list;
    let shown = match ratio <= CAUSING {
        true => "met",
        false => "missed",
    };
    println!(
        "| {title} | {} | {} | {} | {ratio:.2} {shown} |",
        row.kept / fits,
        micros(row.cause),
        micros(row.list),
    );
}

/// What leaving out may take, in milliseconds.
const LEAVING: f64 = 50.0;

pub fn leave_out_head() {
    println!(
        "| | pairs | tries | taken off | leave out, ms, target {LEAVING} | list, µs | leave out ÷ list |"
    );
    println!("|---|---|---|---|---|---|---|");
}

pub fn leave_out_row(title: &str, row: &LeaveOut) {
    let time = row.leave_out / 1e6;
    let shown = match time <= LEAVING {
        true => "met",
        false => "missed",
    };
    println!(
        "| {title} | {} | {} | {} | {time:.3} {shown} | {} | {} |",
        row.pairs,
        row.tries,
        row.taken,
        micros(row.list),
        ratio(row.leave_out / row.list),
    );
}

pub fn growth_head(across: &str) {
    println!(
        "| {across} | list | scan | original | its list part \
         | list ÷ (scan + original) | list ÷ (scan + list part) |"
    );
    println!("|---|---|---|---|---|---|---|");
}

pub fn growth_row(at: &str, row: &List) {
    println!(
        "| {at} | {} | {} | {} | {} | {} | {} |",
        micros(row.list),
        micros(row.scan),
        micros(row.original),
        micros(row.part),
        ratio(row.list / (row.scan + row.original)),
        ratio(row.list / (row.scan + row.part)),
    );
}
