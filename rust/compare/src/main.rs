//! The command line of the comparison: see `compare --help`.

use std::process::ExitCode;
use std::{env, fs};

use compare::args::{self, Against, Command, Settings};
use compare::cases::{self, Which};
use compare::checker::Checker;
use compare::plain::Plain;
use compare::run::{Difference, quiet_checker_panics, run};
use compare::shrink::shrink;
use compare::tally::Tally;
use compare::threads::spread;
use compare::{faults, rattle, record, words};

fn main() -> ExitCode {
    let line: Vec<String> = env::args().skip(1).collect();
    let done = match args::parse(&line) {
        Ok(Command::Help) => {
            println!("{}", args::USAGE);
            return ExitCode::SUCCESS;
        }
        Ok(Command::Compare(settings)) => compared(&settings).map(Some),
        Ok(Command::Faults(settings, file)) => faults_told(settings.seed, file),
        Ok(Command::Record(file)) => match record::write(&file) {
            Ok(()) => return ExitCode::SUCCESS,
            Err(message) => Err(message),
        },
        Err(wrong) => Err(format!("{wrong}\n\n{}", args::USAGE)),
    };
    match done {
        Ok(None) => ExitCode::SUCCESS,
        Ok(Some((passed, failed))) => {
            println!("{passed} passed, {failed} failed");
            if failed == 0 {
                ExitCode::SUCCESS
            } else {
                ExitCode::FAILURE
            }
        }
        Err(message) => {
            eprintln!("compare: {message}");
            ExitCode::from(2)
        }
    }
}

fn checker(settings: &Settings) -> Result<(&'static str, Box<dyn Checker>), String> {
    if let Some(name) = &settings.fault {
        let flaw = faults::named(name);
        let flaw = flaw.ok_or(format!("there is no fault `{name}`; see `--faults`"))?;
        return Ok(("the plain port with a fault", Box::new(Plain::with(flaw))));
    }
    let plain: Box<dyn Checker> = Box::new(Plain::default());
    match (settings.against, rattle::library()) {
        (Some(Against::Plain), _) | (None, None) => Ok(("the plain port", plain)),
        (_, Some(library)) => Ok(("the Rattle library", library)),
        (Some(Against::Rattle), None) => Err(rattle::MISSING.to_string()),
    }
}

/// Differences that are shrunk and printed; the others are counted.
const SHOWN: usize = 5;

/// A long run says now and then how far it is.
const PROGRESS: usize = 100_000;

fn compared(settings: &Settings) -> Result<(u64, u64), String> {
    let (name, checker) = checker(settings)?;
    let checker = checker.as_ref();
    if let Some(which) = settings.only {
        return alone(which, settings.seed, checker);
    }

    let large = cases::large_ones(settings.cases);
    println!(
        "{name} beside the original: {} cases and {} large ones, seed {}",
        settings.cases,
        large.len(),
        settings.seed
    );
    quiet_checker_panics();
    let Part { tally, found } = parts(settings, &large, checker);
    let count = settings.cases + large.len() as u64;
    let failed = found.len() as u64;
    for (which, difference) in found.into_iter().take(SHOWN) {
        let case = which.case(settings.seed).expect("the case was run");
        let (small, difference) = shrink(&case, &difference, checker);
        println!("\nDIFFERENCE in case {which}, the smallest input found:");
        println!("{}{}\n", words::case(&small), difference.what);
    }
    let passed = count - failed;
    let (met, unmet) = met(&tally);
    println!(
        "\n{} cases, {} large ones, {} calls of each side, {} entries",
        settings.cases,
        large.len(),
        tally.calls,
        tally.entries
    );
    println!(
        "sign of an empty cargo sum: +0 in {} calls of the checker, -0 in {}",
        tally.zeros.plus, tally.zeros.minus
    );
    Ok((passed + met, failed + unmet))
}

/// What one thread found.
#[derive(Default)]
struct Part {
    tally: Tally,
    found: Vec<(Which, Difference)>,
}

/// Runs all cases, the large ones first: they take the longest.
fn parts(settings: &Settings, large: &[Which], checker: &dyn Checker) -> Part {
    let count = large.len() + settings.cases as usize;
    let parts = spread(count, |place, part: &mut Part| {
        if place > 0 && place % PROGRESS == 0 {
            eprintln!("{place} cases");
        }
        let which = match large.get(place) {
            Some(which) => *which,
            None => Which::Numbered((place - large.len()) as u64),
        };
        let case = which.case(settings.seed).expect("every case is there");
        if let Err(difference) = run(&case, checker, &mut part.tally) {
            part.found.push((which, difference));
        }
    });
    let mut all = Part::default();
    for part in parts {
        all.tally.add(part.tally);
        all.found.extend(part.found);
    }
    all.found.sort_by_key(|(which, _)| *which);
    all
}

/// One case in words, with the original's answers.
fn alone(which: Which, seed: u64, checker: &dyn Checker) -> Result<(u64, u64), String> {
    let case = which.case(seed);
    let case = case.ok_or(format!("there is no case `{which}`"))?;
    print!("case {which}: {}", words::case(&case));
    print!("{}", words::answers(&case));
    Ok(match run(&case, checker, &mut Tally::default()) {
        Ok(()) => (1, 0),
        Err(difference) => {
            println!("{}: {}", words::ask(difference.ask), difference.what);
            (0, 1)
        }
    })
}

/// Tries every fault; with a file, what it has to say is held against it.
fn faults_told(seed: u64, file: Option<String>) -> Result<Option<(u64, u64)>, String> {
    quiet_checker_panics();
    let rows = faults::rows(seed);
    let missed = rows.iter().filter(|row| row.told.is_none()).count() as u64;
    let page = faults::page(&rows, seed);
    let Some(file) = file else {
        print!("{page}");
        let told = rows.len() as u64 - missed;
        // The page alone goes to standard output, so that it can be kept.
        eprintln!("{told} passed, {missed} failed");
        return match missed {
            0 => Ok(None),
            _ => Err(format!("{missed} faults are not told apart")),
        };
    };
    let held = fs::read_to_string(&file).map_err(|error| format!("{file}: {error}"))?;
    let (same, wrong) = faults::held_against(&page, &held);
    for difference in &wrong {
        println!("{difference}");
    }
    println!(
        "{} faults, {missed} not told apart; {file}: {same} lines as the run says",
        rows.len()
    );
    let failed = missed + wrong.len() as u64;
    Ok(Some((rows.len() as u64 - missed, failed)))
}

/// Prints how often each point was met; how many were, and how many were not.
fn met(tally: &Tally) -> (u64, u64) {
    let (mut met, mut unmet) = (0, 0);
    println!("\n{:>9}  met", "times");
    for (point, count) in tally.required() {
        match count {
            0 => {
                unmet += 1;
                println!("{:>9}  {point}", "NEVER");
            }
            _ => {
                met += 1;
                println!("{count:>9}  {point}");
            }
        }
    }
    (met, unmet)
}
