//! The command `fitcheck`: see `fitcheck --help`.

#![deny(missing_docs)]
#![forbid(unsafe_code)]

mod args;
mod explain;
mod files;
mod hall;
mod pack;
mod profile;
mod train;
mod trim;
mod widen;

use std::io::{self, ErrorKind, Write};
use std::process::ExitCode;

use fitcheck::{CatalogueImage, Refusal, json};

use args::Command;
use files::Source;

/// The statuses that `--help` lists.
const DONE: u8 = 0;
const FAILED: u8 = 1;
const WRONG_USAGE: u8 = 2;
const FAULTED: u8 = 3;

/// Why a command ends early.
enum Trouble {
    /// Something is wrong with what was given; the words for standard error.
    Given(String),
    /// Standard output cannot be written.
    Output(io::Error),
}

impl From<String> for Trouble {
    fn from(words: String) -> Trouble {
        Trouble::Given(words)
    }
}

impl From<io::Error> for Trouble {
    fn from(error: io::Error) -> Trouble {
        Trouble::Output(error)
    }
}

/// Says something on standard error.
fn complain(words: &str) {
    // There is nowhere left to say that standard error is closed.
    let _ = writeln!(io::stderr(), "fitcheck: {words}");
}

/// Says that an image is refused, in JSON too where that is asked for.
fn refused(
    out: &mut impl Write,
    source: &Source,
    refusal: Refusal,
    json: bool,
) -> Result<u8, Trouble> {
    complain(&format!(
        "{source}: refused by {}: {refusal}",
        refusal.number()
    ));
    if json {
        writeln!(out, "{}", json::refused(refusal))?;
    }
    Ok(FAILED)
}

/// The image that a refusal is about, of the two that a call takes.
fn blamed<'a>(refusal: Refusal, catalogue: &'a Source, fit: &'a Source) -> &'a Source {
    match refusal.is_of_catalogue() {
        true => catalogue,
        false => fit,
    }
}

/// Warns of what a catalogue leaves unchecked.
fn warn(source: &Source, catalogue: &[u8]) {
    let missing = CatalogueImage::new(catalogue).map(|catalogue| catalogue.missing());
    if let Some(missing) = missing.filter(|missing| !missing.is_empty()) {
        complain(&format!("{source}: warning: {missing}"));
    }
}

fn run(out: &mut impl Write) -> Result<u8, Trouble> {
    match args::parse(std::env::args_os().skip(1)) {
        Ok(Command::Help) => {
            out.write_all(args::HELP.as_bytes())?;
            Ok(DONE)
        }
        Ok(Command::Version) => {
            let (version, interface) = (env!("CARGO_PKG_VERSION"), fitcheck::interface());
            writeln!(out, "fitcheck {version}, library interface {interface}")?;
            Ok(DONE)
        }
        Ok(Command::Explain(asked)) => explain::run(&asked, out),
        Ok(Command::Hall(asked)) => hall::run(&asked, out),
        Ok(Command::Pack(asked)) => pack::run(&asked, out),
        Ok(Command::Profile(asked)) => profile::run(&asked, out),
        Ok(Command::Train(asked)) => train::run(&asked, out),
        Ok(Command::Trim(asked)) => trim::run(&asked, out),
        Ok(Command::Widen(asked)) => widen::run(&asked, out),
        Err(wrong) => {
            complain(&format!("{wrong}\n\n{}", args::USAGE));
            Ok(WRONG_USAGE)
        }
    }
}

fn main() -> ExitCode {
    let mut out = io::BufWriter::new(io::stdout().lock());
    let ended = run(&mut out);
    let flushed = out.flush();
    match (ended, flushed) {
        (Err(Trouble::Given(words)), _) => {
            complain(&words);
            ExitCode::from(FAILED)
        }
        (Ok(status), Ok(())) => ExitCode::from(status),
        // Whoever reads the output has had enough of it.
        (Ok(status), Err(error)) if error.kind() == ErrorKind::BrokenPipe => ExitCode::from(status),
        (Err(Trouble::Output(error)), _) if error.kind() == ErrorKind::BrokenPipe => {
            ExitCode::from(FAILED)
        }
        (Err(Trouble::Output(error)), _) | (_, Err(error)) => {
            complain(&format!("standard output: {error}"));
            ExitCode::from(FAILED)
        }
    }
}
