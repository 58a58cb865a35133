//! `fitcheck hall`: a folder of fits, and how many are clear to fly.

use std::ffi::{OsStr, OsString};
use std::io::Write;
use std::path::PathBuf;

use fitcheck::json::{self, Json};
use fitcheck::{CatalogueImage, FITS_PER_CALL, Hall, Verdict};

use crate::args;
use crate::files::{self, shown};
use crate::{DONE, FAILED, Trouble, refused, warn};

/// What became of the files so far.
#[derive(Default)]
struct Sum {
    hall: Hall,
    unread: usize,
    /// How many were said.
    said: usize,
}

pub fn run(asked: &args::Hall, out: &mut impl Write) -> Result<u8, Trouble> {
    let catalogue = files::catalogue(&asked.catalogue)?;
    let fits = files::fits(&asked.folder)?;
    if let Err(refusal) = fitcheck::hall(&catalogue, &[]) {
        return refused(out, &asked.catalogue, refusal, asked.json);
    }
    warn(&asked.catalogue, &catalogue);

    let mut sum = Sum::default();
    if asked.json {
        begin(&catalogue, out)?;
    }
    // No more fits are held at a time than one call takes.
    for batch in fits.chunks(FITS_PER_CALL) {
        counted(&catalogue, batch, asked.json, &mut sum, out)?;
    }
    match asked.json {
        true => end(&sum, out)?,
        false => writeln!(out, "{}", in_words(&sum))?,
    }
    Ok(if sum.unread == 0 { DONE } else { FAILED })
}

/// The object up to its first fit.
fn begin(catalogue: &[u8], out: &mut impl Write) -> Result<(), Trouble> {
    let missing = CatalogueImage::new(catalogue).map(|catalogue| catalogue.missing());
    let unchecked = missing.unwrap_or_default().unchecked();
    let mut fields = json::versioned("counted");
    fields.push(("unchecked", json::unchecked(&unchecked)));
    let object = Json::Object(fields).to_string();
    let open = object.strip_suffix('}').unwrap_or(&object);
    write!(out, "{open},\"fits\":[")?;
    Ok(())
}

/// The object from its last fit on.
fn end(sum: &Sum, out: &mut impl Write) -> Result<(), Trouble> {
    let numbers = Json::Object(vec![
        ("clear", Json::count(sum.hall.clear)),
        ("faulted", Json::count(sum.hall.faulted)),
        ("refused", Json::count(sum.hall.refused)),
        ("unread", Json::count(sum.unread)),
    ]);
    let object = numbers.to_string();
    let close = object.strip_prefix('{').unwrap_or(&object);
    writeln!(out, "],{close}")?;
    Ok(())
}

/// Reads some fits, says what became of each, and adds them up.
fn counted(
    catalogue: &[u8],
    batch: &[(OsString, PathBuf)],
    json: bool,
    sum: &mut Sum,
    out: &mut impl Write,
) -> Result<(), Trouble> {
    let read: Vec<Result<Vec<u8>, String>> = batch.iter().map(|fit| files::image(&fit.1)).collect();
    let images: Vec<&[u8]> = read.iter().flatten().map(Vec::as_slice).collect();
    let refused = |refusal| format!("the catalogue, taken before, is refused: {refusal}");
    let numbers = fitcheck::hall(catalogue, &images).map_err(refused)?;
    let verdicts = fitcheck::verdicts(catalogue, &images).map_err(refused)?;
    // The numbers are the hall call's own, the lines are the list call's and
    // the image's two sizes. The calls are proved; whoever reads them side by
    // side gets no two stories.
    if added(&verdicts) != numbers {
        return Err(Trouble::Given(format!(
            "the hall call gives {numbers:?}, the lists {:?}: the library is not the proved one",
            added(&verdicts)
        )));
    }

    let mut verdicts = verdicts.iter();
    for ((name, _), image) in batch.iter().zip(&read) {
        let verdict = match image {
            Ok(_) => Ok(verdicts.next().expect("each image has a verdict")),
            Err(reason) => Err(reason.as_str()),
        };
        sum.unread += usize::from(verdict.is_err());
        match json {
            true if sum.said == 0 => write!(out, "{}", fit_json(name, verdict))?,
            true => write!(out, ",{}", fit_json(name, verdict))?,
            false => writeln!(out, "{}: {}", shown(name), fit_words(verdict))?,
        }
        sum.said += 1;
    }
    sum.hall += numbers;
    Ok(())
}

fn added(verdicts: &[Verdict]) -> Hall {
    let mut numbers = Hall::default();
    for verdict in verdicts {
        match verdict {
            Verdict::Clear => numbers.clear += 1,
            Verdict::Faulted { .. } => numbers.faulted += 1,
            _ => numbers.refused += 1,
        }
    }
    numbers
}

/// One fit in words: what became of it, or why it was not read.
fn fit_words(verdict: Result<&Verdict, &str>) -> String {
    match verdict {
        Ok(verdict) => verdict.to_string(),
        Err(reason) => format!("cannot be read: {reason}"),
    }
}

/// The same in JSON.
fn fit_json(name: &OsStr, verdict: Result<&Verdict, &str>) -> Json {
    let file = name.to_string_lossy();
    match verdict {
        Ok(verdict) => json::verdict(&file, verdict),
        Err(reason) => Json::Object(vec![
            ("file", Json::text(file)),
            ("status", Json::text("unread")),
            ("reason", Json::text(reason)),
        ]),
    }
}

fn in_words(sum: &Sum) -> String {
    let Hall {
        clear,
        faulted,
        refused,
    } = sum.hall;
    let numbers = format!("{clear} clear, {faulted} faulted, {refused} refused");
    match sum.unread {
        0 => numbers,
        unread => format!("{numbers}, {unread} not read"),
    }
}
