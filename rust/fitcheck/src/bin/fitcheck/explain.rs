//! `fitcheck explain`: one fit in sentences.

use std::io::Write;

use fitcheck::json::Json;
use fitcheck::{CausedReport, Explainer, LeaveOut, ListOptions, Report};

use crate::args::Explain;
use crate::files::{self, Source};
use crate::{DONE, FAULTED, Trouble, blamed, refused, warn};

pub fn run(asked: &Explain, out: &mut impl Write) -> Result<u8, Trouble> {
    if asked.why {
        return why(asked, out);
    }
    let names = files::names(asked.names.as_deref())?;
    let catalogue = files::catalogue(&asked.catalogue)?;
    let fit = files::fit(&asked.fit)?;

    let mut options = ListOptions::new(asked.reader).limits(asked.limits);
    let profile;
    if let Some((path, allowance)) = &asked.league {
        profile = files::profile(path)?;
        options = options.league(&profile, *allowance);
    }

    let report = match Report::new(&catalogue, &fit, &options) {
        Ok(report) => report,
        Err(refusal) => {
            let profile = asked.league.as_ref().map(|league| &league.0);
            let profile = profile.filter(|_| refusal.is_of_profile());
            let source = match profile {
                Some(path) => &Source::File(path.clone()),
                None => blamed(refusal, &asked.catalogue, &asked.fit),
            };
            return refused(out, source, refusal, asked.json);
        }
    };
    warn(&asked.catalogue, &catalogue);
    let explainer = Explainer::new(&fit, &names);
    let fix = fixed(asked, &catalogue, &fit)?;
    match asked.json {
        true => writeln!(
            out,
            "{}",
            with_fix(report.json(&explainer), &fix, &explainer)
        )?,
        false => out.write_all(report.text(&explainer).as_bytes())?,
    }
    say_fix(asked, &fix, &explainer, out)?;
    Ok(if report.is_faulted() { FAULTED } else { DONE })
}

/// The same with the items that make each entry.
fn why(asked: &Explain, out: &mut impl Write) -> Result<u8, Trouble> {
    let names = files::names(asked.names.as_deref())?;
    let catalogue = files::catalogue(&asked.catalogue)?;
    let fit = files::fit(&asked.fit)?;
    let caused = match CausedReport::new(&catalogue, &fit, asked.limits) {
        Ok(caused) => caused,
        Err(refusal) => {
            let source = blamed(refusal, &asked.catalogue, &asked.fit);
            return refused(out, source, refusal, asked.json);
        }
    };
    warn(&asked.catalogue, &catalogue);
    let explainer = Explainer::new(&fit, &names);
    let fix = fixed(asked, &catalogue, &fit)?;
    match asked.json {
        true => writeln!(
            out,
            "{}",
            with_fix(caused.json(&explainer), &fix, &explainer)
        )?,
        false => out.write_all(caused.text(&explainer).as_bytes())?,
    }
    say_fix(asked, &fix, &explainer, out)?;
    let is_faulted = caused.report().is_faulted();
    Ok(if is_faulted { FAULTED } else { DONE })
}

/// What to take off, where that is asked.
fn fixed<'a>(
    asked: &Explain,
    catalogue: &'a [u8],
    fit: &'a [u8],
) -> Result<Option<LeaveOut<'a>>, Trouble> {
    let Some(tries) = asked.fix else {
        return Ok(None);
    };
    // The list of the same images was answered.
    let fix = LeaveOut::within(catalogue, fit, tries);
    Ok(Some(fix.map_err(|refusal| refusal.to_string())?))
}

fn with_fix(report: Json, fix: &Option<LeaveOut<'_>>, explainer: &Explainer<'_>) -> Json {
    match (report, fix) {
        (Json::Object(mut fields), Some(fix)) => {
            fields.push(("fix", fix.json(explainer)));
            Json::Object(fields)
        }
        (report, _) => report,
    }
}

fn say_fix(
    asked: &Explain,
    fix: &Option<LeaveOut<'_>>,
    explainer: &Explainer<'_>,
    out: &mut impl Write,
) -> Result<(), Trouble> {
    match fix {
        Some(fix) if !asked.json => {
            writeln!(out, "fix of slots and limits: {}", fix.sentence(explainer))?
        }
        _ => {}
    }
    Ok(())
}
