//! `fitcheck train`: what training for one result comes to, and the fit that it
//! leads to.

use std::io::Write;

use fitcheck::{Attribute, CatalogueImage, Explainer, TrainingPlan};

use crate::args::Train;
use crate::files::{self, Source, shown};
use crate::{DONE, Trouble, blamed, complain, refused};

pub fn run(asked: &Train, out: &mut impl Write) -> Result<u8, Trouble> {
    let names = files::names(asked.names.as_deref())?;
    let catalogue = files::catalogue(&asked.catalogue)?;
    let fit = files::fit(&asked.fit)?;

    let planned = TrainingPlan::new(&catalogue, &fit, asked.result);
    let trained = planned.and_then(|plan| plan.train(asked.steps.unwrap_or(u32::MAX)));
    let trained = match trained {
        Ok(trained) => trained,
        Err(refusal) => {
            let source = blamed(refusal, &asked.catalogue, &asked.fit);
            return refused(out, source, refusal, asked.json);
        }
    };
    warn(&asked.catalogue, &catalogue);
    if let Some(new) = &asked.new {
        // The fit itself is among those that are read: a plan that is tried leaves it
        // as it is.
        let names = asked.names.as_deref().and_then(files::metadata);
        let read = [asked.catalogue.metadata(), asked.fit.metadata(), names];
        files::write(new, trained.fit(), &read)?;
    }

    let explainer = Explainer::new(&fit, &names);
    if asked.json {
        writeln!(out, "{}", trained.json(&explainer))?;
        return Ok(DONE);
    }
    out.write_all(trained.text(&explainer).as_bytes())?;
    if let Some(new) = &asked.new {
        let path = shown(new.as_os_str());
        writeln!(out, "{path}: {} bytes", trained.fit().len())?;
    }
    Ok(DONE)
}

/// Warns of skills that a catalogue leaves out; what else it lacks is nothing to a
/// plan.
fn warn(source: &Source, catalogue: &[u8]) {
    let Some(catalogue) = CatalogueImage::new(catalogue) else {
        return;
    };
    let mut missing = catalogue.missing();
    missing.marks.clear();
    let is_of_skills = |name: &Attribute| name.name().starts_with("requiredSkill");
    missing.names.retain(is_of_skills);
    if !missing.is_empty() {
        complain(&format!("{source}: warning: {missing}"));
    }
}
