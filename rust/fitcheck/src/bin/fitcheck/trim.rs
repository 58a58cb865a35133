//! `fitcheck trim`: the part of a catalogue that one fit touches, and what it saves.

use std::io::Write;

use fitcheck::TrimmedCatalogue;

use crate::args::Trim;
use crate::files::{self, shown};
use crate::{DONE, Trouble, blamed, refused};

pub fn run(asked: &Trim, out: &mut impl Write) -> Result<u8, Trouble> {
    let catalogue = files::catalogue(&asked.catalogue)?;
    let fit = files::fit(&asked.fit)?;
    let trimmed = match TrimmedCatalogue::new(&catalogue, &fit) {
        Ok(trimmed) => trimmed,
        Err(refusal) => {
            let source = blamed(refusal, &asked.catalogue, &asked.fit);
            return refused(out, source, refusal, asked.json);
        }
    };
    if let Some(new) = &asked.new {
        let read = [asked.catalogue.metadata(), asked.fit.metadata()];
        files::write(new, trimmed.bytes(), &read)?;
    }
    if asked.json {
        writeln!(out, "{}", trimmed.json())?;
        return Ok(DONE);
    }
    out.write_all(trimmed.text().as_bytes())?;
    if let Some(new) = &asked.new {
        let path = shown(new.as_os_str());
        writeln!(out, "{path}: {} bytes", trimmed.bytes().len())?;
    }
    Ok(DONE)
}
