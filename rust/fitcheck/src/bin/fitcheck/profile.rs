//! `fitcheck profile`: a league's profile in words made into its image.

use std::io::Write;

use fitcheck::text;

use crate::args::Profile;
use crate::files::{self, about, shown};
use crate::{DONE, Trouble};

pub fn run(asked: &Profile, out: &mut impl Write) -> Result<u8, Trouble> {
    let names = files::names(asked.names.as_deref())?;
    let words = files::text(&asked.words)?;
    let profile = text::profile(&words, &names).map_err(|error| about(&asked.words, &error))?;
    let path = shown(asked.new.as_os_str());
    let image = profile.to_bytes();
    let names = asked.names.as_deref().and_then(files::metadata);
    files::write(&asked.new, &image, &[files::metadata(&asked.words), names])?;
    writeln!(out, "{path}: {} bytes", image.len())?;
    Ok(DONE)
}
