//! `fitcheck pack`: a fit in words made into the two images.

use std::fs;
use std::io::Write;
use std::path::{Path, PathBuf};

use fitcheck::text::Types;

use crate::args::Pack;
use crate::files::{self, about, shown};
use crate::{DONE, Trouble};

pub fn run(asked: &Pack, out: &mut impl Write) -> Result<u8, Trouble> {
    let words = files::text(&asked.fit)?;
    let beside = asked.fit.parent().unwrap_or(Path::new(""));
    let types_path = match &asked.types {
        Some(path) => path.clone(),
        None => found(beside)?,
    };
    let types =
        Types::parse(&files::text(&types_path)?).map_err(|error| about(&types_path, &error))?;
    let fit = types
        .fit(&words)
        .map_err(|error| about(&asked.fit, &error))?;
    let catalogue = types
        .catalogue()
        .build()
        .map_err(|error| about(&types_path, &error))?;
    let fit = fit.build().map_err(|error| about(&asked.fit, &error))?;

    let folder = asked.out.as_deref().unwrap_or(beside);
    let names = types.names().to_string();
    let image = Path::new(asked.fit.file_name().unwrap_or_default()).with_extension("bin");
    for (file, bytes) in [
        (Path::new("types.bin"), catalogue.as_slice()),
        (&image, &fit),
        (Path::new("names.txt"), names.as_bytes()),
    ] {
        let path = folder.join(file);
        if path == asked.fit || path == types_path {
            return Err(Trouble::Given(format!(
                "{}: it is read, so it is not written",
                shown(path.as_os_str())
            )));
        }
        fs::write(&path, bytes).map_err(|error| about(&path, &error))?;
        let path = shown(path.as_os_str());
        writeln!(out, "{path}: {} bytes", bytes.len())?;
    }
    Ok(DONE)
}

/// The catalogue's words: `types.txt` beside the fit, or one folder above it.
fn found(beside: &Path) -> Result<PathBuf, String> {
    let places = [beside.join("types.txt"), beside.join("../types.txt")];
    let there = places.iter().find(|path| path.is_file());
    there.cloned().ok_or_else(|| {
        format!(
            "there is neither {} nor {}; --types names the catalogue in words",
            shown(places[0].as_os_str()),
            shown(places[1].as_os_str())
        )
    })
}
