//! Writes names.txt, types.bin and fit.bin of each sample, and the catalogue's
//! old form, from the descriptions, and prints the original's list of each, as
//! document 01's program does and in words. The file `expected` is never
//! written: it was worked out from document 01.
//!
//! With a folder named, it writes nothing and prints the original's list of the
//! types.bin and fit.bin there: `./check DIR`, answered by the original.

use std::path::Path;
use std::process::ExitCode;
use std::{env, fs};

use compare::checker::{Checker, Terms};
use compare::reference::Original;
use compare::words;
use samples::{Images, LENT, OLD, SAMPLES, folder, images, old_form, printed, types};

fn main() -> ExitCode {
    let folders: Vec<String> = env::args().skip(1).collect();
    let done = match &folders[..] {
        [] => names_written()
            .and_then(|()| old_written())
            .and_then(|()| SAMPLES.into_iter().try_for_each(written)),
        [one] => stored(Path::new(one)).map(|images| print!("{}", printed(&Original, &images))),
        _ => Err("usage: samples [DIR]".to_string()),
    };
    match done {
        Ok(()) => ExitCode::SUCCESS,
        Err(message) => {
            eprintln!("samples: {message}");
            ExitCode::FAILURE
        }
    }
}

fn stored(folder: &Path) -> Result<Images, String> {
    let read = |file: &str| {
        let path = folder.join(file);
        fs::read(&path).map_err(|error| format!("{}: {error}", path.display()))
    };
    Ok(Images {
        types: read("types.bin")?,
        fit: read("fit.bin")?,
    })
}

fn names_written() -> Result<(), String> {
    let path = folder().join("names.txt");
    fs::write(&path, types()?.names().to_string())
        .map_err(|error| format!("{}: {error}", path.display()))
}

fn old_written() -> Result<(), String> {
    let new = types()?.catalogue().build();
    let old = old_form(&new.map_err(|wrong| wrong.to_string())?)?;
    let path = folder().join(OLD).join("types.bin");
    fs::write(&path, old).map_err(|error| format!("{}: {error}", path.display()))
}

fn written(sample: &str) -> Result<(), String> {
    let made = images(sample)?;
    for (file, bytes) in [("types.bin", &made.types), ("fit.bin", &made.fit)] {
        let path = folder().join(sample).join(file);
        fs::write(&path, bytes).map_err(|error| format!("{}: {error}", path.display()))?;
    }
    println!("{sample}:");
    print!("{}", printed(&Original, &made));
    let mut out = vec![0; LENT];
    let word = Original.list(&made.types, &made.fit, Terms::default(), &mut out);
    if word >> 32 == 0 {
        for entry in words::entries(&out[..24 * word as usize]) {
            println!("  {entry}");
        }
    }
    Ok(())
}
