//! The samples at the repository's root: a catalogue and fits described in
//! text, which become the images that `./check` reads. The text is read by
//! `fitcheck::text`; what the images have to be is held against the original.

use std::fs;
use std::path::{Path, PathBuf};

use compare::checker::{Checker, ENTRY, Terms};
use fitcheck::text::Types;

/// The samples, each a folder.
pub const SAMPLES: [&str; 4] = ["clear", "faulted", "hangar", "refused"];

/// The sample whose fit lacks its last byte: no words make an image that is
/// refused.
const CUT: &str = "refused";

/// The buffer that the program `check` lends.
pub const LENT: usize = 65_520;

/// Both images of one sample.
#[derive(Clone, Debug, PartialEq)]
pub struct Images {
    pub types: Vec<u8>,
    pub fit: Vec<u8>,
}

/// Where the samples stand.
pub fn folder() -> PathBuf {
    Path::new(env!("CARGO_MANIFEST_DIR")).join("../../samples")
}

/// The text of a file of the samples.
pub fn text(file: &str) -> Result<String, String> {
    let path = folder().join(file);
    fs::read_to_string(&path).map_err(|error| format!("{}: {error}", path.display()))
}

/// The catalogue that all samples share.
pub fn types() -> Result<Types, String> {
    Types::parse(&text("types.txt")?).map_err(|wrong| format!("types.txt, {wrong}"))
}

/// The images that the descriptions of a sample make.
pub fn images(sample: &str) -> Result<Images, String> {
    let types = types()?;
    let file = format!("{sample}/fit.txt");
    let fit = types
        .fit(&text(&file)?)
        .map_err(|wrong| format!("{file}, {wrong}"))?;
    let built = |wrong| format!("{sample}: {wrong}");
    let mut fit = fit.build().map_err(built)?;
    if sample == CUT {
        fit.pop();
    }
    let types = types.catalogue().build().map_err(built)?;
    Ok(Images { types, fit })
}

/// The folder of the catalogue in the form before base values were f64.
pub const OLD: &str = "old";

/// The old form of a catalogue whose base values are all f32.
pub fn old_form(new: &[u8]) -> Result<Vec<u8>, String> {
    let size = new.get(16..20).and_then(|bytes| bytes.try_into().ok());
    let bases = u32::from_le_bytes(size.ok_or("no sizes")?) as usize;
    let front = new.len().checked_sub(12 * bases);
    let (front, values) = new.split_at(front.ok_or("too short for its bases")?);
    let mut old = front.to_vec();
    for value in values.chunks_exact(12) {
        let (attribute, value) = value.split_at(4);
        let value = f64::from_le_bytes(value.try_into().expect("eight bytes"));
        let single = value as f32;
        if f64::from(single).to_bits() != value.to_bits() {
            return Err(format!("the base value {value} is no f32"));
        }
        old.extend(attribute);
        old.extend(single.to_le_bytes());
    }
    Ok(old)
}

/// What document 01's program prints of a checker's list call.
pub fn printed(checker: &dyn Checker, images: &Images) -> String {
    let mut out = vec![0; LENT];
    let word = checker.list(&images.types, &images.fit, Terms::default(), &mut out);
    if word >> 32 != 0 {
        return format!("refused {}\n", word >> 32);
    }
    let mut text = String::new();
    for entry in out.chunks_exact(ENTRY).take(word as usize) {
        let number = |at: usize| {
            let bytes = entry[at..at + 4].try_into().expect("four bytes");
            u32::from_le_bytes(bytes)
        };
        let (target, rule, sub) = (entry[0], entry[1], entry[2]);
        text += &format!("{target} {} {rule} {sub}", number(4));
        for at in [8, 12, 16, 20] {
            text += &format!(" {}", number(at));
        }
        text += "\n";
    }
    text + &format!("count {word}\n")
}
