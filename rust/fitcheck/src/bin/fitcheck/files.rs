//! Images and names from files and from standard input.

use std::ffi::{OsStr, OsString};
use std::fmt;
use std::fs::{self, File, Metadata};
use std::io::{self, Read};
use std::os::fd::AsFd;
use std::os::unix::fs::MetadataExt;
use std::path::{Path, PathBuf};

use fitcheck::{CATALOGUE_BYTES, FIT_BYTES, Names, PROFILE_BYTES};

/// Where an image is read from.
#[derive(Debug, Clone, PartialEq)]
pub enum Source {
    File(PathBuf),
    StandardInput,
}

impl Source {
    /// What is behind it, where that can be told.
    pub fn metadata(&self) -> Option<Metadata> {
        match self {
            Source::File(path) => metadata(path),
            Source::StandardInput => {
                let input = io::stdin().as_fd().try_clone_to_owned().ok()?;
                File::from(input).metadata().ok()
            }
        }
    }
}

impl fmt::Display for Source {
    fn fmt(&self, formatter: &mut fmt::Formatter<'_>) -> fmt::Result {
        match self {
            Source::File(path) => formatter.write_str(&shown(path.as_os_str())),
            Source::StandardInput => formatter.write_str("standard input"),
        }
    }
}

/// A catalogue's bytes. Of one that is too long, as many as show it.
pub fn catalogue(source: &Source) -> Result<Vec<u8>, String> {
    at_most(source, CATALOGUE_BYTES).map_err(|error| format!("{source}: {error}"))
}

/// A fit's bytes. Of one that is too long, as many as show it.
pub fn fit(source: &Source) -> Result<Vec<u8>, String> {
    at_most(source, FIT_BYTES).map_err(|error| format!("{source}: {error}"))
}

/// A league profile's bytes. An empty file is no profile: the call would list
/// as if no league had been asked for.
pub fn profile(path: &Path) -> Result<Vec<u8>, String> {
    let source = Source::File(path.to_path_buf());
    let bytes = at_most(&source, PROFILE_BYTES).map_err(|error| format!("{source}: {error}"))?;
    match bytes.is_empty() {
        true => Err(format!("{source}: it is empty, and so no profile")),
        false => Ok(bytes),
    }
}

/// The same of a file in a folder, whose name is said elsewhere.
pub fn image(path: &Path) -> Result<Vec<u8>, String> {
    let source = Source::File(path.to_path_buf());
    at_most(&source, FIT_BYTES).map_err(|error| error.to_string())
}

/// What is there, or one byte more than the longest image: that is refused for
/// its length whatever would follow.
fn at_most(source: &Source, longest: usize) -> io::Result<Vec<u8>> {
    let mut bytes = Vec::new();
    let most = longest as u64 + 1;
    match source {
        Source::File(path) => File::open(path)?.take(most).read_to_end(&mut bytes)?,
        Source::StandardInput => io::stdin().lock().take(most).read_to_end(&mut bytes)?,
    };
    Ok(bytes)
}

/// The names of a file; none without one.
pub fn names(path: Option<&Path>) -> Result<Names, String> {
    let Some(path) = path else {
        return Ok(Names::default());
    };
    Names::parse(&text(path)?).map_err(|error| about(path, &error))
}

/// The text of a file.
pub fn text(path: &Path) -> Result<String, String> {
    fs::read_to_string(path).map_err(|error| about(path, &error))
}

/// A folder's fits by the names of their files, in the order of the names.
/// Folders and names that begin with a dot are passed over; what a file that
/// cannot be looked at is, its reading will say.
pub fn fits(folder: &Path) -> Result<Vec<(OsString, PathBuf)>, String> {
    let mut files = Vec::new();
    for entry in fs::read_dir(folder).map_err(|error| about(folder, &error))? {
        let entry = entry.map_err(|error| about(folder, &error))?;
        let name = entry.file_name();
        let path = entry.path();
        let is_other = fs::metadata(&path).is_ok_and(|kind| !kind.is_file());
        if !name.as_encoded_bytes().starts_with(b".") && !is_other {
            files.push((name, path));
        }
    }
    files.sort();
    Ok(files)
}

/// What is behind a path, where that can be told.
pub fn metadata(path: &Path) -> Option<Metadata> {
    fs::metadata(path).ok()
}

/// Writes a file that is none of those that are read, by whatever path or link: what
/// is asked about stays as it is.
pub fn write(new: &Path, bytes: &[u8], read: &[Option<Metadata>]) -> Result<(), String> {
    let there = fs::metadata(new).ok().map(|new| (new.dev(), new.ino()));
    let is_new = |read: &Metadata| there == Some((read.dev(), read.ino()));
    if read.iter().flatten().any(is_new) {
        let path = shown(new.as_os_str());
        return Err(format!("{path}: it is read, so it is not written"));
    }
    fs::write(new, bytes).map_err(|error| about(new, &error))
}

/// What is wrong with a file.
pub fn about(path: &Path, error: &dyn std::error::Error) -> String {
    format!("{}: {error}", shown(path.as_os_str()))
}

/// A name on one line, whatever it holds.
pub fn shown(name: &OsStr) -> String {
    let mut text = String::new();
    for character in name.to_string_lossy().chars() {
        if character.is_control() {
            text.extend(character.escape_default());
        } else {
            text.push(character);
        }
    }
    text
}

#[cfg(test)]
mod tests {
    use super::*;

    #[test]
    fn a_name_stays_on_its_line() {
        assert_eq!(shown(OsStr::new("a b.fit")), "a b.fit");
        assert_eq!(shown(OsStr::new("a\nb\u{1B}")), "a\\nb\\u{1b}");
    }
}
