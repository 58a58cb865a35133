//! `fitcheck widen`: an old catalogue made into one of today's form.

use std::io::Write;

use fitcheck::CATALOGUE_BYTES;

use crate::args::Widen;
use crate::files::{self, shown};
use crate::{DONE, Trouble, complain, refused};

pub fn run(asked: &Widen, out: &mut impl Write) -> Result<u8, Trouble> {
    let old = files::catalogue(&asked.old)?;
    let new = match fitcheck::widen(&old) {
        Ok(new) => new,
        Err(refusal) => return refused(out, &asked.old, refusal, false),
    };
    let path = shown(asked.new.as_os_str());
    files::write(&asked.new, &new, &[asked.old.metadata()])?;
    if new.len() > CATALOGUE_BYTES {
        complain(&format!(
            "{path}: warning: it is over {CATALOGUE_BYTES} bytes, and the other calls refuse it"
        ));
    }
    writeln!(out, "{path}: {} bytes", new.len())?;
    Ok(DONE)
}
