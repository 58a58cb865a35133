//! Lays the published engine out in the build directory, beside the stand-ins
//! for the modules that are not published here.
//!
//! Every published file is copied as it is. Only `validate/skill.rs` is
//! reached through a wrapper, which includes the published file and then
//! `skill_door.rs`: `report` is private to that module, and a door to it has
//! to stand inside.

use std::path::{Path, PathBuf};
use std::{env, fs};

const COPIED: [&str; 10] = [
    "calculate/item.rs",
    "calculate/mod.rs",
    "calculate/output.rs",
    "fit.rs",
    "projection.rs",
    "validate/charge.rs",
    "validate/item.rs",
    "validate/mod.rs",
    "validate/resource.rs",
    "validate/slot.rs",
];

const STAND_INS: [(&str, &str); 7] = [
    ("modules.rs", "modules.rs"),
    ("attribute_ids.rs", "calculate/attribute_ids.rs"),
    ("outgoing.rs", "calculate/outgoing.rs"),
    ("pass_1.rs", "calculate/pass_1.rs"),
    ("pass_2.rs", "calculate/pass_2.rs"),
    ("pass_3.rs", "calculate/pass_3.rs"),
    ("pass_4.rs", "calculate/pass_4.rs"),
];

fn main() {
    let here = PathBuf::from(env::var("CARGO_MANIFEST_DIR").expect("cargo names the crate"));
    let out = PathBuf::from(env::var("OUT_DIR").expect("cargo names a build directory"));
    let published = here.join("src/crates/esf-dogma-engine/src");
    let ours = here.join("stand_ins");
    let engine = out.join("engine");

    for part in ["calculate", "validate"] {
        fs::create_dir_all(engine.join(part)).expect("the build directory can be written");
    }
    for file in COPIED {
        copy(&published.join(file), &engine.join(file));
    }
    for (from, to) in STAND_INS {
        copy(&ours.join(from), &engine.join(to));
    }

    let skill = published.join("validate/skill.rs");
    let door = ours.join("skill_door.rs");
    let wrapper = format!("include!({skill:?});\ninclude!({door:?});\n");
    fs::write(engine.join("validate/skill.rs"), wrapper).expect("the wrapper can be written");

    println!("cargo:rerun-if-changed=build.rs");
    println!("cargo:rerun-if-changed=src");
    println!("cargo:rerun-if-changed=stand_ins");
}

fn copy(from: &Path, to: &Path) {
    let bytes = fs::read(from).unwrap_or_else(|error| panic!("{}: {error}", from.display()));
    fs::write(to, bytes).unwrap_or_else(|error| panic!("{}: {error}", to.display()));
}
