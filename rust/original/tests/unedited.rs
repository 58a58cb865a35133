//! The published files are as published, and they are what is compiled.

mod sha256;

use std::path::{Path, PathBuf};
use std::{env, fs};

/// SHA-256 of each file of the repository's `docs/src` as it was handed over.
const PUBLISHED: [(&str, &str); 14] = [
    (
        "INDEX.md",
        "0eb27aa6ce6152d994408b5b7560219a983fa0c758220789e8afadd278e5e6fb",
    ),
    (
        "LICENSE",
        "6ec726b4a0c6b120e9f5ffe12554247d30aac65beceee9c3f7f9d1e60a0290c6",
    ),
    (
        "crates/esf-data/src/info.rs",
        "7c581553d41ce15daee1120be502e0107833a3ad61f97161442eff514ff0e376",
    ),
    (
        "crates/esf-dogma-engine/src/calculate/item.rs",
        "0f410303d0896b57ed185c3d0be3106e6ae8995c0319f93c104028dd2be94169",
    ),
    (
        "crates/esf-dogma-engine/src/calculate/mod.rs",
        "c5660ccb97bb23158f35610cf5185c1fdbb99bc2fc273bb20b325d6b0ff978ce",
    ),
    (
        "crates/esf-dogma-engine/src/calculate/output.rs",
        "b1cd6679778f6b388352098e18ceaf4dffa1303f851224ad07060f8e067457b6",
    ),
    (
        "crates/esf-dogma-engine/src/fit.rs",
        "6c05d3001047742ffae4acb185be6d343faea224eeac0a66764db5239933c28f",
    ),
    (
        "crates/esf-dogma-engine/src/projection.rs",
        "5932a27dd0e5c2d733eaba83a98616ce79173f3569020db822753a2ddcfca5bc",
    ),
    (
        "crates/esf-dogma-engine/src/validate/charge.rs",
        "58693784e5950adb583fee8e3370097cbf00d83377b8b1da3576aeeb16996ad9",
    ),
    (
        "crates/esf-dogma-engine/src/validate/item.rs",
        "29a7226a2d38211c2ec21cc8a0bda3b4517c62a8e2e4787982e41fc88fc2733a",
    ),
    (
        "crates/esf-dogma-engine/src/validate/mod.rs",
        "630dde9cb995f84794523bbabc80ff46895fc6291530479c7a729aad84a90f32",
    ),
    (
        "crates/esf-dogma-engine/src/validate/resource.rs",
        "c69d7d71e646ea4e4d35b81e9d9a1e61ecedada22fb8da8d1e5140b9a9f2de17",
    ),
    (
        "crates/esf-dogma-engine/src/validate/skill.rs",
        "54a949a071d11b54447c0e6f2c8fe4f885dd7e1bbfb7e47cbccebc67053b172c",
    ),
    (
        "crates/esf-dogma-engine/src/validate/slot.rs",
        "26d02099bad1e71b840e94b48d973514b34f5094bde8258800646b84c9073d07",
    ),
];

fn published() -> PathBuf {
    Path::new(env!("CARGO_MANIFEST_DIR")).join("src")
}

fn files_under(root: &Path) -> Vec<String> {
    let mut found = Vec::new();
    let mut open = vec![root.to_path_buf()];
    while let Some(directory) = open.pop() {
        for entry in fs::read_dir(&directory).unwrap() {
            let path = entry.unwrap().path();
            if path.is_dir() {
                open.push(path);
            } else {
                let name = path.strip_prefix(root).unwrap();
                found.push(name.to_string_lossy().replace('\\', "/"));
            }
        }
    }
    found.sort();
    found
}

#[test]
fn the_digest_is_sha_256() {
    // The two short examples of FIPS 180-4's own test file, and no bytes.
    assert_eq!(
        sha256::digest(b"abc"),
        "ba7816bf8f01cfea414140de5dae2223b00361a396177a9cb410ff61f20015ad"
    );
    assert_eq!(
        sha256::digest(b"abcdbcdecdefdefgefghfghighijhijkijkljklmklmnlmnomnopnopq"),
        "248d6a61d20638b8e5c026930c3e6039a33ce45964ff2167f6ecedd419db06c1"
    );
    assert_eq!(
        sha256::digest(b""),
        "e3b0c44298fc1c149afbf4c8996fb92427ae41e4649b934ca495991b7852b855"
    );
}

#[test]
fn every_published_file_is_unedited() {
    for (name, expected) in PUBLISHED {
        let bytes = fs::read(published().join(name)).unwrap();
        assert_eq!(sha256::digest(&bytes), expected, "{name} was edited");
    }
}

#[test]
fn nothing_else_stands_among_the_published_files() {
    let names: Vec<&str> = PUBLISHED.iter().map(|(name, _)| *name).collect();
    assert_eq!(files_under(&published()), names);
}

#[test]
fn what_is_compiled_is_what_is_published() {
    let engine = Path::new(env!("OUT_DIR")).join("engine");
    let root = "crates/esf-dogma-engine/src/";
    for (name, _) in PUBLISHED {
        let Some(file) = name.strip_prefix(root) else {
            continue;
        };
        let compiled = fs::read(engine.join(file)).unwrap();
        if file == "validate/skill.rs" {
            let text = String::from_utf8(compiled).unwrap();
            let lines: Vec<&str> = text.lines().collect();
            assert_eq!(lines.len(), 2, "the wrapper is two includes");
            let path = published().join(name);
            assert_eq!(lines[0], format!("include!({path:?});"));
        } else {
            assert_eq!(
                compiled,
                fs::read(published().join(name)).unwrap(),
                "{name}"
            );
        }
    }
}
