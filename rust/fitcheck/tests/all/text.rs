//! Catalogues and fits in words, and `fitcheck pack`, which makes images of
//! them.

use std::fs;
use std::path::Path;
use std::process::Command;

use fitcheck::text::Types;
use fitcheck::{Attribute, CatalogueBuilder, FitBuilder, FitItem, ItemResult, Mark, Slot, State};

use crate::folder;

const TYPES: &str = "\
# comment
name cpuOutput 48
name cpuLoad 49    # behind
effect 12 hiPower
effect 42 turretFitted
group 2 Guns and More

type 9 group 2 category 7 volume - A Gun
  is hiPower turretFitted
  cpuLoad 2.5
\tcpuLoad 1.5
type 5 group 1 category 6 volume 1.5 Hull
";

const FIT: &str = "\
ship Hull
  cpuLoad 2
  cpuOutput -1.5e3
character
  cpuOutput 0.1
mode A Gun
skill A Gun 5
skill Hull 0

High 3: A Gun, Active
  cpuLoad 7
Booster 65535: A Gun, Overload
FighterTube 255: A Gun, Online
Cargo: 20 x A Gun, Offline
DroneBay: 4294967295 x Hull, Active
";

#[test]
fn a_catalogue_and_a_fit_are_what_their_lines_say() {
    let types = Types::parse(TYPES).unwrap();
    let catalogue = CatalogueBuilder::new()
        .name(Attribute::CpuLoad, 49)
        .name(Attribute::CpuOutput, 48)
        .effect(12, Mark::HiPower)
        .effect(42, Mark::TurretFitted)
        .type_info(5, 1, 6, Some(1.5))
        .type_info(9, 2, 7, None)
        .link(9, 12)
        .link(9, 42)
        .base(9, 49, 2.5)
        .base(9, 49, 1.5)
        .build();
    assert_eq!(types.catalogue().build(), catalogue);
    assert_eq!(
        types.names().to_string(),
        "5 Hull\n9 A Gun\ngroup 2 Guns and More\n"
    );

    let result = ItemResult::new;
    let fit = FitBuilder::new(5)
        .ship(ItemResult::default().with(49, 2.0).with(48, -1500.0))
        .character(ItemResult::default().with(48, 0.1))
        .mode(9)
        .skill(9, 5)
        .skill(5, 0)
        .item(
            FitItem::new(9, Slot::High(3)),
            result(State::Active).with(49, 7.0),
        )
        .item(
            FitItem::new(9, Slot::Booster(65_535)),
            result(State::Overload),
        )
        .item(
            FitItem::new(9, Slot::FighterTube(255)),
            result(State::Online),
        )
        .item(
            FitItem::new(9, Slot::Cargo).quantity(20),
            result(State::Offline),
        )
        .item(
            FitItem::new(5, Slot::DroneBay).quantity(u32::MAX),
            result(State::Active),
        )
        .build();
    assert_eq!(types.fit(FIT).unwrap().build(), fit);
    let dos = FIT.replace('\n', "\r\n");
    assert_eq!(types.fit(&dos).unwrap().build(), fit);
}

#[test]
fn a_wrong_line_of_a_catalogue_is_named() {
    for (text, wrong) in [
        (
            "\nname cpu 4",
            "line 2: no rule asks for a name `cpu`: name cpu 4",
        ),
        (
            "name cpuLoad x",
            "line 1: `x` is not a number that can stand here: name cpuLoad x",
        ),
        (
            "name cpuLoad 1\nname cpuLoad 2",
            "line 2: `cpuLoad` has an id already: name cpuLoad 2",
        ),
        ("  cpuLoad 1", "line 1: no type stands above: cpuLoad 1"),
        (
            "effect 1 hiPowr",
            "line 1: no effect of slots is called `hiPowr`: effect 1 hiPowr",
        ),
        (
            "effect 1 other",
            "line 1: no effect of slots is called `other`: effect 1 other",
        ),
        (
            "type 1 group 1 category 6 volume - A\n  is hiPower",
            "line 2: no effect is `hiPower`: is hiPower",
        ),
        (
            "type 1 group 1 category 6 volume - A\n  cpuLoad 1",
            "line 2: `cpuLoad` has no id in the catalogue: cpuLoad 1",
        ),
        (
            "type 1 group 1 category 6 volume - A\ntype 2 group 1 category 6 volume - A",
            "line 2: another type is called so: type 2 group 1 category 6 volume - A",
        ),
    ] {
        assert_eq!(Types::parse(text).unwrap_err().to_string(), wrong);
    }
    let wrong = Types::parse("type 1").unwrap_err().to_string();
    let shape = "not `type ID group ID category ID volume M3 NAME`";
    assert_eq!(wrong, format!("line 1: {shape}: type 1"));
    let wrong = Types::parse("Rifter").unwrap_err().to_string();
    assert!(
        wrong.starts_with("line 1: not `name NAME ID`, `effect ID MARK`, "),
        "{wrong}"
    );
}

#[test]
fn a_wrong_line_of_a_fit_is_named() {
    let types = Types::parse(TYPES).unwrap();
    let shape = "not `SLOT [INDEX]: [QUANTITY x] NAME, STATE`";
    for (text, wrong) in [
        (
            "ship Merlin",
            "line 1: no type is called `Merlin`: ship Merlin",
        ),
        ("  cpuLoad 1", "line 1: nothing above has values: cpuLoad 1"),
        (
            "mode Hull\n  cpuLoad 1",
            "line 2: nothing above has values: cpuLoad 1",
        ),
        ("ship Hull\nship Hull", "line 2: a second ship: ship Hull"),
        ("mode Hull\nmode Hull", "line 2: a second mode: mode Hull"),
        (
            "skill Hull 1\nskill Hull 2",
            "line 2: the skill has a level already: skill Hull 2",
        ),
        (
            "skill Hull 256",
            "line 1: `256` is not a number that can stand here: skill Hull 256",
        ),
        ("High 0: Hull", &format!("line 1: {shape}: High 0: Hull")),
        (
            "Hold 0: Hull, Active",
            "line 1: there is no slot `Hold`: Hold 0: Hull, Active",
        ),
        (
            "High 0: Hull, Aktive",
            "line 1: there is no state `Aktive`: High 0: Hull, Aktive",
        ),
        (
            "High 256: Hull, Active",
            "line 1: slot index 256: the highest of a high slot is 255: High 256: Hull, Active",
        ),
        (
            "ship Hull\n  cpuLoad 1\n  cpuLoad 1",
            "line 3: `cpuLoad`, attribute 49, has a value already: cpuLoad 1",
        ),
        (
            "ship Hull\n  powerLoad 1",
            "line 2: `powerLoad` has no id in the catalogue: powerLoad 1",
        ),
        (
            "skill Hull 1\n# end",
            "line 2: no line `ship NAME` up to here",
        ),
        ("", "line 1: no line `ship NAME` up to here"),
    ] {
        assert_eq!(types.fit(text).unwrap_err().to_string(), wrong);
    }
}

fn pack(words: &[&str], at: &Path) -> (i32, String, String) {
    let ran = Command::new(env!("CARGO_BIN_EXE_fitcheck"))
        .arg("pack")
        .args(words)
        .current_dir(at)
        .output()
        .unwrap();
    (
        ran.status.code().unwrap(),
        String::from_utf8(ran.stdout).unwrap(),
        String::from_utf8(ran.stderr).unwrap(),
    )
}

#[test]
fn pack_makes_both_images_and_the_names() {
    let at = folder("pack");
    fs::create_dir_all(at.join("rifter")).unwrap();
    fs::create_dir_all(at.join("out")).unwrap();
    fs::write(at.join("types.txt"), TYPES).unwrap();
    fs::write(at.join("rifter/fit.txt"), FIT).unwrap();
    let types = Types::parse(TYPES).unwrap();
    let catalogue = types.catalogue().build().unwrap();
    let fit = types.fit(FIT).unwrap().build().unwrap();

    // The catalogue's words stand one folder above, as those of samples/ do.
    let (status, out, err) = pack(&["rifter/fit.txt"], &at);
    assert_eq!((status, err.as_str()), (0, ""));
    assert_eq!(
        out,
        format!(
            "rifter/types.bin: {} bytes\nrifter/fit.bin: {} bytes\nrifter/names.txt: {} bytes\n",
            catalogue.len(),
            fit.len(),
            types.names().to_string().len()
        )
    );
    assert_eq!(fs::read(at.join("rifter/types.bin")).unwrap(), catalogue);
    assert_eq!(fs::read(at.join("rifter/fit.bin")).unwrap(), fit);
    let names = fs::read_to_string(at.join("rifter/names.txt")).unwrap();
    assert_eq!(names, types.names().to_string());

    fs::rename(at.join("types.txt"), at.join("words.txt")).unwrap();
    let (status, _, err) = pack(&["rifter/fit.txt"], &at);
    assert_eq!(
        (status, err.as_str()),
        (
            1,
            "fitcheck: there is neither rifter/types.txt nor rifter/../types.txt; --types names \
             the catalogue in words\n"
        )
    );
    let (status, _, err) = pack(
        &["rifter/fit.txt", "--types", "words.txt", "--out", "out"],
        &at,
    );
    assert_eq!((status, err.as_str()), (0, ""));
    assert_eq!(fs::read(at.join("out/fit.bin")).unwrap(), fit);
}

/// A base value that no f32 has is packed to its last bit.
#[test]
fn pack_keeps_fine_values() {
    let at = folder("pack-fine");
    fs::write(
        at.join("types.txt"),
        "name cpuLoad 1\ntype 5 group 1 category 6 volume - Hull\n  cpuLoad 0.1\n",
    )
    .unwrap();
    fs::write(at.join("fit.txt"), "ship Hull\n").unwrap();
    let (status, _, err) = pack(&["fit.txt"], &at);
    assert_eq!((status, err.as_str()), (0, ""));
    let image = fs::read(at.join("types.bin")).unwrap();
    assert!(image.ends_with(&0.1f64.to_le_bytes()));
}

#[test]
fn pack_says_what_is_wrong_and_where() {
    let at = folder("pack-wrong");
    fs::write(at.join("types.txt"), TYPES).unwrap();
    fs::write(at.join("wrong.txt"), "ship Hull\nHigh 0: No Gun, Active\n").unwrap();
    let (status, out, err) = pack(&["wrong.txt"], &at);
    assert_eq!((status, out.as_str()), (1, ""));
    assert_eq!(
        err,
        "fitcheck: wrong.txt: line 2: no type is called `No Gun`: High 0: No Gun, Active\n"
    );
    assert!(!at.join("wrong.bin").exists());

    fs::write(
        at.join("types.txt"),
        "effect 12 hiPower\neffect 12 loPower\ntype 5 group 1 category 6 volume - Hull\n",
    )
    .unwrap();
    fs::write(at.join("fit.txt"), "ship Hull\n").unwrap();
    let (status, _, err) = pack(&["fit.txt"], &at);
    assert_eq!(status, 1);
    assert!(
        err.starts_with("fitcheck: types.txt: effect id 12 stands twice"),
        "{err}"
    );

    // A fit called as the catalogue's image would be is not written over.
    fs::write(at.join("types.txt"), TYPES).unwrap();
    fs::write(at.join("types.bin"), "ship Hull\n").unwrap();
    let (status, _, err) = pack(&["types.bin"], &at);
    assert_eq!(status, 1);
    assert_eq!(
        err,
        "fitcheck: types.bin: it is read, so it is not written\n"
    );
    assert_eq!(
        fs::read_to_string(at.join("types.bin")).unwrap(),
        "ship Hull\n"
    );
}

/// The command makes of the samples' words the bytes that stand beside them,
/// which `rust/samples` holds against the original. The fit of `refused` lacks
/// its last byte there.
#[test]
fn pack_makes_the_samples() {
    let samples = Path::new(env!("CARGO_MANIFEST_DIR")).join("../../samples");
    for sample in ["clear", "faulted", "hangar", "refused"] {
        let out = folder(&format!("pack-{sample}"));
        let words = ["fit.txt", "--out", out.to_str().unwrap()];
        let (status, _, err) = pack(&words, &samples.join(sample));
        assert_eq!((status, err.as_str()), (0, ""));
        for file in ["types.bin", "fit.bin"] {
            let stored = fs::read(samples.join(sample).join(file)).unwrap();
            let mut made = fs::read(out.join(file)).unwrap();
            if (sample, file) == ("refused", "fit.bin") {
                made.pop();
            }
            assert!(made == stored, "{sample}/{file}");
        }
    }
}
