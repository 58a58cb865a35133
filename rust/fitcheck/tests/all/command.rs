//! The command `fitcheck`, run as a user runs it.

use std::fs;
use std::io::Write;
use std::path::Path;
use std::process::{Command, Output, Stdio};

use fitcheck::{
    Attribute, CatalogueBuilder, FitBuilder, FitItem, ItemResult, Mark, Profile, Refusal, Slot,
    State,
};

use crate::folder;
use crate::json::Value;

/// What a run gave.
struct Ran {
    status: i32,
    out: String,
    err: String,
}

fn fitcheck(words: &[&str]) -> Ran {
    let ran = Command::new(env!("CARGO_BIN_EXE_fitcheck"))
        .args(words)
        .output()
        .unwrap();
    ended(ran)
}

/// The same, and a fit is explained to an officer, who is told everything.
fn officer(words: &[&str]) -> Ran {
    match words[0] {
        "explain" => fitcheck(&[words, &["--as", "officer"]].concat()),
        _ => fitcheck(words),
    }
}

/// The same with bytes on standard input.
fn piped(words: &[&str], bytes: &[u8]) -> Ran {
    let mut child = Command::new(env!("CARGO_BIN_EXE_fitcheck"))
        .args(words)
        .stdin(Stdio::piped())
        .stdout(Stdio::piped())
        .stderr(Stdio::piped())
        .spawn()
        .unwrap();
    // One that takes no more of it than it needs closes the pipe.
    let _ = child.stdin.take().unwrap().write_all(bytes);
    ended(child.wait_with_output().unwrap())
}

fn ended(ran: Output) -> Ran {
    Ran {
        status: ran.status.code().expect("it ends by itself"),
        out: String::from_utf8(ran.stdout).unwrap(),
        err: String::from_utf8(ran.stderr).unwrap(),
    }
}

fn put(folder: &Path, name: &str, bytes: &[u8]) -> String {
    let path = folder.join(name);
    fs::write(&path, bytes).unwrap();
    path.to_str().unwrap().to_string()
}

/// A catalogue that lacks nothing: those names have these ids, others others.
fn whole(names: &[(Attribute, i32)]) -> CatalogueBuilder {
    let mut catalogue = CatalogueBuilder::new();
    for (name, id) in names {
        catalogue.name(*name, *id);
    }
    for name in catalogue.missing_names() {
        catalogue.name(name, 100_000 + i32::from(name.number()));
    }
    for mark in &Mark::ALL[1..] {
        catalogue.effect(mark.number().into(), *mark);
    }
    catalogue
}

/// A Rifter whose CPU is infinitely used, with two items in one slot, one of
/// which wants a skill; the catalogue that it belongs to.
fn faulted() -> (Vec<u8>, Vec<u8>) {
    let names = [
        (Attribute::CpuLoad, 49),
        (Attribute::CpuOutput, 48),
        (Attribute::RequiredSkill1, 182),
        (Attribute::RequiredSkill1Level, 277),
        (Attribute::LowSlots, 12),
    ];
    let catalogue = whole(&names)
        .type_info(587, 25, 6, None)
        .type_info(2048, 60, 7, None)
        .build()
        .unwrap();
    let online = || ItemResult::new(State::Online);
    let fit = FitBuilder::new(587)
        .ship(
            online()
                .with(49, f64::INFINITY)
                .with(48, 130.0)
                .with(12, 4.0),
        )
        .item(FitItem::new(2048, Slot::Low(1)), online())
        .item(
            FitItem::new(2048, Slot::Low(1)),
            online().with(182, 3394.0).with(277, 4.0),
        )
        .build()
        .unwrap();
    (catalogue, fit)
}

#[test]
fn help_and_version() {
    for asked in ["--help", "help", "-h"] {
        let ran = fitcheck(&[asked]);
        assert_eq!(ran.status, 0);
        assert!(ran.out.contains("fitcheck explain CATALOGUE FIT"));
        assert!(ran.err.is_empty());
    }
    let ran = fitcheck(&["--version"]);
    let (version, interface) = (env!("CARGO_PKG_VERSION"), fitcheck::interface());
    assert_eq!(
        ran.out,
        format!("fitcheck {version}, library interface {interface}\n")
    );
}

#[test]
fn wrong_usage_is_said_and_has_status_2() {
    for (words, wrong) in [
        (&[][..], "fitcheck: nothing is asked\n"),
        (&["explain", "a"], "fitcheck: explain wants a FIT\n"),
        (
            &["hall", "a", "b", "c"],
            "fitcheck: c is one word too many\n",
        ),
        (
            &["explain", "--all"],
            "fitcheck: there is no option --all\n",
        ),
    ] {
        let ran = fitcheck(words);
        assert_eq!(ran.status, 2);
        assert!(ran.err.starts_with(wrong), "{}", ran.err);
        assert!(ran.err.contains("Usage: fitcheck explain"));
        assert!(ran.out.is_empty());
    }
}

#[test]
fn files_that_cannot_be_read_are_named_and_have_status_1() {
    let folder = folder("unreadable");
    let catalogue = put(&folder, "types.bin", &[0; 20]);
    let fit = put(&folder, "fit.bin", &[0; 36]);
    let nowhere = folder.join("nowhere").to_str().unwrap().to_string();
    let itself = folder.to_str().unwrap();
    let names = put(&folder, "names.txt", b"587 Rifter\nno id\n");
    let types = put(&folder, "types.txt", b"name cpuLoad 49\n");
    let latin = put(&folder, "latin.txt", b"587 Rift\xE9r\n");
    for (words, about) in [
        (vec!["explain", &nowhere, &fit], nowhere.as_str()),
        (vec!["explain", &catalogue, &nowhere], &nowhere),
        (vec!["explain", &catalogue, itself], itself),
        (
            vec!["explain", &catalogue, &fit, "--names", &nowhere],
            &nowhere,
        ),
        (vec!["explain", &catalogue, &fit, "--names", &latin], &latin),
        (vec!["pack", &nowhere, "--types", &types], &nowhere),
        (vec!["pack", &fit, "--types", &nowhere], &nowhere),
        (vec!["hall", &catalogue, &nowhere], &nowhere),
        (vec!["hall", &catalogue, &fit], &fit),
        (vec!["hall", &nowhere, itself], &nowhere),
    ] {
        let ran = officer(&words);
        assert_eq!(ran.status, 1, "{words:?}");
        assert!(
            ran.err.starts_with(&format!("fitcheck: {about}: ")),
            "{words:?}: {}",
            ran.err
        );
        assert!(ran.out.is_empty());
    }
    let ran = officer(&["explain", &catalogue, &fit, "--names", &names]);
    assert_eq!(ran.status, 1);
    assert_eq!(
        ran.err,
        format!("fitcheck: {names}: line 2: not an id and a name\n")
    );
}

/// Document 01: 20 and 36 zero bytes give one entry, NotAHull.
#[test]
fn document_01s_smallest_images() {
    let folder = folder("zeros");
    let catalogue = put(&folder, "types.bin", &[0; 20]);
    let fit = put(&folder, "fit.bin", &[0; 36]);
    let ran = officer(&["explain", &catalogue, &fit]);
    assert_eq!(
        ran.out,
        "faulted: 1 entry\n  \
         type 0 is not a ship, structure or container, so nothing can be fitted to it\n\
         skills: none is lacking\n"
    );
    assert_eq!(ran.status, 3);

    let ran = officer(&["explain", "--json", &catalogue, &fit]);
    let (begins, ends) = (
        "{\"version\":2,\"status\":\"faulted\",\"unchecked\":[{\"rule\":\"resource\",\
         \"what\":\"resources (CPU)\",\"names\":[\"cpuLoad\",\"cpuOutput\"],\"marks\":[]},",
        "],\"entries\":[{\"target\":{\"type\":\"ship\"},\
         \"rule\":{\"type\":\"not_a_hull\"},\"sentence\":\"type 0 is not a ship, structure or \
         container, so nothing can be fitted to it\"}],\"skills\":[{\"result\":0,\"entries\":[]},\
         {\"result\":1,\"entries\":[]}]}\n",
    );
    assert!(ran.out.starts_with(begins), "{}", ran.out);
    assert!(ran.out.ends_with(ends), "{}", ran.out);
    assert_eq!(ran.status, 3);
}

#[test]
fn a_clear_fit_has_status_0_even_where_skills_are_lacking() {
    let folder = folder("clear");
    let (types, _) = faulted();
    let catalogue = put(&folder, "types.bin", &types);
    let mut fit = FitBuilder::new(587);
    let path = put(&folder, "bare.fit", &fit.build().unwrap());
    let ran = officer(&["explain", &catalogue, &path]);
    assert_eq!(
        ran.out,
        "clear: no rule is broken\nskills: none is lacking\n"
    );
    assert_eq!(ran.status, 0);

    fit.ship(ItemResult::default().with(182, 3329.0).with(277, 2.0));
    let path = put(&folder, "untrained.fit", &fit.build().unwrap());
    let ran = officer(&["explain", &catalogue, &path]);
    assert_eq!(
        ran.out,
        "clear: no rule is broken\nskills: lacking for 1 of 2 results\n  \
         the ship (type 587) needs type 3329 at level 2, and it is not trained\n"
    );
    assert_eq!(ran.status, 0);
}

#[test]
fn a_faulted_fit_in_sentences_with_names() {
    let folder = folder("faulted");
    let (types, fit) = faulted();
    let catalogue = put(&folder, "types.bin", &types);
    let fit = put(&folder, "rifter.fit", &fit);
    let names = put(
        &folder,
        "names.txt",
        "587 Rifter\n2048 \"Damage\\Control\"\n3394 Hull Upgrades\n".as_bytes(),
    );
    let ran = officer(&["explain", &catalogue, &fit, "--names", &names]);
    assert_eq!(
        ran.out,
        "faulted: 3 entries\n  \
         CPU: inf of 130 used\n  \
         Low slot 1 is shared by \"Damage\\Control\" (items 0, 1)\n\
         skills: lacking for 1 of 4 results\n  \
         \"Damage\\Control\" (item 1) needs Hull Upgrades at level 4, and it is not trained\n"
    );
    assert_eq!(ran.status, 3);

    let ran = officer(&["explain", &catalogue, &fit, "--json", "--names", &names]);
    assert_eq!(ran.status, 3);
    let value = Value::parse(&ran.out);
    assert_eq!(
        value.names(),
        ["version", "status", "unchecked", "entries", "skills"]
    );
    assert_eq!(value.get("version").number(), 2.0);
    assert!(value.get("unchecked").list().is_empty());
    assert_eq!(value.get("status").text(), "faulted");
    let entries = value.get("entries").list();
    assert_eq!(entries.len(), 3);
    let rule = entries[0].get("rule");
    assert_eq!(rule.names(), ["type", "resource", "used", "available"]);
    assert_eq!(rule.get("resource").text(), "cpu");
    assert_eq!(rule.get("used").text(), "Infinity");
    assert_eq!(rule.get("available").number(), 130.0);
    assert_eq!(entries[2].get("target").get("type").text(), "item");
    assert_eq!(entries[2].get("target").get("index").number(), 1.0);
    assert_eq!(entries[2].get("rule").get("type").text(), "slot_taken");
    assert_eq!(
        entries[2].get("sentence").text(),
        "\"Damage\\Control\" (item 1) shares Low slot 1 with \"Damage\\Control\" (item 0)"
    );
    let skills = value.get("skills").list();
    assert_eq!(skills.len(), 4, "ship, character and two items");
    assert!(skills[2].get("entries").list().is_empty());
    let lacking = skills[3].get("entries").list()[0].get("rule");
    assert_eq!(lacking.names(), ["type", "type_id", "required", "level"]);
    assert_eq!(lacking.get("type_id").number(), 3394.0);
    assert_eq!(lacking.get("required").number(), 4.0);
    assert_eq!(lacking.get("level").number(), 0.0);
}

/// A Rifter with so many damage controls in the first low slots and so many
/// results: without a slot of their own they would be faulted.
fn unequal(items: u8, results: u8) -> Vec<u8> {
    let online = || ItemResult::new(State::Online);
    let mut fit = FitBuilder::new(587);
    fit.ship(online().with(12, 8.0));
    for number in 0..items.max(results) {
        let item = FitItem::new(2048, Slot::Low(number));
        match (number < items, number < results) {
            (true, true) => fit.item(item, online()),
            (true, false) => fit.item_without_result(item),
            _ => fit.result_without_item(online()),
        };
    }
    fit.build().unwrap()
}

#[test]
fn a_fit_of_which_not_all_was_checked_is_faulted_and_says_why() {
    let folder = folder("unequal");
    let (types, faulted) = faulted();
    let catalogue = put(&folder, "types.bin", &types);
    for (items, results, sentence, numbers) in [
        (4, 1, "3 items have no result", (3.0, 0.0)),
        (3, 2, "1 item has no result", (1.0, 0.0)),
        (0, 2, "2 results have no item", (0.0, 2.0)),
        (4, 5, "1 result has no item", (0.0, 1.0)),
    ] {
        let sentence = format!("{sentence}, so not all of it was checked");
        let fit = put(&folder, "unequal.fit", &unequal(items, results));
        let ran = officer(&["explain", &catalogue, &fit]);
        assert_eq!(
            ran.out,
            format!("faulted: 0 entries\n  {sentence}\nskills: none is lacking\n")
        );
        assert_eq!(ran.status, 3);
        let ran = officer(&["explain", &catalogue, &fit, "--json"]);
        assert_eq!(ran.status, 3);
        let value = Value::parse(&ran.out);
        assert_eq!(value.get("status").text(), "faulted");
        assert!(value.get("entries").list().is_empty());
        let unpaired = value.get("unpaired");
        assert_eq!(unpaired.names(), ["items", "results", "sentence"]);
        let shown = (
            unpaired.get("items").number(),
            unpaired.get("results").number(),
        );
        assert_eq!(shown, numbers);
        assert_eq!(unpaired.get("sentence").text(), sentence);
    }
    // As many of both.
    let fit = put(&folder, "equal.fit", &unequal(4, 4));
    let ran = officer(&["explain", &catalogue, &fit]);
    assert_eq!(
        (ran.status, ran.out.as_str()),
        (0, "clear: no rule is broken\nskills: none is lacking\n")
    );

    // Where there are entries, it is said behind them.
    let mut broken = FitBuilder::new(588);
    broken.item_without_result(FitItem::new(2048, Slot::Low(0)));
    let broken = broken.build().unwrap();
    let path = put(&folder, "broken.fit", &broken);
    let ran = officer(&["explain", &catalogue, &path]);
    assert_eq!(
        ran.out,
        "faulted: 1 entry\n  \
         type 588 is not a ship, structure or container, so nothing can be fitted to it\n  \
         1 item has no result, so not all of it was checked\n\
         skills: none is lacking\n"
    );
    assert_eq!(ran.status, 3);

    // In a hall, among others.
    let hall = folder.join("fits");
    fs::create_dir(&hall).unwrap();
    put(&hall, "a.fit", &unequal(2, 2));
    put(&hall, "b.fit", &unequal(4, 1));
    put(&hall, "c.fit", &unequal(0, 1));
    put(&hall, "d.fit", &broken);
    put(&hall, "e.fit", &faulted);
    put(&hall, "f.fit", &[0; 35]);
    let hall = hall.to_str().unwrap();
    let ran = fitcheck(&["hall", &catalogue, hall]);
    assert_eq!(
        ran.out,
        format!(
            "a.fit: clear\n\
             b.fit: faulted, 0 entries; 3 items have no result, so not all of it was checked\n\
             c.fit: faulted, 0 entries; 1 result has no item, so not all of it was checked\n\
             d.fit: faulted, 1 entry; 1 item has no result, so not all of it was checked\n\
             e.fit: faulted, 3 entries\n\
             f.fit: refused by 4: {}\n\
             1 clear, 4 faulted, 1 refused\n",
            Refusal::FitLength
        )
    );
    assert_eq!(ran.status, 0);
    let ran = fitcheck(&["hall", &catalogue, hall, "--json"]);
    let value = Value::parse(&ran.out);
    assert_eq!(value.get("clear").number(), 1.0);
    assert_eq!(value.get("faulted").number(), 4.0);
    let fits = value.get("fits").list();
    assert_eq!(fits[0].names(), ["file", "status"]);
    for (fit, entries) in fits[1..4].iter().zip([0.0, 0.0, 1.0]) {
        assert_eq!(fit.names(), ["file", "status", "entries", "unpaired"]);
        assert_eq!(fit.get("status").text(), "faulted");
        assert_eq!(fit.get("entries").number(), entries);
    }
    assert_eq!(
        fits[1].get("unpaired").get("sentence").text(),
        "3 items have no result, so not all of it was checked"
    );
    assert_eq!(fits[4].names(), ["file", "status", "entries"]);
}

/// Document 01: over 512 distinct wanted skills is refusal 9 of that result.
#[test]
fn a_refused_walk_is_said_beside_the_list() {
    let mut catalogue = whole(&[
        (Attribute::RequiredSkill1, 182),
        (Attribute::RequiredSkill1Level, 277),
    ]);
    catalogue.type_info(587, 25, 6, None);
    for skill in 1..513 {
        catalogue.base(skill, 182, f64::from(skill + 1));
    }
    let fit = FitBuilder::new(587)
        .character(ItemResult::default().with(182, 1.0))
        .build()
        .unwrap();
    let folder = folder("chain");
    let catalogue = put(&folder, "types.bin", &catalogue.build().unwrap());
    let fit = put(&folder, "chain.fit", &fit);
    let ran = officer(&["explain", &catalogue, &fit]);
    assert_eq!(
        ran.out,
        "clear: no rule is broken\nskills: lacking for 0 of 2 results, 1 refused\n  \
         the character: refused by 9: a result wants more than 512 skills\n"
    );
    assert_eq!(ran.status, 0);
    let ran = officer(&["explain", &catalogue, &fit, "--json"]);
    let value = Value::parse(&ran.out);
    let character = &value.get("skills").list()[1];
    assert_eq!(character.get("refusal").get("number").number(), 9.0);
}

/// A page that takes too few items refuses the fit; one that takes too few
/// skills says so of each result that wants more. Else nothing changes.
#[test]
fn a_smaller_page_says_what_it_does_not_take() {
    let mut catalogue = whole(&[
        (Attribute::RequiredSkill1, 182),
        (Attribute::RequiredSkill1Level, 277),
    ]);
    catalogue.type_info(587, 25, 6, None).base(7, 182, 8.0);
    let wants = |skill: f64| ItemResult::default().with(182, skill).with(277, 3.0);
    let fit = FitBuilder::new(587)
        .ship(wants(8.0))
        .character(wants(7.0))
        .item(FitItem::new(34, Slot::Cargo), ItemResult::default())
        .item(FitItem::new(35, Slot::Cargo), ItemResult::default())
        .item_without_result(FitItem::new(36, Slot::Cargo))
        .build()
        .unwrap();
    let folder = folder("smaller");
    let catalogue = put(&folder, "types.bin", &catalogue.build().unwrap());
    let fit = put(&folder, "two.fit", &fit);
    let under = |limits: &[&str]| officer(&[&["explain", &catalogue, &fit], limits].concat());

    let main = under(&[]);
    for limits in [
        &["--pairs", "2"][..],
        &["--skills", "2"],
        &["--pairs", "4294967295", "--skills", "513"],
    ] {
        let ran = under(limits);
        assert_eq!(
            (ran.status, &ran.out),
            (main.status, &main.out),
            "{limits:?}"
        );
    }

    let said = format!(
        "fitcheck: {fit}: refused by 13: the fit has 2 items with a result, and this page takes 1\n"
    );
    let ran = under(&["--pairs", "1"]);
    assert_eq!((ran.status, ran.err.as_str()), (1, said.as_str()));
    assert_eq!(ran.out, "");
    let ran = under(&["--pairs", "1", "--json"]);
    let value = Value::parse(&ran.out);
    let refusal = value.get("refusal");
    assert_eq!(refusal.get("passed").text(), "pairs");
    assert_eq!(refusal.get("count").number(), 2.0);
    assert_eq!(refusal.get("limit").number(), 1.0);

    let ran = under(&["--skills", "1"]);
    let said = "  the character: refused by 13: the result wants 2 skills, and this page takes 1\n";
    assert!(ran.out.ends_with(said), "{}", ran.out);
    assert!(
        ran.out
            .contains("skills: lacking for 1 of 4 results, 1 refused\n")
    );
    let ran = under(&["--skills", "0", "--json"]);
    let value = Value::parse(&ran.out);
    let skills = value.get("skills").list();
    for (result, wanted) in [(0, 1.0), (1, 2.0)] {
        let refusal = skills[result].get("refusal");
        assert_eq!(refusal.get("number").number(), 13.0);
        assert_eq!(refusal.get("passed").text(), "skills");
        assert_eq!(refusal.get("count").number(), wanted);
        assert_eq!(refusal.get("limit").number(), 0.0);
    }
    assert_eq!(skills[2].get("entries").list().len(), 0);
}

/// A Rifter with a gun among its skills, two guns in one slot, of which one wants
/// a skill, and the catalogue that it belongs to.
fn shared() -> (Vec<u8>, Vec<u8>) {
    let names = [
        (Attribute::RequiredSkill1, 182),
        (Attribute::RequiredSkill1Level, 277),
        (Attribute::HiSlots, 14),
    ];
    let catalogue = whole(&names)
        .type_info(587, 25, 6, None)
        .type_info(2889, 55, 7, None)
        .build()
        .unwrap();
    let online = || ItemResult::new(State::Online);
    let fit = FitBuilder::new(587)
        .skill(2889, 4)
        .ship(online().with(14, 4.0))
        .item(FitItem::new(2889, Slot::High(0)), online())
        .item(
            FitItem::new(2889, Slot::High(0)),
            online().with(182, 3302.0).with(277, 1.0),
        )
        .build()
        .unwrap();
    (catalogue, fit)
}

/// Skills are private: a guest sees which slot is shared, and neither what is
/// trained nor what is lacking.
#[test]
fn a_guest_is_told_nothing_of_skills() {
    let folder = folder("guest");
    let (types, fit) = shared();
    let catalogue = put(&folder, "types.bin", &types);
    let fit = put(&folder, "shared.fit", &fit);
    let read_by = |reader: &str| fitcheck(&["explain", &catalogue, &fit, "--as", reader]);
    let shared = "High slot 0 is shared by type 2889 (items 0, 1)";
    let full = format!(
        "faulted: 3 entries\n  type 2889 is listed as a skill and is not one\n  {shared}\n\
         skills: lacking for 1 of 4 results\n  \
         item 1 (type 2889) needs type 3302 at level 1, and it is not trained\n"
    );
    for reader in ["pilot", "officer"] {
        let ran = read_by(reader);
        assert_eq!((ran.status, &ran.out), (3, &full), "{reader}");
    }
    let ran = read_by("guest");
    let guests = format!("faulted: 2 entries\n  {shared}\nskills: not for a guest\n");
    assert_eq!((ran.status, ran.out), (3, guests));

    let ran = fitcheck(&["explain", &catalogue, &fit, "--json", "--as=guest"]);
    assert!(!ran.out.contains("3302") && !ran.out.contains("not_a_skill"));
    let value = Value::parse(&ran.out);
    assert_eq!(value.get("status").text(), "faulted");
    assert_eq!(value.get("entries").list().len(), 2);
    let skills = value.get("skills").list();
    assert_eq!(skills.len(), 4);
    for (result, skills) in skills.iter().enumerate() {
        assert_eq!(skills.names(), ["result", "refusal"]);
        assert_eq!(skills.get("result").number(), result as f64);
        let refusal = skills.get("refusal");
        assert_eq!(refusal.get("number").number(), 20.0);
        let reason = refusal.get("reason").text();
        assert_eq!(reason, Refusal::GuestSkills.to_string());
    }
}

/// What is wrong with the training alone is not told to a guest: it is as with
/// a fit that is clear, and neither is called so.
#[test]
fn a_guest_cannot_tell_a_clear_fit_from_one_with_a_false_skill() {
    let folder = folder("guest_clear");
    let (types, _) = shared();
    let catalogue = put(&folder, "types.bin", &types);
    let clear = put(&folder, "clear.fit", &FitBuilder::new(587).build().unwrap());
    let mut fit = FitBuilder::new(587);
    let faulted = put(&folder, "gun.fit", &fit.skill(2889, 5).build().unwrap());
    for (fit, status) in [(&clear, 0), (&faulted, 3)] {
        let ran = fitcheck(&["explain", &catalogue, fit, "--as", "pilot"]);
        assert_eq!(ran.status, status);
        let ran = fitcheck(&["explain", &catalogue, fit, "--as", "guest"]);
        assert_eq!(ran.status, 0);
        assert_eq!(
            ran.out,
            "nothing listed: no rule is broken that a guest may see\nskills: not for a guest\n"
        );
        let ran = fitcheck(&["explain", &catalogue, fit, "--as", "guest", "--json"]);
        assert_eq!(ran.status, 0);
        let value = Value::parse(&ran.out);
        assert_eq!(value.get("status").text(), "nothing_listed");
    }
    // The hall is the officer's.
    let hall = fitcheck(&["hall", &catalogue, folder.to_str().unwrap()]);
    assert!(
        hall.out.contains("gun.fit: faulted, 1 entry\n"),
        "{}",
        hall.out
    );
    // A fit of which not all was checked is faulted, whoever asks.
    let half = put(&folder, "half.fit", &unequal(2, 1));
    let ran = fitcheck(&["explain", &catalogue, &half, "--as", "guest"]);
    assert_eq!(ran.status, 3);
    assert!(ran.out.starts_with("faulted: "), "{}", ran.out);
}

/// Nobody is taken for the reader: without one the command says whom it could be
/// for, and nothing of the fit.
#[test]
fn whom_a_fit_is_explained_to_has_to_be_said() {
    let folder = folder("no_reader");
    let (types, fit) = shared();
    let catalogue = put(&folder, "types.bin", &types);
    let fit = put(&folder, "shared.fit", &fit);
    for (words, wrong) in [
        (
            &[][..],
            "fitcheck: explain wants --as and who reads it: guest, pilot or officer\n",
        ),
        (
            &["--as", "everyone"],
            "fitcheck: --as everyone is no guest, pilot or officer\n",
        ),
        (&["--as"], "fitcheck: --as wants a reader\n"),
    ] {
        let ran = fitcheck(&[&["explain", &catalogue, &fit], words].concat());
        assert_eq!((ran.status, ran.out.as_str()), (2, ""));
        assert!(ran.err.starts_with(wrong), "{}", ran.err);
        assert!(ran.err.contains("--as READER"), "{}", ran.err);
    }
    let ran = fitcheck(&[
        "hall",
        &catalogue,
        folder.to_str().unwrap(),
        "--as",
        "guest",
    ]);
    assert_eq!(ran.status, 2);
    assert!(
        ran.err.starts_with("fitcheck: hall takes no --as\n"),
        "{}",
        ran.err
    );
}

#[test]
fn refused_images_are_named_and_have_status_1() {
    let folder = folder("refused");
    let catalogue = put(&folder, "types.bin", &[0; 20]);
    let short = put(&folder, "short.bin", &[0; 3]);
    let fit = put(&folder, "fit.bin", &[0; 36]);
    let long = put(&folder, "long.bin", &vec![0; fitcheck::FIT_BYTES + 1000]);
    for (words, path, refusal) in [
        (["explain", &short, &fit], &short, Refusal::CatalogueLength),
        (["explain", &catalogue, &short], &short, Refusal::FitLength),
        (["explain", &catalogue, &long], &long, Refusal::FitLength),
    ] {
        let number = refusal.number();
        let said = format!("fitcheck: {path}: refused by {number}: {refusal}\n");
        let ran = officer(&words);
        assert_eq!((ran.status, ran.err.as_str()), (1, said.as_str()));
        assert!(ran.out.is_empty());

        let ran = officer(&[words[0], words[1], words[2], "--json"]);
        assert_eq!((ran.status, ran.err.as_str()), (1, said.as_str()));
        let value = Value::parse(&ran.out);
        assert_eq!(value.names(), ["version", "status", "refusal"]);
        assert_eq!(value.get("status").text(), "refused");
        let given = value.get("refusal");
        assert_eq!(given.get("number").number(), f64::from(number));
        assert_eq!(given.get("reason").text(), refusal.to_string());
    }
    let ran = fitcheck(&["hall", &short, folder.to_str().unwrap(), "--json"]);
    assert_eq!(ran.status, 1);
    let value = Value::parse(&ran.out);
    assert_eq!(value.get("refusal").get("number").number(), 1.0);
    assert!(ran.err.contains("refused by 1"));
}

#[test]
fn a_hall_of_more_than_64_fits() {
    let folder = folder("hall");
    let (types, faulted) = faulted();
    let catalogue = put(&folder, "types.bin", &types);
    let clear = FitBuilder::new(587).build().unwrap();
    let hall = folder.join("fits");
    fs::create_dir_all(hall.join("a folder")).unwrap();
    put(&hall, ".hidden", &[1]);
    put(&hall, "a folder/not.fit", &[1]);
    for number in 0..70 {
        put(&hall, &format!("b{number:02}.fit"), &clear);
    }
    put(&hall, "a \"quoted\"\n.fit", &faulted);
    put(&hall, "c.fit", &[0; 36]);
    put(&hall, "d.fit", &[]);
    let hall = hall.to_str().unwrap();

    let ran = fitcheck(&["hall", &catalogue, hall]);
    assert_eq!(ran.status, 0);
    let mut expected = "a \"quoted\"\\n.fit: faulted, 3 entries\n".to_string();
    for number in 0..70 {
        expected += &format!("b{number:02}.fit: clear\n");
    }
    expected += "c.fit: faulted, 1 entry\n";
    expected += &format!("d.fit: refused by 4: {}\n", Refusal::FitLength);
    expected += "70 clear, 2 faulted, 1 refused\n";
    assert_eq!(ran.out, expected);

    let ran = fitcheck(&["hall", &catalogue, hall, "--json"]);
    assert_eq!(ran.status, 0);
    let value = Value::parse(&ran.out);
    assert_eq!(
        value.names(),
        [
            "version",
            "status",
            "unchecked",
            "fits",
            "clear",
            "faulted",
            "refused",
            "unread"
        ]
    );
    assert_eq!(value.get("status").text(), "counted");
    assert_eq!(value.get("unread").number(), 0.0);
    assert_eq!(value.get("clear").number(), 70.0);
    assert_eq!(value.get("faulted").number(), 2.0);
    assert_eq!(value.get("refused").number(), 1.0);
    let fits = value.get("fits").list();
    assert_eq!(fits.len(), 73);
    assert_eq!(fits[0].get("file").text(), "a \"quoted\"\n.fit");
    assert_eq!(fits[0].get("entries").number(), 3.0);
    assert_eq!(fits[1].names(), ["file", "status"]);
    assert_eq!(fits[72].get("status").text(), "refused");
    assert_eq!(fits[72].get("refusal").get("number").number(), 4.0);
}

#[test]
fn an_empty_hall_is_counted() {
    let folder = folder("empty");
    let catalogue = put(&folder, "types.bin", &[0; 20]);
    fs::create_dir(folder.join("fits")).unwrap();
    let ran = fitcheck(&["hall", &catalogue, folder.join("fits").to_str().unwrap()]);
    assert_eq!(
        (ran.status, ran.out.as_str()),
        (0, "0 clear, 0 faulted, 0 refused\n")
    );
    let fits = folder.join("fits");
    let ran = fitcheck(&["hall", &catalogue, fits.to_str().unwrap(), "--json"]);
    let value = Value::parse(&ran.out);
    assert!(value.get("fits").list().is_empty());
    assert_eq!(value.get("clear").number(), 0.0);
}

/// A file that cannot be read is said, the others are counted, and the status
/// tells that not all were.
#[test]
fn one_bad_file_does_not_stop_the_hall() {
    let folder = folder("bad-file");
    let (types, faulted) = faulted();
    let catalogue = put(&folder, "types.bin", &types);
    let hall = folder.join("fits");
    fs::create_dir(&hall).unwrap();
    put(&hall, "a.fit", &faulted);
    std::os::unix::fs::symlink("nowhere", hall.join("b.fit")).unwrap();
    put(&hall, "c.fit", &FitBuilder::new(587).build().unwrap());
    let hall = hall.to_str().unwrap();

    let ran = fitcheck(&["hall", &catalogue, hall]);
    assert_eq!(ran.status, 1);
    let lines: Vec<&str> = ran.out.lines().collect();
    assert_eq!(lines.len(), 4, "{}", ran.out);
    assert_eq!(lines[0], "a.fit: faulted, 3 entries");
    assert!(lines[1].starts_with("b.fit: cannot be read: No such file"));
    assert_eq!(lines[2], "c.fit: clear");
    assert_eq!(lines[3], "1 clear, 1 faulted, 0 refused, 1 not read");

    let ran = fitcheck(&["hall", &catalogue, hall, "--json"]);
    assert_eq!(ran.status, 1);
    let value = Value::parse(&ran.out);
    let bad = &value.get("fits").list()[1];
    assert_eq!(bad.names(), ["file", "status", "reason"]);
    assert_eq!(bad.get("status").text(), "unread");
    assert_eq!(value.get("unread").number(), 1.0);
    assert_eq!(value.get("clear").number(), 1.0);
}

/// More fits than memory is allowed for: they are read as it goes.
#[test]
fn a_hall_holds_few_fits_at_a_time() {
    let folder = folder("long-hall");
    let (types, _) = faulted();
    let catalogue = put(&folder, "types.bin", &types);
    let hall = folder.join("fits");
    fs::create_dir(&hall).unwrap();
    // The longest fit there is, by hard links.
    let mut fit = FitBuilder::new(587);
    let values = (0..30_000).map(|id| (200_000 + id, 0.0)).collect();
    fit.ship(ItemResult {
        attributes: values,
        ..ItemResult::default()
    });
    let first = put(&hall, "0000.fit", &fit.build().unwrap());
    for number in 1..1_000 {
        fs::hard_link(&first, hall.join(format!("{number:04}.fit"))).unwrap();
    }
    // 1,000 of them have 360 MB; the limit is on all that the process maps.
    let ran = Command::new("sh")
        .args(["-c", "ulimit -v 200000 && exec \"$0\" \"$@\""])
        .args([env!("CARGO_BIN_EXE_fitcheck"), "hall", &catalogue])
        .arg(&hall)
        .output()
        .unwrap();
    let ran = ended(ran);
    assert!(
        ran.out.ends_with("1000 clear, 0 faulted, 0 refused\n"),
        "{}",
        ran.err
    );
}

#[test]
fn a_fit_may_come_by_standard_input() {
    let folder = folder("piped");
    let (types, fit) = faulted();
    let catalogue = put(&folder, "types.bin", &types);
    let path = put(&folder, "rifter.fit", &fit);
    let from_file = officer(&["explain", &catalogue, &path]);
    let ran = piped(&["explain", &catalogue, "-", "--as", "officer"], &fit);
    assert_eq!((ran.status, ran.out), (3, from_file.out.clone()));
    let ran = piped(&["explain", "-", &path, "--as", "officer"], &types);
    assert_eq!((ran.status, ran.out), (3, from_file.out));

    let ran = piped(&["explain", &catalogue, "-", "--as", "officer"], &fit[..50]);
    assert_eq!(ran.status, 1);
    let said = format!(
        "fitcheck: standard input: refused by 4: {}\n",
        Refusal::FitLength
    );
    assert_eq!(ran.err, said);
    let ran = piped(&["explain", "-", "-", "--as", "officer"], &fit);
    assert_eq!(ran.status, 2);
}

/// A catalogue without names leaves nearly every fit clear; both commands say
/// which rules fall away, in JSON too.
#[test]
fn what_a_catalogue_lacks_is_said_aloud() {
    let folder = folder("lacking");
    let (_, fit) = faulted();
    let fit = put(&folder, "rifter.fit", &fit);
    let bare = CatalogueBuilder::new()
        .type_info(587, 25, 6, None)
        .type_info(2048, 60, 7, None)
        .build()
        .unwrap();
    let bare = put(&folder, "bare.bin", &bare);
    let warning = format!(
        "fitcheck: {bare}: warning: the catalogue has no id for 88 of 88 attribute names and no \
         effect for 8 of 8 slot marks, so these are not checked: resources; slots of the ship; "
    );
    let ran = officer(&["explain", &bare, &fit]);
    assert!(ran.err.starts_with(&warning), "{}", ran.err);
    assert!(ran.err.ends_with("; required skills\n"), "{}", ran.err);
    assert_eq!(ran.err.lines().count(), 1);
    let hall = folder.join("fits");
    fs::create_dir(&hall).unwrap();
    let hall = hall.to_str().unwrap();
    let ran = fitcheck(&["hall", &bare, hall]);
    assert!(ran.err.starts_with(&warning), "{}", ran.err);
    for words in [
        ["explain", &bare, &fit, "--json"],
        ["hall", &bare, hall, "--json"],
    ] {
        let ran = officer(&words);
        assert!(ran.err.starts_with(&warning), "{}", ran.err);
        let value = Value::parse(&ran.out);
        let unchecked = value.get("unchecked").list();
        assert_eq!(unchecked[0].names(), ["rule", "what", "names", "marks"]);
        assert_eq!(unchecked[0].get("rule").text(), "resource");
        assert_eq!(unchecked[0].get("names").list().len(), 2);
        assert!(unchecked.len() > 30, "{}", unchecked.len());
    }
    // One that lacks nothing is warned of by nobody.
    let whole = put(&folder, "whole.bin", &whole(&[]).build().unwrap());
    assert!(fitcheck(&["hall", &whole, hall]).err.is_empty());
    assert!(officer(&["explain", &whole, &fit]).err.is_empty());
}

/// An old catalogue with one base, 1.5 of attribute 182 on type 3302; and the
/// same in the form of today.
fn both_forms() -> (Vec<u8>, Vec<u8>) {
    let mut front = vec![0; 16];
    front.extend([1u32, 3302, 182].iter().flat_map(|word| word.to_le_bytes()));
    let with = |value: &[u8]| [&front[..], value].concat();
    (with(&1.5f32.to_le_bytes()), with(&1.5f64.to_le_bytes()))
}

#[test]
fn an_old_catalogue_is_widened_into_a_file() {
    let folder = folder("widen");
    let (old, new) = both_forms();
    let old_path = put(&folder, "old.bin", &old);
    let path = folder.join("new.bin").to_str().unwrap().to_string();
    let ran = fitcheck(&["widen", &old_path, &path]);
    assert_eq!((ran.status, ran.err.as_str()), (0, ""));
    assert_eq!(ran.out, format!("{path}: 36 bytes\n"));
    assert_eq!(fs::read(&path).unwrap(), new);

    let ran = piped(&["widen", "-", &path], &old);
    assert_eq!((ran.status, ran.err.as_str()), (0, ""));
    assert_eq!(fs::read(&path).unwrap(), new);
}

#[test]
fn what_is_no_old_catalogue_is_not_written() {
    let folder = folder("widen_refused");
    let (old, new) = both_forms();
    let new_path = put(&folder, "new.bin", &new);
    let other = folder.join("other.bin").to_str().unwrap().to_string();
    let ran = fitcheck(&["widen", &new_path, &other]);
    assert_eq!((ran.status, ran.out.as_str()), (1, ""));
    assert!(ran.err.contains("refused by 1"), "{}", ran.err);
    assert!(!Path::new(&other).exists());

    // The same file, also under another path and behind a link.
    let old_path = put(&folder, "old.bin", &old);
    let around = folder.join(".").join("old.bin");
    let link = folder.join("link.bin");
    std::os::unix::fs::symlink(&old_path, &link).unwrap();
    for same in [Path::new(&old_path), &around, &link] {
        let ran = fitcheck(&["widen", &old_path, same.to_str().unwrap()]);
        assert_eq!((ran.status, ran.out.as_str()), (1, ""));
        assert!(ran.err.contains("it is read, so it is not written"));
        assert_eq!(fs::read(&old_path).unwrap(), old);
    }
}

/// What is written has a name: standard output has what is said.
#[test]
fn nothing_is_written_to_a_dash() {
    let folder = folder("dash");
    let (catalogue, fit) = planned(&folder);
    let old = put(&folder, "old.bin", &both_forms().0);
    for words in [
        &["train", &catalogue, &fit, "--result", "0", "-o", "-"][..],
        &["widen", &old, "-"],
    ] {
        let ran = fitcheck(words);
        assert_eq!((ran.status, ran.out.as_str()), (2, ""), "{words:?}");
        assert!(ran.err.contains("- is no file to write"), "{}", ran.err);
    }
    assert!(!Path::new("-").exists());
}

#[test]
fn a_widened_catalogue_that_is_too_long_is_warned_of() {
    let folder = folder("widen_long");
    let mut old = Vec::new();
    let sizes = [1u32, 0, 0, 0, 1_398_099];
    old.extend(sizes.iter().flat_map(|size| size.to_le_bytes()));
    old.resize(fitcheck::CATALOGUE_BYTES, 0);
    let old_path = put(&folder, "old.bin", &old);
    let path = folder.join("new.bin").to_str().unwrap().to_string();
    let ran = fitcheck(&["widen", &old_path, &path]);
    assert_eq!(ran.status, 0);
    assert!(ran.err.contains("warning: it is over 16777216 bytes"));
    assert_eq!(ran.out, format!("{path}: 22369612 bytes\n"));
}

/// A Rifter that asks for skill 3329 at level 4, which is trained to 2, and an
/// item that asks for 3300 at level 1, which is not; the catalogue has 3329 ask for
/// 3327 at level 1.
fn planned(folder: &Path) -> (String, String) {
    let names = [
        (Attribute::RequiredSkill1, 182),
        (Attribute::RequiredSkill1Level, 277),
    ];
    let catalogue = whole(&names)
        .type_info(587, 25, 6, None)
        .base(3329, 182, 3327.0)
        .base(3329, 277, 1.0)
        .build()
        .unwrap();
    let asking = |skill: f64, level: f64| {
        let result = ItemResult::new(State::Online);
        result.with(182, skill).with(277, level)
    };
    let fit = FitBuilder::new(587)
        .skill(3329, 2)
        .ship(asking(3329.0, 4.0))
        .item(FitItem::new(2048, Slot::Low(0)), asking(3300.0, 1.0))
        .build()
        .unwrap();
    (
        put(folder, "types.bin", &catalogue),
        put(folder, "fit.bin", &fit),
    )
}

#[test]
fn a_plan_is_said_skill_by_skill_and_written() {
    let folder = folder("train");
    let (catalogue, fit) = planned(&folder);
    let names = put(&folder, "names.txt", b"3329 Minmatar Frigate\n587 Rifter\n");
    let new = folder.join("new.bin").to_str().unwrap().to_string();
    let ran = fitcheck(&[
        "train", &catalogue, &fit, "--result", "0", "--names", &names,
    ]);
    assert_eq!((ran.status, ran.err.as_str()), (0, ""));
    assert_eq!(
        ran.out,
        "Rifter (the ship) lacks 3 levels; after 3 steps none is missing\n  \
         Minmatar Frigate: 2 to 4, 2 levels\n  type 3327: 0 to 1, 1 level\n"
    );

    let words = [
        "train",
        &catalogue,
        &fit,
        "--result=0",
        "--steps=2",
        "-o",
        &new,
    ];
    let ran = fitcheck(&words);
    assert_eq!((ran.status, ran.err.as_str()), (0, ""));
    let old = fs::read(&fit).unwrap();
    assert_eq!(
        ran.out,
        format!(
            "the ship (type 587) lacks 3 levels; after 2 steps 1 is missing\n  \
             type 3329: 2 to 4, 2 levels\n{new}: {} bytes\n",
            old.len()
        )
    );
    // Nothing but the level differs: it stands behind the sizes, the ship and one
    // skill's id.
    let mut expected = old.clone();
    assert_eq!(expected[32], 2);
    expected[32] = 4;
    assert_eq!(fs::read(&new).unwrap(), expected);

    let ran = fitcheck(&["train", &catalogue, &new, "--result", "0"]);
    assert_eq!(
        ran.out,
        "the ship (type 587) lacks 1 level; after 1 step none is missing\n  \
         type 3327: 0 to 1, 1 level\n"
    );
    let ran = fitcheck(&["train", &catalogue, &fit, "--result", "1"]);
    assert_eq!(
        (ran.status, &*ran.out),
        (0, "the character lacks no level\n")
    );
    let ran = piped(
        &["train", &catalogue, "-", "--result", "2", "-o", &new],
        &old,
    );
    assert_eq!(ran.status, 0);
    // The skill is listed before the other, whose id is higher.
    let written = fs::read(&new).unwrap();
    assert_eq!(written.len(), old.len() + 5);
    assert_eq!(written[28..36], [0xE4, 0x0C, 0, 0, 0x01, 0x0D, 0, 0]);
    assert_eq!(written[36..38], [1, 2]);
    assert_eq!(written[38..], old[33..]);
}

#[test]
fn a_plan_in_json() {
    let folder = folder("train_json");
    let (catalogue, fit) = planned(&folder);
    let words = [
        "train", &catalogue, &fit, "--result", "0", "--steps", "1", "--json",
    ];
    let ran = fitcheck(&words);
    assert_eq!(ran.status, 0);
    let value = Value::parse(&ran.out);
    assert_eq!(value.get("status").text(), "lacking");
    assert_eq!(value.get("result").number(), 0.0);
    assert_eq!(value.get("levels_raised").number(), 1.0);
    assert_eq!(value.get("levels_missing").number(), 2.0);
    let skill = &value.get("skills").list()[0];
    assert_eq!(skill.get("type_id").number(), 3329.0);
    assert_eq!(skill.get("from").number(), 2.0);
    assert_eq!(skill.get("to").number(), 3.0);
    let left = |ran: &str| -> Vec<[f64; 3]> {
        let value = Value::parse(ran);
        let skills = value.get("lacking").list().iter();
        let numbers = skills.map(|it| ["type_id", "from", "to"].map(|name| it.get(name).number()));
        numbers.collect()
    };
    assert_eq!(left(&ran.out), [[3329.0, 3.0, 4.0], [3327.0, 0.0, 1.0]]);

    // With no step, everything that is lacking; with all of them, nothing.
    let with = |steps: &str| {
        let words = [
            "train", &catalogue, &fit, "--result", "0", "--steps", steps, "--json",
        ];
        fitcheck(&words).out
    };
    assert_eq!(left(&with("0")), [[3329.0, 2.0, 4.0], [3327.0, 0.0, 1.0]]);
    assert!(Value::parse(&with("0")).get("skills").list().is_empty());
    assert_eq!(left(&with("9")), [[0.0; 3]; 0]);
}

#[test]
fn a_refused_plan_writes_nothing_and_the_fit_is_not_overwritten() {
    let folder = folder("train_refused");
    let (catalogue, fit) = planned(&folder);
    let new = folder.join("new.bin").to_str().unwrap().to_string();
    for (types, image, result, refused) in [
        (&catalogue, &fit, "3", "refused by 8"),
        (&fit, &fit, "0", "refused by 1"),
        (&catalogue, &catalogue, "0", "refused by 4"),
    ] {
        let ran = fitcheck(&["train", types, image, "--result", result, "-o", &new]);
        assert_eq!((ran.status, ran.out.as_str()), (1, ""));
        assert!(ran.err.contains(refused), "{}", ran.err);
        assert!(!Path::new(&new).exists());
    }
    // 1,024 listed skills and one more.
    let mut crowded = FitBuilder::new(587);
    for id in 0..1_024 {
        crowded.skill(id, 1);
    }
    crowded.ship(ItemResult::default().with(182, 3329.0).with(277, 1.0));
    let crowded = put(&folder, "crowded.bin", &crowded.build().unwrap());
    let ran = fitcheck(&[
        "train", &catalogue, &crowded, "--result", "0", "--steps", "0", "--json",
    ]);
    assert_eq!(ran.status, 1);
    let refusal = Refusal::ListedSkills;
    assert_eq!(
        ran.err,
        format!("fitcheck: {crowded}: refused by 16: {refusal}\n")
    );
    let number = Value::parse(&ran.out).get("refusal").get("number").number();
    assert_eq!(number, 16.0);

    let before = [fs::read(&fit).unwrap(), fs::read(&catalogue).unwrap()];
    // The same file under another path, and behind a link.
    let around = |path: &str| {
        let path = Path::new(path);
        let name = path.file_name().unwrap();
        path.parent().unwrap().join(".").join(name)
    };
    let link = Path::new(&folder).join("link.fit");
    std::os::unix::fs::symlink(&fit, &link).unwrap();
    let others = [around(&fit), around(&catalogue), link];
    let others = others.map(|path| path.to_str().unwrap().to_string());
    for read in [&fit, &catalogue].into_iter().chain(&others) {
        let ran = fitcheck(&["train", &catalogue, &fit, "--result", "0", "-o", read]);
        assert_eq!((ran.status, ran.out.as_str()), (1, ""), "{read}");
        assert!(ran.err.contains("it is read, so it is not written"));
    }
    let after = [fs::read(&fit).unwrap(), fs::read(&catalogue).unwrap()];
    assert_eq!(after, before);
}

#[test]
fn names_that_a_plan_would_need_are_said_to_be_missing() {
    let folder = folder("train_names");
    let (_, fit) = planned(&folder);
    let some = CatalogueBuilder::new()
        .name(Attribute::RequiredSkill1, 182)
        .name(Attribute::RequiredSkill1Level, 277)
        .build()
        .unwrap();
    let some = put(&folder, "some.bin", &some);
    let ran = fitcheck(&["train", &some, &fit, "--result", "0"]);
    assert_eq!(ran.status, 0);
    assert_eq!(
        ran.err,
        format!(
            "fitcheck: {some}: warning: the catalogue has no id for 10 of 88 attribute names, so \
             these are not checked: required skills (second, third, fourth, fifth, sixth)\n"
        )
    );
}

/// A catalogue with two hulls, a module and a skill that it asks for, and a fit with
/// the first hull and the module.
fn trimmable(folder: &Path) -> (String, String) {
    let names = [
        (Attribute::RequiredSkill1, 182),
        (Attribute::RequiredSkill1Level, 277),
    ];
    let catalogue = whole(&names)
        .type_info(587, 25, 6, None)
        .type_info(588, 25, 6, None)
        .type_info(2048, 60, 7, Some(5.0))
        .type_info(3394, 255, 16, None)
        .link(588, 12)
        .link(2048, 11)
        .base(588, 182, 3301.0)
        .base(2048, 182, 3394.0)
        .base(3301, 182, 3300.0)
        .base(3394, 277, 1.0)
        .build()
        .unwrap();
    let asking = ItemResult::new(State::Online)
        .with(182, 3394.0)
        .with(277, 2.0);
    let fit = FitBuilder::new(587)
        .item(FitItem::new(2048, Slot::Low(0)), asking)
        .build()
        .unwrap();
    (
        put(folder, "types.bin", &catalogue),
        put(folder, "fit.bin", &fit),
    )
}

#[test]
fn a_trim_says_what_it_saves_and_is_written() {
    let folder = folder("trim");
    let (catalogue, fit) = trimmable(&folder);
    let new = folder.join("phone.bin").to_str().unwrap().to_string();
    // A type of 20 bytes, a link of 8 and two base values of 16 go.
    let before = fs::read(&catalogue).unwrap().len();
    let (saved, now) = (20 + 8 + 2 * 16, before - (20 + 8 + 2 * 16));
    let said = format!(
        "{now} bytes of {before}: {saved} are saved, {} %\n  \
         all names and effects, 3 of 4 types, 1 of 2 links, 2 of 4 base values\n",
        100 * saved / before
    );
    let ran = fitcheck(&["trim", &catalogue, &fit]);
    assert_eq!((ran.status, ran.out, &*ran.err), (0, said.clone(), ""));

    let ran = fitcheck(&["trim", &catalogue, &fit, "-o", &new]);
    let written = format!("{said}{new}: {now} bytes\n");
    assert_eq!((ran.status, ran.out, &*ran.err), (0, written, ""));
    assert_eq!(fs::read(&new).unwrap().len(), now);

    // The fit is explained in the same words under both.
    let explained = |catalogue: &str| officer(&["explain", catalogue, &fit]);
    let (whole, small) = (explained(&catalogue), explained(&new));
    assert_eq!((whole.status, whole.out), (small.status, small.out));

    let again = folder.join("again.bin").to_str().unwrap().to_string();
    let bytes = fs::read(&new).unwrap();
    let ran = piped(&["trim", "-", &fit, "-o", &again], &bytes);
    let nothing = format!("{now} bytes of {now}: nothing is saved: the fit touches all of it\n");
    assert!(ran.out.starts_with(&nothing), "{}", ran.out);
    assert_eq!(fs::read(&again).unwrap(), bytes);
}

#[test]
fn a_trim_in_json() {
    let folder = folder("trim_json");
    let (catalogue, fit) = trimmable(&folder);
    let ran = fitcheck(&["trim", &catalogue, &fit, "--json"]);
    assert_eq!((ran.status, &*ran.err), (0, ""));
    let value = Value::parse(&ran.out);
    assert_eq!(value.get("status").text(), "trimmed");
    assert_eq!(value.get("bytes_saved").number(), 60.0);
    assert_eq!(value.get("types").get("now").number(), 3.0);
    assert_eq!(value.get("types").get("before").number(), 4.0);
}

#[test]
fn a_refused_trim_writes_nothing_and_no_file_that_is_read_is_overwritten() {
    let folder = folder("trim_refused");
    let (catalogue, fit) = trimmable(&folder);
    let new = folder.join("phone.bin").to_str().unwrap().to_string();
    // The second item asks for a chain of 513 skills.
    let mut long = CatalogueBuilder::new();
    long.name(Attribute::RequiredSkill1, 182)
        .name(Attribute::RequiredSkill1Level, 277);
    for skill in 1..513 {
        long.base(skill, 182, f64::from(skill) + 1.0);
    }
    let long = put(&folder, "long.bin", &long.build().unwrap());
    let mut asking = FitBuilder::new(587);
    for skill in [513.0, 1.0] {
        let result = ItemResult::new(State::Online).with(182, skill);
        asking.item(FitItem::new(2048, Slot::Low(0)), result);
    }
    let asking = put(&folder, "asking.bin", &asking.build().unwrap());
    for (types, image, blamed, number) in [
        (&fit, &fit, &fit, 1),
        (&catalogue, &catalogue, &catalogue, 4),
        (&long, &asking, &asking, 9),
    ] {
        let ran = fitcheck(&["trim", types, image, "-o", &new, "--json"]);
        assert_eq!(ran.status, 1);
        let said = format!("fitcheck: {blamed}: refused by {number}: ");
        assert!(ran.err.starts_with(&said), "{}", ran.err);
        let refusal = Value::parse(&ran.out).get("refusal").get("number").number();
        assert_eq!(refusal, f64::from(number));
        assert!(!Path::new(&new).exists());
    }
    // A second name of the same file is no other file.
    let second = folder.join("second.bin").to_str().unwrap().to_string();
    fs::hard_link(&catalogue, &second).unwrap();
    for read in [&catalogue, &fit, &second] {
        let before = fs::read(read).unwrap();
        let ran = fitcheck(&["trim", &catalogue, &fit, "-o", read]);
        assert_eq!((ran.status, ran.out.as_str()), (1, ""));
        assert!(ran.err.contains("it is read, so it is not written"));
        assert_eq!(fs::read(read).unwrap(), before);
    }
    // Nor is what standard input is read from.
    let before = fs::read(&catalogue).unwrap();
    let ran = Command::new(env!("CARGO_BIN_EXE_fitcheck"))
        .args(["trim", "-", &fit, "-o", &catalogue])
        .stdin(fs::File::open(&catalogue).unwrap())
        .output()
        .unwrap();
    assert_eq!(ran.status.code(), Some(1));
    let said = String::from_utf8(ran.stderr).unwrap();
    assert!(said.contains("it is read, so it is not written"), "{said}");
    assert_eq!(fs::read(&catalogue).unwrap(), before);
}

/// A hull with room for three turrets and for a volume of 2, five turrets and a plate
/// between them, three stacks of cargo whose volume it is, a mode and a listed skill that
/// are none; CPU is used up.
fn crowded(folder: &Path, volume: f32) -> (String, String) {
    let names = [
        (Attribute::CpuLoad, 49),
        (Attribute::CpuOutput, 48),
        (Attribute::Capacity, 38),
        (Attribute::HiSlots, 14),
        (Attribute::TurretSlotsLeft, 102),
    ];
    let catalogue = whole(&names)
        .type_info(587, 25, 6, None)
        .type_info(484, 55, 7, Some(5.0))
        .type_info(2048, 60, 7, Some(5.0))
        .type_info(34, 18, 4, Some(volume))
        .link(484, Mark::TurretFitted.number().into())
        .build()
        .unwrap();
    let online = || ItemResult::new(State::Online);
    let ship = online()
        .with(49, 2.0)
        .with(48, 1.0)
        .with(38, 2.0)
        .with(14, 8.0)
        .with(102, 3.0);
    let mut fit = FitBuilder::new(587);
    fit.ship(ship).mode(2048).skill(34, 1);
    for slot in 0..6 {
        let type_id = if slot == 2 { 2048 } else { 484 };
        fit.item(FitItem::new(type_id, Slot::High(slot)), online());
    }
    for quantity in [1, 4, 2] {
        let stack = FitItem::new(34, Slot::Cargo).quantity(quantity);
        fit.item(stack, online());
    }
    (
        put(folder, "types.bin", &catalogue),
        put(folder, "fit.bin", &fit.build().unwrap()),
    )
}

#[test]
fn each_entry_names_the_items_that_make_it() {
    let folder = folder("why");
    let (catalogue, fit) = crowded(&folder, 1.0);
    let names = put(
        &folder,
        "names.txt",
        b"587 Rifter\n484 125mm Gatling AutoCannon I\n34 Tritanium\n",
    );
    let asked = ["explain", &catalogue, &fit, "--names", &names];
    let ran = officer(&[&asked[..], &["--why"]].concat());
    assert_eq!((ran.status, &*ran.err), (3, ""));
    let skills = "skills: none is lacking\n";
    assert_eq!(
        ran.out,
        format!(
            "faulted: 5 entries\n  \
             type 2048 is set as the mode and is not a tactical mode\n    \
             of no item: it is the mode\n  \
             Tritanium is listed as a skill and is not one\n    \
             of no item: it is the list of skills\n  \
             CPU: 2 of 1 used\n    \
             of no single item: it is what the ship comes to as a whole\n  \
             Cargo bay: 7 of 2 used\n    \
             shown by Tritanium (item 7)\n  \
             Turret hardpoints: 5 of 3 used\n    \
             shown by 125mm Gatling AutoCannon I (items 0, 1, 3, 4)\n\
             {skills}"
        )
    );
    // Without one of these the entry is gone; without the others it stays.
    let plain = officer(&asked);
    assert!(plain.out.contains("Turret hardpoints: 5 of 3 used\n"));
    assert!(!plain.out.contains("shown by"));
}

#[test]
fn an_entry_about_an_item_says_so() {
    let folder = folder("why_item");
    let (catalogue, fit) = faulted();
    let (catalogue, fit) = (
        put(&folder, "types.bin", &catalogue),
        put(&folder, "fit.bin", &fit),
    );
    let ran = officer(&["explain", &catalogue, &fit, "--why"]);
    let shares = |item: usize, other: usize| {
        format!(
            "  item {item} (type 2048) shares Low slot 1 with item {other} (type 2048)\n    \
             shown by type 2048 (items 0, 1)\n"
        )
    };
    assert!(ran.out.contains(&shares(0, 1)), "{}", ran.out);
    assert!(ran.out.contains(&shares(1, 0)), "{}", ran.out);

    let alone = CatalogueBuilder::new()
        .type_info(587, 25, 6, None)
        .build()
        .unwrap();
    let alone = put(&folder, "alone.bin", &alone);
    let ran = officer(&["explain", &alone, &fit, "--why"]);
    assert!(
        ran.out.contains("\n    shown by the item alone\n"),
        "{}",
        ran.out
    );
}

#[test]
fn what_nothing_is_too_much_for_has_no_item() {
    let folder = folder("why_nothing");
    let names = [(Attribute::Capacity, 38), (Attribute::MaxActiveDrones, 352)];
    let catalogue = whole(&names).type_info(587, 25, 6, None).build().unwrap();
    let fit = FitBuilder::new(587)
        .ship(ItemResult::new(State::Online).with(38, -1.0))
        .character(ItemResult::new(State::Online).with(352, -2.0))
        .build()
        .unwrap();
    let catalogue = put(&folder, "types.bin", &catalogue);
    let fit = put(&folder, "fit.bin", &fit);
    let ran = officer(&["explain", &catalogue, &fit, "--why"]);
    let drones = "of no item: fewer than none may be launched";
    let cargo = "of no item: there is less than no room, even with nothing in it";
    assert_eq!(
        ran.out,
        format!(
            "faulted: 2 entries\n  Launched drones: 0 of -2 used\n    {drones}\n  \
             Cargo bay: 0 of -1 used\n    {cargo}\nskills: none is lacking\n"
        )
    );
    let bare = CatalogueBuilder::new().build().unwrap();
    let bare = put(&folder, "bare.bin", &bare);
    let ran = officer(&["explain", &bare, &fit, "--why"]);
    let ship = "\n    of no item: it is the ship itself\n";
    assert!(ran.out.contains(ship), "{}", ran.out);
}

#[test]
fn a_bad_volume_says_which_item_it_is_of() {
    let folder = folder("why_volume");
    let (catalogue, fit) = crowded(&folder, -1.0);
    let ran = officer(&["explain", &catalogue, &fit, "--why"]);
    assert_eq!((ran.status, &*ran.err), (3, ""));
    let why = "\n  which items make each entry is not told: refused by 15: item 6 (type 34) is in Cargo \
               and has a volume of -1, and volumes there have to be finite and not below 0\n";
    assert!(ran.out.contains(why), "{}", ran.out);
    assert!(ran.out.contains("  Turret hardpoints: 5 of 3 used\n"));

    let ran = officer(&["explain", &catalogue, &fit, "--why", "--json"]);
    let value = Value::parse(&ran.out);
    let causes = value.get("causes");
    assert_eq!(causes.get("number").number(), 15.0);
    assert_eq!(causes.get("item").number(), 6.0);
    assert_eq!(causes.get("volume").number(), -1.0);
    for entry in value.get("entries").list() {
        assert_eq!(entry.names(), ["target", "rule", "sentence"]);
    }
}

/// In JSON a volume is as long as in the sentence, and is the same f32.
#[test]
fn a_bad_volume_in_json_is_the_one_of_its_sentence() {
    let folder = folder("why_volume_json");
    for volume in [-0.01, -0.1, -1e-30, -1.5e30, f32::MIN, -f32::from_bits(1)] {
        let (catalogue, fit) = crowded(&folder, volume);
        let ran = officer(&["explain", &catalogue, &fit, "--why", "--json"]);
        let value = Value::parse(&ran.out);
        let number = value.get("causes").get("volume").number();
        assert_eq!((number as f32).to_bits(), volume.to_bits());
        assert_eq!(number.to_string(), volume.to_string());
    }
    for (volume, word) in [
        (f32::NAN, "NaN"),
        (f32::INFINITY, "Infinity"),
        (f32::NEG_INFINITY, "-Infinity"),
    ] {
        let (catalogue, fit) = crowded(&folder, volume);
        let ran = officer(&["explain", &catalogue, &fit, "--why", "--json"]);
        let said = format!("\"volume\":\"{word}\"");
        assert!(ran.out.contains(&said), "{}", ran.out);
    }
}

#[test]
fn what_makes_an_entry_in_json() {
    let folder = folder("why_json");
    let (catalogue, fit) = crowded(&folder, 1.0);
    let ran = officer(&["explain", &catalogue, &fit, "--why", "--json"]);
    assert_eq!((ran.status, &*ran.err), (3, ""));
    let value = Value::parse(&ran.out);
    let items: Vec<Vec<f64>> = value
        .get("entries")
        .list()
        .iter()
        .map(|entry| {
            let items = entry.get("items").list().iter();
            items.map(Value::number).collect()
        })
        .collect();
    let none = Vec::new;
    assert_eq!(
        items,
        [none(), none(), none(), vec![7.0], vec![0.0, 1.0, 3.0, 4.0]]
    );
}

#[test]
fn a_refused_fit_is_refused_with_why_too() {
    let folder = folder("why_refused");
    let (catalogue, fit) = crowded(&folder, 1.0);
    for (types, image, blamed, number) in [
        (&fit, &fit, &fit, 1),
        (&catalogue, &catalogue, &catalogue, 4),
    ] {
        let ran = officer(&["explain", types, image, "--why", "--json"]);
        assert_eq!(ran.status, 1);
        let said = format!("fitcheck: {blamed}: refused by {number}: ");
        assert!(ran.err.starts_with(&said), "{}", ran.err);
    }
    let ran = officer(&["explain", &catalogue, &fit, "--why", "--pairs", "8"]);
    assert_eq!((ran.status, &*ran.out), (1, ""));
    assert!(ran.err.contains("refused by 13: "), "{}", ran.err);
}

/// A catalogue with a hull and a module of group 464, and a fit with one.
fn miner(folder: &Path) -> (String, String) {
    let catalogue = whole(&[])
        .type_info(17478, 463, 6, None)
        .type_info(17482, 464, 7, None)
        .build()
        .unwrap();
    let fit = FitBuilder::new(17478)
        .ship(ItemResult::new(State::Online).with(100_022, 8.0))
        .item(
            FitItem::new(17482, Slot::High(0)),
            ItemResult::new(State::Online),
        )
        .build()
        .unwrap();
    (
        put(folder, "types.bin", &catalogue),
        put(folder, "fit.bin", &fit),
    )
}

#[test]
fn a_league_in_words_is_packed_and_asked() {
    let folder = folder("league");
    let (types, fit) = miner(&folder);
    let names = put(&folder, "names.txt", b"group 464 Strip Miner\n");
    let words = put(
        &folder,
        "league.txt",
        b"ban Strip Miner # no mining\nprice 5 60\n",
    );
    let image = folder.join("league.bin").to_str().unwrap().to_string();
    let ran = fitcheck(&["profile", &words, &image, "--names", &names]);
    assert_eq!((ran.status, ran.err.as_str()), (0, ""));
    assert_eq!(ran.out, format!("{image}: 20 bytes\n"));
    let profile = Profile::from_bytes(&fs::read(&image).unwrap()).unwrap();
    assert_eq!(profile.to_string(), "price 5 60\nban 464\n");

    let league = ["--profile", &image, "--allowance", "0"];
    let plain = officer(&["explain", &types, &fit, "--json"]);
    let entries = |ran: &Ran| Value::parse(&ran.out).get("entries").list().len();
    let without = entries(&plain);
    let ran = officer(&[&["explain", &types, &fit, "--names", &names], &league[..]].concat());
    assert_eq!(ran.status, 3);
    assert!(
        ran.out
            .contains("Strip Miner (group 464) is banned: item 0"),
        "{}",
        ran.out
    );
    let ran = officer(&[&["explain", &types, &fit, "--json"], &league[..]].concat());
    assert_eq!(entries(&ran), without + 1);
    let value = Value::parse(&ran.out);
    let rule = value.get("entries").list()[without].get("rule");
    assert_eq!(rule.names(), ["type", "group_id"]);
}

#[test]
fn a_bad_profile_is_refused_and_named() {
    let folder = folder("bad_league");
    let (types, fit) = miner(&folder);
    let asked = |image: &str| {
        officer(&[
            "explain",
            &types,
            &fit,
            "--profile",
            image,
            "--allowance",
            "5",
        ])
    };
    let words =
        |words: &[u32]| -> Vec<u8> { words.iter().flat_map(|it| it.to_le_bytes()).collect() };
    for (bytes, number) in [
        (vec![0; 3], 11),
        (words(&[2, 1, 1, 0, 0]), 12),
        (words(&[1, 1, 1_000_001]), 12),
    ] {
        let image = put(&folder, "league.bin", &bytes);
        let ran = asked(&image);
        assert_eq!((ran.status, ran.out.as_str()), (1, ""));
        let refused = format!("fitcheck: {image}: refused by {number}: the league profile");
        assert!(ran.err.starts_with(&refused), "{}", ran.err);
    }
    let empty = put(&folder, "empty.bin", b"");
    let ran = asked(&empty);
    let said = format!("fitcheck: {empty}: it is empty, and so no profile\n");
    assert_eq!((ran.status, ran.err), (1, said));
}

#[test]
fn a_wrong_line_of_a_league_is_named() {
    let folder = folder("league_lines");
    let image = folder.join("league.bin").to_str().unwrap().to_string();
    for (words, wrong) in [
        ("ban", "line 1: no group is called ``: ban"),
        (
            "ban Strip Miner",
            "line 1: no group is called `Strip Miner`: ban Strip Miner",
        ),
        (
            "ban 5\nprice 1 5",
            "line 2: group 5 stands twice: price 1 5",
        ),
        (
            "price 1000001 5",
            "line 1: group 5 costs 1000001 points: the most is 1000000: price 1000001 5",
        ),
        ("price 5", "line 1: not `price POINTS GROUP`: price 5"),
        (
            "free 5",
            "line 1: neither `ban GROUP` nor `price POINTS GROUP`: free 5",
        ),
    ] {
        let path = put(&folder, "league.txt", words.as_bytes());
        let ran = fitcheck(&["profile", &path, &image]);
        assert_eq!(
            (ran.status, ran.err),
            (1, format!("fitcheck: {path}: {wrong}\n"))
        );
    }
    let path = put(&folder, "league.txt", b"ban 5");
    let ran = fitcheck(&["profile", &path, &path]);
    assert_eq!(ran.status, 1);
    assert!(
        ran.err.contains("it is read, so it is not written"),
        "{}",
        ran.err
    );
}

#[test]
fn a_fix_names_what_to_take_off() {
    let folder = folder("fix");
    let names = [(Attribute::LowSlots, 12), (Attribute::MaxGroupFitted, 1544)];
    let catalogue = whole(&names)
        .type_info(587, 25, 6, None)
        .type_info(2048, 60, 7, Some(5.0))
        .build()
        .unwrap();
    let online = || ItemResult::new(State::Online);
    let mut fit = FitBuilder::new(587);
    fit.ship(online().with(12, 4.0));
    fit.item(FitItem::new(2048, Slot::Low(0)), online().with(1544, 1.0));
    for slot in 1..4 {
        fit.item(FitItem::new(2048, Slot::Low(slot)), online());
    }
    let catalogue = put(&folder, "types.bin", &catalogue);
    let fit = put(&folder, "fit.bin", &fit.build().unwrap());
    let said = |more: &[&str]| {
        let ran = officer(&[&["explain", &catalogue, &fit, "--fix"], more].concat());
        assert_eq!((ran.status, &*ran.err), (3, ""));
        let (_, fix) = ran
            .out
            .split_once("\nfix of slots and limits: ")
            .expect("a fix");
        fix.to_string()
    };
    let all = "take off item 0 (type 2048): one item, and less is not enough\n";
    assert_eq!(said(&[]), all);
    assert_eq!(said(&["--why"]), all);
    assert_eq!(
        said(&["--budget", "4"]),
        "take off type 2048 (items 1, 2, 3): 3 items, and none of them can be put back alone; \
         with others off instead, up to 2 fewer may do: more tries would tell\n"
    );
    assert_eq!(
        said(&["--budget", "0"]),
        "take off type 2048 (items 0, 1, 2, 3): 4 items, some of which may not have to go: more \
         tries would tell, and up to 4 fewer may do\n"
    );
    let ran = officer(&["explain", &catalogue, &fit, "--fix", "--json"]);
    let value = Value::parse(&ran.out);
    let fix = value.get("fix");
    assert_eq!(fix.get("tries").number(), 20.0);
    assert_eq!(fix.get("items").list().len(), 1);
    assert_eq!(fix.get("most_too_many").number(), 1.0);

    let clear = FitBuilder::new(587).build().unwrap();
    let clear = put(&folder, "clear.bin", &clear);
    let ran = officer(&["explain", &catalogue, &clear, "--fix"]);
    let nothing = "fix of slots and limits: take nothing off: no slot or part is listed as taken \
                   twice, and no group, type or rack as over its limit\n";
    assert_eq!(ran.status, 0);
    assert!(ran.out.ends_with(nothing), "{}", ran.out);
}

/// With more than 16 items no sets are tried but those that put back, so that none is left
/// to tell whether fewer would do.
#[test]
fn a_fix_of_many_items_promises_nothing_of_more_tries() {
    let folder = folder("fix-many");
    let names = [(Attribute::LowSlots, 12), (Attribute::MaxTypeFitted, 2431)];
    let catalogue = whole(&names)
        .type_info(587, 25, 6, None)
        .type_info(2048, 60, 7, Some(5.0))
        .type_info(4405, 645, 7, Some(5.0))
        .build()
        .unwrap();
    let online = || ItemResult::new(State::Online);
    let mut fit = FitBuilder::new(587);
    fit.ship(online().with(12, 4.0));
    // Of the first there may be one of its type alone.
    fit.item(FitItem::new(2048, Slot::Low(0)), online().with(2431, 1.0));
    fit.item(FitItem::new(2048, Slot::Low(1)), online());
    fit.item(FitItem::new(2048, Slot::Low(2)), online());
    for _ in 0..14 {
        fit.item(FitItem::new(4405, Slot::Cargo), online());
    }
    let catalogue = put(&folder, "types.bin", &catalogue);
    let fit = put(&folder, "fit.bin", &fit.build().unwrap());
    let ran = officer(&["explain", &catalogue, &fit, "--fix"]);
    assert!(
        ran.out.ends_with(
            "take off type 2048 (items 1, 2): 2 items, and none of them can be put back alone; \
             with others off instead, up to 1 fewer may do\n"
        ),
        "{}",
        ran.out
    );
}

#[test]
fn a_fix_says_where_the_ship_is_no_hull() {
    let folder = folder("fix-no-hull");
    let catalogue = whole(&[])
        .type_info(2048, 60, 7, Some(5.0))
        .build()
        .unwrap();
    let mut fit = FitBuilder::new(2048);
    for _ in 0..2 {
        let item = FitItem::new(2048, Slot::Low(0));
        fit.item(item, ItemResult::new(State::Online));
    }
    let catalogue = put(&folder, "types.bin", &catalogue);
    let fit = put(&folder, "fit.bin", &fit.build().unwrap());
    for (budget, expected) in [
        ("9", "take nothing off: "),
        (
            "0",
            "take off type 2048 (items 0, 1): but nothing has to go: ",
        ),
    ] {
        let ran = officer(&["explain", &catalogue, &fit, "--fix", "--budget", budget]);
        assert_eq!((ran.status, &*ran.err), (3, ""));
        let why = "the ship is no hull, so no rule looks at its items\n";
        let fix = format!("fix of slots and limits: {expected}{why}");
        assert!(ran.out.ends_with(&fix), "{}", ran.out);
    }
}
