//! The section "Worked bytes".

use compare::case::REFUSALS;
use compare::checker::{Checker, ENTRY, Terms};
use compare::page::Limits;
use compare::reader::Reader;

use crate::common::checkers;
use crate::page::{behind, bytes, hex, table};

/// What the buffer has before a call.
const UNTOUCHED: u8 = 0xC3;

/// The page's images.
struct Images {
    catalogue: Vec<u8>,
    fit: Vec<u8>,
    hall: Vec<u8>,
    /// The catalogue in the old form.
    old: Vec<u8>,
    profile: Vec<u8>,
}

impl Images {
    fn of_the_page() -> Images {
        let catalogue = bytes("catalogue");
        Images {
            old: behind(catalogue[..188].to_vec(), "old"),
            catalogue,
            fit: bytes("fit"),
            hall: bytes("hall"),
            profile: bytes("profile"),
        }
    }

    fn named(&mut self, name: &str) -> &mut Vec<u8> {
        match name {
            "catalogue" => &mut self.catalogue,
            "fit" => &mut self.fit,
            "hall" => &mut self.hall,
            "old" => &mut self.old,
            "profile" => &mut self.profile,
            _ => panic!("no image `{name}`"),
        }
    }

    /// Changes as the page writes them: `fit cut by 1`, or `fit[65] = 04`.
    fn change(&mut self, change: &str) {
        if let Some((name, by)) = change.split_once(" cut by ") {
            let image = self.named(name);
            image.truncate(image.len() - by.parse::<usize>().unwrap());
            return;
        }
        let (place, put) = change.split_once(" = ").expect("a place and its bytes");
        let (name, place) = place.split_once('[').expect("a place in an image");
        let place: usize = place.strip_suffix(']').unwrap().parse().unwrap();
        let put = hex(put);
        let there = &mut self.named(name)[place..place + put.len()];
        assert_ne!(there, put, "`{change}` changes nothing");
        there.copy_from_slice(&put);
    }
}

/// The limits behind `under`, or the main page's, and the call before it.
fn limited(call: &str) -> (&str, Limits) {
    let Some((call, limits)) = call.split_once(" under ") else {
        return (call, Limits::MAIN);
    };
    let (pairs, skills) = limits.split_once(", ").expect("pairs and skills");
    let limits = Limits::of(pairs.parse().unwrap(), skills.parse().unwrap());
    (call, limits)
}

/// The reader behind `for`, or an officer, and the call before it.
fn read(call: &str) -> (&str, Reader) {
    match call.split_once(" for ") {
        Some((call, number)) => (call, Reader(number.parse().unwrap())),
        None => (call, Reader::OFFICER),
    }
}

/// A call as the page names it, `list`, `league 90` with the profile and this
/// allowance, `skill 2`, `train 2 by 3` with so many steps, `trim`, `cause 1`,
/// `leave_out 9`, `hall`
/// or `widen`, on a buffer.
fn called(checker: &dyn Checker, call: &str, images: &Images, out: &mut [u8]) -> u64 {
    let (call, limits) = limited(call);
    let (call, reader) = read(call);
    let terms = Terms {
        reader,
        limits,
        ..Terms::default()
    };
    match call.split_once(' ') {
        None if call == "list" => checker.list(&images.catalogue, &images.fit, terms, out),
        None if call == "hall" => checker.hall(&images.catalogue, &images.hall),
        None if call == "widen" => checker.widen(&images.old, out),
        None if call == "trim" => checker.trim(&images.catalogue, &images.fit, out),
        Some(("league", allowance)) => {
            let terms = Terms {
                profile: &images.profile,
                allowance: allowance.parse().unwrap(),
                ..terms
            };
            checker.list(&images.catalogue, &images.fit, terms, out)
        }
        Some(("skill", result)) => {
            let result = result.parse().unwrap();
            checker.skill(&images.catalogue, &images.fit, result, terms, out)
        }
        Some(("cause", position)) => {
            let position = position.parse().unwrap();
            checker.cause(&images.catalogue, &images.fit, position, out)
        }
        Some(("leave_out", budget)) => {
            let budget = budget.parse().unwrap();
            checker.leave_out(&images.catalogue, &images.fit, budget, out)
        }
        Some(("train", asked)) => {
            let (result, steps) = asked.split_once(" by ").expect("a result and steps");
            let (result, steps) = (result.parse().unwrap(), steps.parse().unwrap());
            checker.train(&images.catalogue, &images.fit, result, steps, out)
        }
        _ => panic!("no call `{call}`"),
    }
}

#[test]
fn the_entries_are_the_pages() {
    let images = Images::of_the_page();
    for call in ["list", "skill 2"] {
        let expected = bytes(call);
        for (name, checker) in checkers() {
            let mut out = vec![UNTOUCHED; expected.len() + ENTRY];
            let word = called(&*checker, call, &images, &mut out);
            assert_eq!(word, (expected.len() / ENTRY) as u64, "{name}, {call}");
            let (entries, behind) = out.split_at(expected.len());
            assert_eq!(entries, expected, "{name}, {call}");
            assert_eq!(behind, [UNTOUCHED; ENTRY], "{name}, {call}");
        }
    }
}

/// Behind the entries of the list stand those of the league.
#[test]
fn the_entries_of_the_league_are_the_pages() {
    let banned = "profile[12] = FF FF FF FF";
    let blocks = [
        ("league 90", "league 90", None),
        ("league 0", "league 0 banned", Some(banned)),
    ];
    for (call, block, changed) in blocks {
        let mut images = Images::of_the_page();
        if let Some(change) = changed {
            images.change(change);
        }
        let expected = behind(bytes("list"), block);
        for (name, checker) in checkers() {
            let mut out = vec![UNTOUCHED; expected.len() + ENTRY];
            let word = called(&*checker, call, &images, &mut out);
            assert_eq!(word, (expected.len() / ENTRY) as u64, "{name}, {block}");
            assert_eq!(out[..expected.len()], expected, "{name}, {block}");
        }
    }
}

/// A pair whose type is missing: the page's list, and nothing behind it.
#[test]
fn the_entries_of_a_missing_type_are_the_pages() {
    let mut images = Images::of_the_page();
    images.change("fit[33] = 01");
    let expected = bytes("list 2049");
    for (name, checker) in checkers() {
        let mut out = vec![UNTOUCHED; expected.len() + ENTRY];
        let word = called(&*checker, "list", &images, &mut out);
        assert_eq!(word, (expected.len() / ENTRY) as u64, "{name}");
        let (entries, behind) = out.split_at(expected.len());
        assert_eq!(entries, expected, "{name}");
        assert_eq!(behind, [UNTOUCHED; ENTRY], "{name}");
    }
}

#[test]
fn the_words_are_the_pages() {
    let rows = table("Worked bytes", "call");
    for row in &rows {
        let [call, lent, changed, word, _] = row[..] else {
            panic!("five cells: {row:?}");
        };
        let mut images = Images::of_the_page();
        let changes = changed.split(';').map(str::trim);
        changes
            .filter(|change| !change.is_empty())
            .for_each(|change| images.change(change));
        let word = u64::from_str_radix(word.strip_prefix("0x").unwrap(), 16).unwrap();
        let written = match call {
            "hall" => 0,
            "widen" | "trim" => word as u32 as usize,
            call if call.starts_with("train") => word as u32 as usize,
            call if call.starts_with("cause") => word as u32 as usize,
            call if call.starts_with("leave_out") => word as u32 as usize,
            _ => ENTRY * (word as u32 as usize),
        };
        for (name, checker) in checkers() {
            let mut out = vec![UNTOUCHED; lent.parse().unwrap_or(0)];
            assert_eq!(
                called(&*checker, call, &images, &mut out),
                word,
                "{name}: {row:?}"
            );
            assert!(
                out[written..].iter().all(|byte| *byte == UNTOUCHED),
                "{name}: {row:?} writes its entries alone"
            );
        }
    }
}

/// The front of the trained fit is the page's, and behind it stands the fit's.
#[test]
fn the_trained_fit_is_the_pages() {
    let images = Images::of_the_page();
    for (steps, block) in [(1, "trained 1"), (2, "trained 2"), (9, "trained 2")] {
        let mut expected = bytes(block);
        expected.extend(&images.fit[33..]);
        for (name, checker) in checkers() {
            let mut out = vec![UNTOUCHED; 200];
            let call = format!("train 2 by {steps}");
            let word = called(&*checker, &call, &images, &mut out);
            assert_eq!(word, expected.len() as u64, "{name}, {call}");
            let (trained, behind) = out.split_at(expected.len());
            assert_eq!(trained, expected, "{name}, {call}");
            assert!(behind.iter().all(|byte| *byte == UNTOUCHED), "{name}");
        }
    }
}

/// What is left where nothing wants Mechanics is the page's.
#[test]
fn the_trimmed_catalogue_is_the_pages() {
    let mut images = Images::of_the_page();
    for (change, is_whole) in [(None, true), (Some("catalogue[188] = B7"), false)] {
        change.into_iter().for_each(|change| images.change(change));
        let catalogue = &images.catalogue;
        let front = [bytes("trimmed"), catalogue[20..84].to_vec()].concat();
        let trimmed = [behind(front, "trimmed types"), catalogue[164..].to_vec()].concat();
        let expected = if is_whole { catalogue } else { &trimmed };
        for (name, checker) in checkers() {
            let mut out = vec![UNTOUCHED; 220];
            let word = called(&*checker, "trim", &images, &mut out);
            assert_eq!(word, expected.len() as u64, "{name}");
            let (written, behind) = out.split_at(expected.len());
            assert_eq!(written, expected, "{name}");
            assert!(behind.iter().all(|byte| *byte == UNTOUCHED), "{name}");
        }
    }
}

/// The pairs that make an entry are the page's.
#[test]
fn the_causes_are_the_pages() {
    let blocks = [("cause 1", None), ("cause 1 alone", Some("fit[53] = 00"))];
    for (block, changed) in blocks {
        let mut images = Images::of_the_page();
        changed.into_iter().for_each(|change| images.change(change));
        let expected = bytes(block);
        for (name, checker) in checkers() {
            let mut out = vec![UNTOUCHED; expected.len() + 4];
            let word = called(&*checker, "cause 1", &images, &mut out);
            assert_eq!(word, expected.len() as u64, "{name}, {block}");
            assert_eq!(out[..expected.len()], expected, "{name}, {block}");
            assert_eq!(out[expected.len()..], [UNTOUCHED; 4], "{name}, {block}");
        }
    }
}

/// The tries, the distance and the pairs to take off are the page's.
#[test]
fn what_to_leave_out_is_the_pages() {
    let images = Images::of_the_page();
    for budget in [0, 1, 9] {
        let call = format!("leave_out {budget}");
        let expected = bytes(&call);
        for (name, checker) in checkers() {
            let mut out = vec![UNTOUCHED; expected.len() + 4];
            let word = called(&*checker, &call, &images, &mut out);
            assert_eq!(word, expected.len() as u64, "{name}, {call}");
            assert_eq!(out[..expected.len()], expected, "{name}, {call}");
            assert_eq!(out[expected.len()..], [UNTOUCHED; 4], "{name}, {call}");
        }
    }
}

#[test]
fn the_old_catalogue_widens_to_the_pages() {
    let images = Images::of_the_page();
    assert_eq!(images.old.len(), 204);
    for (name, checker) in checkers() {
        let mut out = vec![UNTOUCHED; 220];
        assert_eq!(checker.widen(&images.old, &mut out), 212, "{name}");
        assert_eq!(out[..212], images.catalogue, "{name}");
        assert_eq!(out[212..], [UNTOUCHED; 8], "{name}");
    }
}

/// The row with a NaN says which bytes are written.
#[test]
fn a_nan_is_written_as_the_page_says() {
    let rows = table("Worked bytes", "call");
    let row = rows.iter().find(|row| row[4].starts_with("a NaN"));
    let row = row.expect("a row with a NaN");
    let mut images = Images::of_the_page();
    images.change(row[2]);
    let (_, written) = row[4].split_once("written as ").expect("the bytes");
    for (name, checker) in checkers() {
        let mut out = vec![UNTOUCHED; 212];
        checker.widen(&images.old, &mut out);
        assert_eq!(out[192..200], hex(written), "{name}");
        assert_eq!(out[200..], images.catalogue[200..], "{name}");
    }
}

/// Of the refusals' table, every number but 9 and 16 is given by some row; 7
/// stands in neither.
#[test]
fn every_refusal_but_9_and_16_is_shown() {
    let mut shown: Vec<u64> = table("Worked bytes", "call")
        .iter()
        .map(|row| u64::from_str_radix(row[3].strip_prefix("0x").unwrap(), 16).unwrap() >> 32)
        .filter(|refusal| *refusal != 0)
        .chain([9, 16])
        .collect();
    let mut numbers: Vec<u64> = table("Refusals in their order", "no.")
        .iter()
        .map(|row| row[0].parse().unwrap())
        .collect();
    for list in [&mut shown, &mut numbers] {
        list.sort_unstable();
        list.dedup();
    }
    assert_eq!(shown, numbers);
    let mut given = REFUSALS.map(u64::from);
    given.sort_unstable();
    assert_eq!(numbers, given);
}
