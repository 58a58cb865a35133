//! Readers: lists and skills for each of them beside the reference's, and what a
//! guest is told, in words and in JSON.

use compare::case::Case;
use compare::cases;
use compare::checker::{Checker, Terms};
use compare::model::Fit;
use compare::reference::{self, Original};
use fitcheck::{
    Entry, Explainer, Limits, ListOptions, Names, Reader, Refusal, Report, SkillOptions,
};

use crate::common::numbers;

/// The comparison's own reader.
fn of(reader: Reader) -> compare::reader::Reader {
    compare::reader::Reader(reader.number().into())
}

fn bytes(entries: &[Entry]) -> Vec<u8> {
    entries.iter().flat_map(Entry::to_bytes).collect()
}

/// What a call gives: its entries' bytes, or the refusal's number.
fn given(given: Result<Vec<Entry>, Refusal>) -> Result<Vec<u8>, u32> {
    let given = given.map(|entries| bytes(&entries));
    given.map_err(Refusal::number)
}

/// The same of the reference, with room for every list.
fn referred(call: impl FnOnce(&mut [u8]) -> u64) -> Result<Vec<u8>, u32> {
    let mut out = vec![0; 24 * fitcheck::MOST_ENTRIES];
    let word = call(&mut out);
    match word >> 32 {
        0 => Ok(out[..24 * word as usize].to_vec()),
        refusal => Err(refusal as u32),
    }
}

/// How many bytes of list a reader gets of a case, and how many of its skill
/// calls are refused by 20: both are the reference's.
fn held(case: &Case, reader: Reader) -> (Result<usize, u32>, usize) {
    let (catalogue, image) = (case.catalogue.image(), case.fits[0].image());
    let (profile, allowance) = (case.league.image(), case.league.allowance);
    let terms = Terms {
        reader: of(reader),
        profile: &profile,
        allowance,
        limits: case.limits,
    };
    let limits = Limits::main()
        .pairs(case.limits.pairs)
        .skills(case.limits.skills);
    let options = ListOptions::new(reader)
        .league(&profile, allowance)
        .limits(limits);
    let list = given(fitcheck::list(&catalogue, &image, &options));
    let expected = referred(|out| Original.list(&catalogue, &image, terms, out));
    assert!(list == expected, "the list for a {reader}");
    let options = SkillOptions::new(reader).limits(limits);
    let mut refused = 0;
    for result in [0, 1, 2] {
        let skills = given(fitcheck::skills(&catalogue, &image, result, &options));
        let expected = referred(|out| Original.skill(&catalogue, &image, result, terms, out));
        assert!(skills == expected, "skills of {result} for a {reader}");
        refused += usize::from(skills == Err(20));
    }
    (list.map(|list| list.len()), refused)
}

#[test]
fn lists_and_skills_are_the_references_for_each_reader() {
    let (mut lists, mut omitting, mut refused) = (0, 0, 0);
    for number in numbers(500) {
        let case = cases::case(29, number);
        if case.fits.is_empty() {
            continue;
        }
        let [guest, pilot, officer] =
            [Reader::Guest, Reader::Pilot, Reader::Officer].map(|reader| held(&case, reader));
        assert_eq!(pilot, officer, "case {number}");
        assert_eq!((guest.1, pilot.1), (3, 0), "case {number}");
        lists += usize::from(pilot.0.is_ok());
        omitting += usize::from(guest.0 < pilot.0);
        refused += guest.1;
    }
    assert!(lists > 700, "{lists} lists");
    assert!(
        omitting > 60,
        "{omitting} lists that a guest does not get whole"
    );
    assert!(
        refused > 3_000,
        "{refused} skill calls that a guest does not get"
    );
}

/// All that a report has to say, in words and in JSON.
fn said(catalogue: &[u8], fit: &Fit, reader: Reader) -> Option<(String, String)> {
    let image = fit.image();
    let report = Report::new(catalogue, &image, &ListOptions::new(reader)).ok()?;
    let names = Names::new();
    let explainer = Explainer::new(&image, &names);
    Some((report.text(&explainer), report.json(&explainer).to_string()))
}

/// Two fits that differ in their training alone: a guest's report is the same,
/// word by word.
#[test]
fn a_guests_report_says_nothing_of_the_training() {
    let (mut same, mut unlike) = (0, 0);
    for number in numbers(400) {
        let case = cases::case(31, number);
        let Some(own) = case.fits.first() else {
            continue;
        };
        let other = case.retrained();
        let are_fits = [own, &other].map(|fit| reference::Fit::decode(&fit.image()).is_ok());
        if are_fits != [true, true] || own.damage != Default::default() {
            continue;
        }
        let catalogue = case.catalogue.image();
        let both = |reader| [own, &other].map(|fit| said(&catalogue, fit, reader));
        let [first, second] = both(Reader::Guest);
        assert!(first == second, "case {number}");
        same += usize::from(first.is_some());
        let [first, second] = both(Reader::Pilot);
        unlike += usize::from(first != second);
    }
    assert!(same > 300, "{same} reports");
    assert!(unlike > 100, "{unlike} that a pilot tells apart");
}

#[test]
fn a_guest_is_never_told_that_a_fit_is_clear() {
    let mut catalogue = fitcheck::CatalogueBuilder::new();
    let catalogue = catalogue.type_info(587, 25, 6, None).build().unwrap();
    let clear = fitcheck::FitBuilder::new(587).build().unwrap();
    let faulted = fitcheck::FitBuilder::new(587)
        .skill(2889, 5)
        .build()
        .unwrap();
    let report = |fit, reader| Report::new(&catalogue, fit, &ListOptions::new(reader)).unwrap();
    for reader in [Reader::Pilot, Reader::Officer] {
        assert!(report(&clear, reader).is_clear());
        assert!(report(&faulted, reader).is_faulted());
    }
    for fit in [&clear, &faulted] {
        let report = report(fit, Reader::Guest);
        assert!(!report.is_clear() && !report.is_faulted());
        assert_eq!(report.skills, vec![Err(Refusal::GuestSkills); 2]);
        let names = Names::new();
        let explainer = Explainer::new(fit, &names);
        assert_eq!(
            report.text(&explainer),
            "nothing listed: no rule is broken that a guest may see\nskills: not for a guest\n"
        );
        let json = report.json(&explainer).to_string();
        assert!(json.starts_with("{\"version\":2,\"status\":\"nothing_listed\","));
    }
    // The hall is the officer's.
    let hall = fitcheck::hall(&catalogue, &[&clear, &faulted]).unwrap();
    assert_eq!((hall.clear, hall.faulted), (1, 1));
}

/// A guest's refusal changes no byte, and his list needs no more room than it
/// has.
#[test]
fn a_guests_calls_into_a_buffer() {
    let mut catalogue = fitcheck::CatalogueBuilder::new();
    let catalogue = catalogue.type_info(587, 25, 6, None).build().unwrap();
    let mut fit = fitcheck::FitBuilder::new(587);
    let fit = fit.skill(2889, 5).mode(2889).build().unwrap();
    let guest = ListOptions::new(Reader::Guest);
    let mut buffer = [7; 24];
    let entries = fitcheck::list_into(&catalogue, &fit, &guest, &mut buffer).unwrap();
    assert_eq!(entries.len(), 1);
    assert_eq!(entries[0][1], 20, "NotAMode");
    let mut buffer = [7; 47];
    let officer = ListOptions::new(Reader::Officer);
    let refused = fitcheck::list_into(&catalogue, &fit, &officer, &mut buffer);
    assert_eq!(refused, Err(Refusal::BufferLength));
    let skills = SkillOptions::new(Reader::Guest);
    let refused = fitcheck::skills_into(&[], &[], 9, &skills, &mut buffer);
    assert_eq!(refused, Err(Refusal::GuestSkills));
    assert_eq!(buffer, [7; 47]);
}
