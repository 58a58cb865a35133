//! Which items make an entry, by the crate, beside document 02: the original's list of a
//! fit that is rebuilt from them.

use compare::reference;
use fitcheck::{CausedReport, Explainer, Limits, ListOptions, Names, Reader, Refusal, WholeList};

use crate::common::{images, numbers};

#[test]
fn what_makes_each_entry_is_document_02s() {
    let (mut causes, mut refused, mut kept) = (0, 0, 0);
    for case in numbers(300) {
        let (catalogue, fits) = images(53, case);
        let Some(fit) = fits.first() else {
            continue;
        };
        let ours = WholeList::new(&catalogue, fit);
        let decoded = reference::Catalogue::decode(&catalogue)
            .and_then(|catalogue| Ok((catalogue, reference::Fit::decode(fit)?)));
        let (list, (types, decoded)) = match (ours, decoded) {
            (Ok(list), Ok(decoded)) => (list, decoded),
            (ours, decoded) => {
                let ours = ours.map(|_| ()).map_err(Refusal::number);
                let decoded = decoded.map(|_| ()).map_err(u32::from);
                assert_eq!(ours, decoded, "case {case}");
                continue;
            }
        };
        let expected = reference::officers_list(&types, &decoded).entries;
        assert_eq!(list.entries().len(), expected.len(), "case {case}");
        for (position, entry) in list.entries().enumerate().take(12) {
            let expected = reference::Cause::of(&types, &decoded, position as u32);
            match (entry.cause(), expected) {
                (Ok(ours), Ok(expected)) => {
                    let numbers = expected.numbers().into_iter();
                    let numbers: Vec<usize> = numbers.map(|number| number as usize).collect();
                    assert_eq!(ours.items(), numbers, "case {case}, position {position}");
                    assert_eq!(ours.entry().to_bytes()[..8], expected.entry[..8]);
                    assert_eq!(ours.fit_items().count(), numbers.len());
                    causes += 1;
                    kept += numbers.len();
                }
                (Err(ours), Err(15)) => {
                    // Which item it is, is told.
                    let Refusal::CargoVolume(Some(bad)) = ours else {
                        panic!("case {case}: {ours:?}");
                    };
                    let volume = types.volume(bad.type_id).expect("it has one");
                    assert_eq!(volume.to_bits(), bad.volume_bits, "case {case}");
                    assert!(reference::is_bad(bad.volume()));
                    refused += 1;
                }
                (ours, expected) => {
                    let ours = ours.map(|cause| cause.items().to_vec());
                    let expected = expected.map(|cause| cause.numbers());
                    panic!("case {case}, position {position}: {ours:?} and {expected:?}");
                }
            }
        }
    }
    assert!(
        causes > 2_000 && refused > 100 && kept > 1_000,
        "{causes} causes, {refused} refused, {kept} kept items"
    );
}

/// An entry of a guest's list stands elsewhere in the whole one.
#[test]
fn an_entry_of_another_list_is_found() {
    let (mut moved, mut absent) = (0, 0);
    for case in numbers(100) {
        let (catalogue, fits) = images(54, case);
        let Some(fit) = fits.first() else {
            continue;
        };
        let Ok(list) = WholeList::new(&catalogue, fit) else {
            continue;
        };
        let guests = fitcheck::list(&catalogue, fit, &ListOptions::new(Reader::Guest));
        for (place, entry) in guests.unwrap().iter().enumerate().take(20) {
            let found = list.find(entry).expect("an officer is told of it");
            assert_eq!(found.entry().to_bytes(), entry.to_bytes());
            let first = list
                .entries()
                .nth(place)
                .expect("no guest's list is longer");
            moved += usize::from(first.entry().to_bytes() != entry.to_bytes());
        }
        let banned = fitcheck::Entry {
            target: fitcheck::Target::Item { index: 0 },
            rule: fitcheck::Rule::Banned { group_id: 1 },
        };
        absent += usize::from(list.find(&banned).is_none());
    }
    assert!(
        moved > 100 && absent > 500,
        "{moved} moved, {absent} absent"
    );
}

/// A report's sentences are those without causes, and each has what makes it behind it.
#[test]
fn a_report_says_what_makes_each_entry() {
    let (mut said, mut refused) = (0, 0);
    let names = Names::default();
    for case in numbers(100) {
        let (catalogue, fits) = images(55, case);
        let Some(fit) = fits.first() else {
            continue;
        };
        let Ok(report) = CausedReport::new(&catalogue, fit, Limits::main()) else {
            continue;
        };
        let explainer = Explainer::new(fit, &names);
        let text = report.text(&explainer);
        match report.causes() {
            Ok(causes) => {
                assert_eq!(causes.len(), report.report().entries.len());
                for cause in causes {
                    let sentence = explainer.explain(&cause.entry());
                    let why = explainer.explain_cause(cause);
                    let both = format!("  {sentence}\n    {why}\n");
                    assert!(text.contains(&both), "case {case}: {both}");
                    said += 1;
                }
            }
            Err(refusal) => {
                assert_eq!(refusal.number(), 15);
                assert!(text.contains(&refusal.to_string()), "case {case}");
                refused += 1;
            }
        }
    }
    assert!(
        said > 2_000 && refused > 20,
        "{said} said, {refused} refused"
    );
}
