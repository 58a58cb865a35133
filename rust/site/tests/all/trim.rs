//! Trimmed catalogues by the crate, beside document 02 record by record; and what
//! is listed under them, beside the whole ones.

use compare::reference;
use fitcheck::{
    CatalogueImage, Explainer, FitImage, ListOptions, Names, Reader, Refusal, Report, SkillOptions,
    TrimmedCatalogue,
};

use crate::common::{images, numbers};

#[test]
fn a_trimmed_catalogue_is_document_02s_and_lists_what_the_whole_one_does() {
    let (mut trims, mut refused, mut saved) = (0, 0, 0);
    for case in numbers(300) {
        let (catalogue, fits) = images(31, case);
        let Some(fit) = fits.first() else {
            continue;
        };
        let ours = TrimmedCatalogue::new(&catalogue, fit);
        let (ours, expected) = match (ours, reference::trim(&catalogue, fit)) {
            (Ok(ours), Ok(expected)) => (ours, expected),
            (ours, expected) => {
                let ours = ours.map(|_| ()).map_err(Refusal::number);
                let expected = expected.map(|_| ()).map_err(u32::from);
                assert_eq!(ours, expected, "case {case}");
                refused += 1;
                continue;
            }
        };
        assert_eq!(ours.bytes(), expected, "case {case}");
        assert_eq!(ours.bytes_before(), catalogue.len());
        assert_eq!(ours.bytes_saved(), catalogue.len() - expected.len());
        let small = CatalogueImage::new(&expected).unwrap();
        let now = [ours.types().now, ours.links().now, ours.bases().now];
        assert_eq!(now, [small.types(), small.links(), small.bases()]);
        trims += 1;
        saved += ours.bytes_saved();
        same_lists(&catalogue, &ours, case);
        let again = TrimmedCatalogue::new(ours.bytes(), fit).unwrap();
        assert_eq!(again.bytes(), ours.bytes(), "case {case}");
        assert_eq!(again.bytes_saved(), 0);
    }
    assert!(
        trims > 700 && refused > 300 && saved > 100_000,
        "{trims} trims, {refused} refused, {saved} bytes saved"
    );
}

/// List, skills and report for every reader, under both.
fn same_lists(whole: &[u8], trimmed: &TrimmedCatalogue, case: u64) {
    let fit = trimmed.fit();
    let results = FitImage::new(fit).unwrap().results() as u32;
    let names = Names::default();
    let explainer = Explainer::new(fit, &names);
    for reader in [Reader::Guest, Reader::Pilot, Reader::Officer] {
        let options = ListOptions::new(reader);
        let listed = fitcheck::list(whole, fit, &options);
        assert_eq!(trimmed.list(&options), listed, "case {case}");
        let of_skills = SkillOptions::new(reader);
        for result in (0..results + 3).take(9) {
            let lacking = fitcheck::skills(whole, fit, result, &of_skills);
            assert_eq!(trimmed.skills(result, &of_skills), lacking, "case {case}");
        }
        if results < 9 {
            let said = |report: Report| report.json(&explainer);
            let report = Report::new(whole, fit, &options).map(said);
            let under = trimmed.report(&options).map(said);
            assert_eq!(
                under.map_err(Refusal::number),
                report.map_err(Refusal::number)
            );
        }
    }
}
