//! Old catalogues widened by the crate, beside document 02 in plain code; and
//! what is listed under them, beside the original on the old ones.

use compare::model::Catalogue;
use compare::page::Limits;
use compare::reference;
use fitcheck::{ListOptions, Reader, Refusal, SkillOptions};

use crate::common::{models, numbers};

/// The entries as the library writes them.
fn bytes(entries: Result<Vec<fitcheck::Entry>, Refusal>) -> Result<Vec<[u8; 24]>, u32> {
    let entries = entries.map_err(Refusal::number)?;
    Ok(entries.iter().map(fitcheck::Entry::to_bytes).collect())
}

#[test]
fn a_widened_catalogue_is_document_02s_and_lists_what_the_old_one_did() {
    let (mut widened, mut refused, mut listed) = (0, 0, 0);
    for case in numbers(400) {
        let (catalogue, fits) = models(22, case);
        let Some(old) = catalogue.map(|model: Catalogue| model.old_image()) else {
            continue;
        };
        let new = match (fitcheck::widen(&old), reference::widen(&old)) {
            (Ok(new), Ok(expected)) => {
                assert!(new == expected, "case {case}");
                new
            }
            (given, expected) => {
                let given = given.map_err(|refusal| refusal.number());
                assert_eq!(given, expected.map_err(u32::from), "case {case}");
                refused += 1;
                continue;
            }
        };
        widened += 1;
        let decoded = reference::Catalogue::decode_old(&old);
        let (Ok(decoded), true) = (decoded, new.len() <= fitcheck::CATALOGUE_BYTES) else {
            continue;
        };
        for image in fits.iter().map(compare::model::Fit::image) {
            let Ok(fit) = reference::Fit::decode(&image) else {
                continue;
            };
            let before = reference::list(&decoded, &fit, &reference::League::default());
            if before.either_zero.is_some() {
                continue;
            }
            let ours = bytes(fitcheck::list(
                &new,
                &image,
                &ListOptions::new(Reader::Officer),
            ));
            assert_eq!(ours, Ok(before.entries), "case {case}");
            for result in 0..3 {
                let original = reference::skill(&decoded, &fit, result, Limits::MAIN);
                let original = original.map(|list| list.entries).map_err(u32::from);
                let ours =
                    fitcheck::skills(&new, &image, result, &SkillOptions::new(Reader::Officer));
                assert_eq!(bytes(ours), original, "case {case}, result {result}");
                listed += 1;
            }
        }
    }
    assert!(
        widened > 300 && refused > 20 && listed > 500,
        "{widened} widened, {refused} refused, {listed} skill lists"
    );
}

#[test]
fn the_longest_old_catalogue_is_widened_and_a_longer_one_refused() {
    // 1,398,099 bases and a name: 16,777,216 bytes.
    let mut old = Vec::new();
    old.extend(
        [1u32, 0, 0, 0, 1_398_099]
            .iter()
            .flat_map(|size| size.to_le_bytes()),
    );
    old.resize(fitcheck::CATALOGUE_BYTES, 0);
    let new = fitcheck::widen(&old).unwrap();
    assert_eq!(new.len(), old.len() + 4 * 1_398_099);
    let listed = fitcheck::list(&new, &[0; 36], &ListOptions::new(Reader::Officer));
    assert_eq!(listed, Err(Refusal::CatalogueLength));
    old.push(0);
    assert_eq!(fitcheck::widen(&old), Err(Refusal::CatalogueLength));
}
