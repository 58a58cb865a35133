//! Plans of training by the crate, beside document 02 step by step: the
//! original's `report` after each of them.

use compare::reference::{self, Missing, Plan};
use fitcheck::{FitImage, PlannedSkill, Refusal, TrainingPlan};

use crate::common::{images, numbers};

fn planned(missing: &Missing) -> PlannedSkill {
    PlannedSkill {
        type_id: missing.skill,
        from: missing.trained,
        to: missing.required,
    }
}

/// The steps that a plan is tried with, for so many missing levels.
fn tried(missing: u32) -> Vec<u32> {
    let around = [missing.saturating_sub(1), missing, missing + 1];
    [&[0, 1, 2, u32::MAX][..], &around].concat()
}

#[test]
fn a_plan_is_document_02s_and_leads_to_its_fits() {
    let (mut plans, mut refused, mut steps_made) = (0, 0, 0);
    for case in numbers(300) {
        let (catalogue, fits) = images(24, case);
        let Some(fit) = fits.first() else {
            continue;
        };
        let decoded = reference::Catalogue::decode(&catalogue);
        for result in 0..4 {
            let expected = decoded
                .as_ref()
                .map_err(|refusal| *refusal)
                .and_then(|catalogue| Plan::of(catalogue, fit, result));
            let ours = TrainingPlan::new(&catalogue, fit, result);
            let (ours, expected) = match (ours, expected) {
                (Ok(ours), Ok(expected)) => (ours, expected),
                (ours, expected) => {
                    let ours = ours.map(|_| ()).map_err(Refusal::number);
                    let expected = expected.map(|_| ()).map_err(u32::from);
                    assert_eq!(ours, expected, "case {case}, result {result}");
                    refused += 1;
                    continue;
                }
            };
            plans += 1;
            let first: Vec<PlannedSkill> = expected.first.iter().map(planned).collect();
            assert_eq!(ours.skills(), first, "case {case}, result {result}");
            assert_eq!(ours.levels_missing(), expected.missing());
            assert_eq!(ours.result(), result);
            for steps in tried(expected.missing()) {
                let trained = ours.train(steps).unwrap();
                assert_eq!(
                    trained.fit(),
                    expected.image(steps),
                    "case {case}, {steps} steps"
                );
                let made = steps.min(expected.missing());
                assert_eq!(trained.levels_raised(), made);
                assert_eq!(trained.levels_missing(), expected.missing() - made);
                let image = FitImage::new(trained.fit()).unwrap();
                for skill in trained.raised() {
                    assert_eq!(image.level(skill.type_id), Some(skill.to));
                }
                steps_made += made;
            }
        }
    }
    assert!(
        plans > 1_000 && refused > 300 && steps_made > 5_000,
        "{plans} plans, {refused} refused, {steps_made} steps"
    );
}
