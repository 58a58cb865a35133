//! Document 02's P11 on every checker: the fit that steps of training lead to.
//! Expected bytes are worked out from the documents.

use crate::common::checkers;
use compare::checker::refused;
use compare::model::{Fit, Skill};
use compare::names::REQUIRED;
use compare::sketch::{CATEGORY_MODULE, HIGH, Sketch};

/// What every checker writes of a sketch's fit after so many steps.
fn assert_trained(sketch: &Sketch, result: u32, steps: u32, expected: &Fit) {
    let sketch = sketch.clone().finish();
    let expected = expected.image();
    let (catalogue, fit) = (sketch.catalogue.image(), sketch.fit.image());
    for (name, checker) in checkers() {
        let mut out = vec![0xC3; expected.len() + 9];
        let word = checker.train(&catalogue, &fit, result, steps, &mut out);
        assert_eq!(word, expected.len() as u64, "{name}, {steps} steps");
        assert_eq!(out[..expected.len()], expected, "{name}, {steps} steps");
        assert_eq!(out[expected.len()..], [0xC3; 9], "{name}, {steps} steps");
    }
}

/// What every checker refuses, with a buffer of so many bytes.
fn assert_refused(sketch: &Sketch, asked: (u32, u32), room: usize, refusal: u8) {
    let sketch = sketch.clone().finish();
    let (catalogue, fit) = (sketch.catalogue.image(), sketch.fit.image());
    for (name, checker) in checkers() {
        let mut out = vec![0xC3; room];
        let word = checker.train(&catalogue, &fit, asked.0, asked.1, &mut out);
        assert_eq!(word, refused(refusal), "{name}, {asked:?}");
        assert!(out.iter().all(|byte| *byte == 0xC3), "{name}, {asked:?}");
    }
}

/// The fit of a sketch with these skills in the place of its own.
fn with_skills(sketch: &Sketch, skills: &[(i32, u8)]) -> Fit {
    let skill = |(id, level): &(i32, u8)| Skill {
        id: *id,
        level: *level,
    };
    Fit {
        skills: skills.iter().map(skill).collect(),
        ..sketch.clone().finish().fit
    }
}

/// Result 2 demands skill 7 at 3 and then skill 9 at 1; skill 7 demands skill 2
/// at 2. Skills 4 and 7 are listed.
fn three() -> Sketch {
    Sketch::hull()
        .item(5, HIGH, 0)
        .with(REQUIRED, 7.0)
        .with(REQUIRED + 1, 3.0)
        .with(REQUIRED + 2, 9.0)
        .with(REQUIRED + 3, 1.0)
        .base(7, REQUIRED, 2.0)
        .base(7, REQUIRED + 1, 2.0)
        .skill(4, 5)
        .skill(7, 1)
}

/// "Each step raises by one the trained level of the first entry in its skill
/// list, adding the skill at level 1 if its id wasn't listed."
#[test]
fn step_by_step_until_nothing_is_missing() {
    let sketch = three();
    let after: [&[(i32, u8)]; 6] = [
        &[(4, 5), (7, 1)],
        &[(4, 5), (7, 2)],
        &[(4, 5), (7, 3)],
        &[(4, 5), (7, 3), (9, 1)],
        &[(2, 1), (4, 5), (7, 3), (9, 1)],
        &[(2, 2), (4, 5), (7, 3), (9, 1)],
    ];
    for (steps, skills) in (0..).zip(after) {
        assert_trained(&sketch, 2, steps, &with_skills(&sketch, skills));
    }
    let all = with_skills(&sketch, after[5]);
    for steps in [6, 255, 256, 65_536, 1 << 24, 1 << 31, u32::MAX] {
        assert_trained(&sketch, 2, steps, &all);
    }
    // The ship and the character demand nothing.
    for result in [0, 1] {
        assert_trained(&sketch, result, 9, &with_skills(&sketch, after[0]));
    }
}

/// What is no skill and no level is copied: a NaN's payload, the sign of a zero,
/// an item without a result.
#[test]
fn all_else_stays_byte_for_byte() {
    let mut sketch = three().mode(33).unpaired(-3, HIGH, 9);
    let odd = [0x7FF0_0000_0000_0001, 0xFFFF_FFFF_FFFF_FFFF, 1 << 63];
    let values = (-5..).zip(odd);
    sketch.fit.ship.attributes.extend(values);
    let trained = [(2, 2), (4, 5), (7, 3), (9, 1)];
    assert_trained(&sketch, 2, u32::MAX, &with_skills(&sketch, &trained));
    assert_trained(&sketch, 2, 0, &sketch.clone().finish().fit);
}

#[test]
fn a_type_that_is_no_skill_is_trained_like_any_other() {
    let sketch = three()
        .known(9, 3, CATEGORY_MODULE)
        .known(2, 3, CATEGORY_MODULE);
    let trained = [(2, 2), (4, 5), (7, 3), (9, 1)];
    assert_trained(&sketch, 2, 5, &with_skills(&sketch, &trained));
}

#[test]
fn levels_go_up_to_255() {
    let sketch = Sketch::hull()
        .ship(REQUIRED, 7.0)
        .ship(REQUIRED + 1, 255.9)
        .skill(7, 253);
    for (steps, level) in [(0, 253), (1, 254), (2, 255), (3, 255), (u32::MAX, 255)] {
        assert_trained(&sketch, 0, steps, &with_skills(&sketch, &[(7, level)]));
    }
}

/// 10 is about the fit after the steps, and not about the one that was given.
#[test]
fn the_buffer_is_judged_by_the_fit_after_the_steps() {
    let sketch = three();
    let length = sketch.clone().finish().fit.image().len();
    for (steps, needed) in [
        (0, length),
        (2, length),
        (3, length + 5),
        (4, length + 10),
        (u32::MAX, length + 10),
    ] {
        for room in [0, needed - 1] {
            assert_refused(&sketch, (2, steps), room, 10);
        }
    }
}

#[test]
fn refusals_are_the_skill_calls() {
    let sketch = three();
    assert_refused(&sketch, (3, 1), 999, 8);
    assert_refused(&sketch, (u32::MAX, 0), 0, 8);
    let mut broken = sketch.clone();
    broken.fit.results[0].state = 4;
    assert_refused(&broken, (2, 1), 0, 6);
    assert_refused(&broken, (3, 1), 0, 6);
    let mut cut = sketch;
    cut.catalogue.damage.cut = 1;
    assert_refused(&cut, (3, 1), 0, 1);
}

/// So many listed skills, the last of them at level 0; the ship demands two that
/// are not listed and then that one, all at 1.
fn crowded(listed: i32) -> Sketch {
    let mut sketch = Sketch::hull();
    for (row, id) in [7, 8, 999 + listed].into_iter().enumerate() {
        sketch = sketch
            .ship(REQUIRED + 2 * row, id.into())
            .ship(REQUIRED + 2 * row + 1, 1.0);
    }
    let ids = 1_000..1_000 + listed;
    let level = |id: i32| u8::from(id < 999 + listed);
    ids.fold(sketch, |sketch, id| sketch.skill(id, level(id)))
}

/// "Refusal 16, after 9, is given when the first list's entries whose ids aren't
/// listed would carry the listed skills over 1,024": whatever the steps.
#[test]
fn sixteen_is_given_over_1024_skills_whatever_the_steps() {
    for (listed, is_full) in [(1_021, false), (1_022, false), (1_023, true), (1_024, true)] {
        let sketch = crowded(listed);
        let length = sketch.clone().finish().fit.image().len();
        for steps in [0, 1, 2, 3, u32::MAX] {
            if is_full {
                assert_refused(&sketch, (0, steps), length + 99, 16);
                assert_refused(&sketch, (0, steps), 0, 16);
                assert_refused(&sketch, (2, steps), length + 99, 8);
                continue;
            }
            let mut skills: Vec<(i32, u8)> = [(7, 1), (8, 1)][..steps.min(2) as usize].to_vec();
            let own = sketch.fit.skills.iter();
            skills.extend(own.map(|skill| (skill.id, skill.level)));
            if steps > 2 {
                skills.last_mut().expect("a skill").1 = 1;
            }
            assert_trained(&sketch, 0, steps, &with_skills(&sketch, &skills));
        }
        // The character lacks nothing, so nothing is added.
        assert_trained(&sketch, 1, 9, &sketch.clone().finish().fit);
    }
}

/// 9 comes before 16: a walk of 513 skills, and 1,024 that are listed.
#[test]
fn nine_comes_before_sixteen() {
    let mut sketch = Sketch::hull().ship(REQUIRED, 1.0).ship(REQUIRED + 1, 1.0);
    for id in 1..513 {
        sketch = sketch
            .base(id, REQUIRED, id as f32 + 1.0)
            .base(id, REQUIRED + 1, 1.0);
    }
    let full = (0..1_024).fold(sketch, |sketch, number| sketch.skill(9_000 + number, 1));
    assert_refused(&full, (0, 0), 0, 9);
    let mut shorter = full;
    shorter.catalogue.bases.pop();
    shorter.catalogue.bases.pop();
    assert_refused(&shorter, (0, 0), 0, 16);
}
