//! Document 02, P11: the fit after so many steps, byte by byte, and what is
//! promised of its skills: "the list is empty after exactly the sum of required
//! minus trained over the first list, and at no earlier step. No step adds an
//! entry to that list. A step on an empty list changes nothing."

use std::rc::Rc;

use super::shown::image_shown;
use super::{Shown, Stage, caught};
use crate::case::{Room, Steps};
use crate::checker::{Checker, ENTRY, Entry, Terms, in_words, refused};
use crate::guard::{Fill, Guarded};
use crate::reference::{self, Missing, Plan, Refusal};
use crate::tally::{Call, Tally, Training};
use crate::verdict::compare_bytes;

/// A result and how many steps it is trained.
type Asked = (u32, Steps);

/// What a training must give: the word, the fit, and the buffer's length.
struct Expected {
    steps: u32,
    word: u64,
    fit: Vec<u8>,
    length: usize,
}

impl Stage<'_> {
    /// What training the fit for a result comes to, or the refusal before 10.
    fn plan(&self, result: u32) -> Result<Rc<Plan>, Refusal> {
        let catalogue = self.source.catalogue.as_ref().map_err(|refusal| *refusal)?;
        let fit = self.fit();
        let made = || Plan::of(catalogue, &fit.held.image, result).map(Rc::new);
        let mut plans = fit.plans.borrow_mut();
        plans.entry(result).or_insert_with(made).clone()
    }

    fn expected_train(&self, (result, steps): Asked, room: Room) -> Expected {
        match self.plan(result) {
            Ok(plan) => {
                let steps = steps.number(plan.missing());
                let fit = plan.image(steps);
                let length = room.length(fit.len());
                let has_room = length >= fit.len();
                Expected {
                    steps,
                    word: if has_room {
                        fit.len() as u64
                    } else {
                        refused(10)
                    },
                    fit: if has_room { fit } else { Vec::new() },
                    length,
                }
            }
            // A refusal has to leave something untouched.
            Err(refusal) => Expected {
                steps: steps.number(1),
                word: refused(refusal),
                fit: Vec::new(),
                length: room.length(self.fit().held.image.len()),
            },
        }
    }

    /// The training's word and every byte of the buffer.
    pub(super) fn hold_train(
        &self,
        asked: Asked,
        room: Room,
        checker: &dyn Checker,
    ) -> Result<(), String> {
        let expected = self.expected_train(asked, room);
        self.planted(expected.word)?;
        let fit = &self.fit().held;
        for fill in [Fill::First, Fill::Second] {
            let mut out = Guarded::buffer(expected.length, fill);
            let (image, steps) = (fit.copy(fill).bytes(), expected.steps);
            let word =
                self.train_called(checker, fill, image, (asked.0, steps), out.bytes_mut())?;
            self.source.held.unharmed(fill, "catalogue")?;
            fit.unharmed(fill, "fit")?;
            let deserved = (expected.word, &expected.fit[..]);
            compare_bytes(deserved, "trained fit", word, &out)?;
        }
        Ok(())
    }

    /// The word of a training on one of the copies, or that the checker panicked.
    fn train_called(
        &self,
        checker: &dyn Checker,
        fill: Fill,
        fit: &[u8],
        (result, steps): (u32, u32),
        out: &mut [u8],
    ) -> Result<u64, String> {
        let catalogue = self.source.held.copy(fill).bytes();
        caught(|| checker.train(catalogue, fit, result, steps, out))
    }

    pub(super) fn shown_in_train(&self, asked: Asked, room: Room, checker: &dyn Checker) -> Shown {
        let expected = self.expected_train(asked, room);
        let fit = self.fit().held.copy(Fill::First).bytes();
        let mut out = vec![0; expected.length];
        let steps = (asked.0, expected.steps);
        let Ok(word) = self.train_called(checker, Fill::First, fit, steps, &mut out) else {
            return Shown::Panic;
        };
        image_shown(Shown::Trained, (expected.word, &expected.fit), (word, &out))
    }

    /// What is promised, of the reference and of the checker's own calls.
    pub(super) fn hold_trained(
        &self,
        (result, steps): Asked,
        checker: &dyn Checker,
    ) -> Result<(), String> {
        let Ok(plan) = self.plan(result) else {
            return Ok(());
        };
        if plan.missing() != plan.steps() {
            return Err(format!(
                "the original's list is empty after {} steps, and {} levels were missing",
                plan.steps(),
                plan.missing()
            ));
        }
        let steps = steps.number(plan.missing());
        let most = plan.image(plan.missing()).len();
        let given = |asked: u32, fit: &[u8]| self.trained_by(checker, fit, (result, asked), most);
        let own = |fit: &[u8]| self.skills_by(checker, fit, result);
        let original = |fit: &[u8]| self.skills_of(fit, result);

        let now = plan.image(steps);
        let next = plan.image(steps.saturating_add(1));
        let missing = plan.missing();
        let (now, next) = (original(&now)?, original(&next)?);
        promised(steps, missing, &now, &next)
            .map_err(|what| format!("of the original's, {what}"))?;

        let fit = &self.fit().held.image;
        let missing = own(fit)?.iter().map(|entry| entry.levels()).sum();
        let now = given(steps, fit)?;
        let next = given(steps.saturating_add(1), fit)?;
        if given(1, &now)? != next {
            return Err(format!(
                "after {steps} steps and then one the checker writes another fit than at once"
            ));
        }
        if steps == 0 && now != *fit {
            return Err("after no step the checker writes another fit".to_string());
        }
        reference::Fit::decode(&now)
            .map_err(|refusal| format!("the fit after {steps} steps is refused by {refusal}"))?;
        promised(steps, missing, &own(&now)?, &own(&next)?)
            .map_err(|what| format!("of the checker's, {what}"))
    }

    /// The fit that the checker writes after so many steps.
    fn trained_by(
        &self,
        checker: &dyn Checker,
        fit: &[u8],
        asked: (u32, u32),
        most: usize,
    ) -> Result<Vec<u8>, String> {
        let mut out = Guarded::buffer(most + 40, Fill::First);
        let word = self.train_called(checker, Fill::First, fit, asked, out.bytes_mut())?;
        let length = word as u32 as usize;
        if word >> 32 != 0 || length > out.bytes().len() {
            return Err(format!(
                "after {} steps the checker makes it {}",
                asked.1,
                in_words(word)
            ));
        }
        Ok(out.bytes()[..length].to_vec())
    }

    /// What a result lacks in a fit, by the checker's own skill call.
    fn skills_by(
        &self,
        checker: &dyn Checker,
        fit: &[u8],
        result: u32,
    ) -> Result<Vec<Missing>, String> {
        let catalogue = self.source.held.copy(Fill::First).bytes();
        let mut out = Guarded::buffer(ENTRY * 512, Fill::First);
        let terms = Terms::default();
        let word = caught(|| checker.skill(catalogue, fit, result, terms, out.bytes_mut()))?;
        if word >> 32 != 0 || word > 512 {
            return Err(format!(
                "the checker's skills of a trained fit: {}",
                in_words(word)
            ));
        }
        let entries = out.bytes().chunks_exact(ENTRY).take(word as usize);
        let entries = entries.map(|entry| entry.try_into().expect("24 bytes"));
        Ok(entries.map(|entry: Entry| Missing::of(&entry)).collect())
    }

    /// The same by the original.
    fn skills_of(&self, fit: &[u8], result: u32) -> Result<Vec<Missing>, String> {
        let said = |refusal: Refusal| format!("the trained fit is refused by {refusal}");
        let catalogue = self
            .source
            .catalogue
            .as_ref()
            .map_err(|refusal| said(*refusal))?;
        let fit = reference::Fit::decode(fit).map_err(said)?;
        reference::first_list(catalogue, &fit, result).map_err(said)
    }

    pub(super) fn count_train(&self, asked: Asked, room: Room, tally: &mut Tally) {
        let expected = self.expected_train(asked, room);
        let refusal = (expected.word >> 32) as u8;
        tally.train(room, expected.length, expected.word);
        tally.train_pair(self.case);
        let Ok(catalogue) = &self.source.catalogue else {
            return;
        };
        if refusal == 0 {
            tally.catalogue(Call::Train, catalogue);
        }
        if let Ok(fit) = &self.fit().decoded {
            tally.training(&Training {
                catalogue,
                fit,
                case: self.case,
                result: asked.0,
                steps: expected.steps,
                refusal,
                length: expected.length,
                plan: self.plan(asked.0).ok(),
            });
        }
    }

    pub(super) fn count_trained(&self, (result, steps): Asked, tally: &mut Tally) {
        tally.calls += 1;
        if let Ok(plan) = self.plan(result) {
            tally.promised(steps.number(plan.missing()), plan.missing());
        }
    }
}

/// What is promised of the lists after so many steps and after one more, where
/// the first list lacked so many levels.
fn promised(steps: u32, missing: u32, now: &[Missing], next: &[Missing]) -> Result<(), String> {
    if now.is_empty() != (steps >= missing) {
        return Err(format!(
            "{} skills are lacking after {steps} steps, where {missing} levels were missing",
            now.len()
        ));
    }
    let Some((first, others)) = now.split_first() else {
        return match next.is_empty() {
            true => Ok(()),
            false => Err("a step on an empty list adds entries to it".to_string()),
        };
    };
    let raised = Missing {
        trained: first.trained + 1,
        ..*first
    };
    let expected = match raised.trained < raised.required {
        true => [&[raised], others].concat(),
        false => others.to_vec(),
    };
    match next == expected {
        true => Ok(()),
        false => Err(format!(
            "the step after {steps} leaves another list than it found, but for its first entry"
        )),
    }
}

#[cfg(test)]
mod tests {
    use super::*;

    fn lacking(rows: &[(i32, u8, u8)]) -> Vec<Missing> {
        let row = |(skill, required, trained): &(i32, u8, u8)| Missing {
            skill: *skill,
            required: *required,
            trained: *trained,
        };
        rows.iter().map(row).collect()
    }

    #[test]
    fn a_step_raises_the_first_entry_or_takes_it_away() {
        let holds = |steps, missing, now: &[_], next: &[_]| {
            promised(steps, missing, &lacking(now), &lacking(next)).is_ok()
        };
        let two = [(7, 3, 1), (2, 1, 0)];
        assert!(holds(0, 3, &two, &[(7, 3, 2), (2, 1, 0)]));
        assert!(holds(1, 3, &[(7, 3, 2), (2, 1, 0)], &[(2, 1, 0)]));
        assert!(holds(2, 3, &[(2, 1, 0)], &[]));
        assert!(holds(3, 3, &[], &[]));
        assert!(holds(u32::MAX, 3, &[], &[]));
        // Empty too early or too late, the last one raised, one added.
        assert!(!holds(2, 3, &[], &[]));
        assert!(!holds(3, 3, &[(2, 1, 0)], &[]));
        assert!(!holds(0, 3, &two, &[(7, 3, 1)]));
        assert!(!holds(0, 3, &two, &two));
        assert!(!holds(1, 3, &[(7, 3, 2)], &[(9, 1, 0)]));
        assert!(!holds(3, 3, &[], &[(9, 1, 0)]));
    }
}
