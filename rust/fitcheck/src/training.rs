//! Training a fit for one of its results, level by level.

use crate::json::{self, Json};
use crate::{Explainer, FitImage, Reader, Refusal, Rule, SkillOptions, exported, skills};

/// What one result of a fit lacks, and what training for it leads to: pilots try
/// a plan before they train it.
///
/// Each step raises by one level the first skill that is still lacking, in the
/// order of [`skills`](crate::skills()); one that the fit does not list is listed,
/// at level 1. After as many steps as [`levels_missing`] says nothing is lacking
/// any more, and at no earlier step; further steps change nothing (that is
/// proved).
///
/// A plan stands on the two images that it was made of, so that a step is never
/// made on another fit. It is the officer's: who may see a pilot's training is for
/// the caller to say, as [`Reader`] has it.
///
/// [`levels_missing`]: TrainingPlan::levels_missing
///
/// ```
/// use fitcheck::{
///     Attribute, CatalogueBuilder, FitBuilder, ItemResult, PlannedSkill, State, TrainingPlan,
/// };
///
/// // The ship asks for skill 3329 at level 4, which is trained to 2; 3329 asks
/// // for 3327 at level 1.
/// let catalogue = CatalogueBuilder::new()
///     .name(Attribute::RequiredSkill1, 182)
///     .name(Attribute::RequiredSkill1Level, 277)
///     .base(3329, 182, 3327.0)
///     .base(3329, 277, 1.0)
///     .build()?;
/// let fit = FitBuilder::new(587)
///     .skill(3329, 2)
///     .ship(ItemResult::new(State::Online).with(182, 3329.0).with(277, 4.0))
///     .build()?;
///
/// let plan = TrainingPlan::new(&catalogue, &fit, 0)?;
/// assert_eq!(plan.levels_missing(), 3);
/// let (first, second) = (plan.skills()[0], plan.skills()[1]);
/// assert_eq!(first, PlannedSkill { type_id: 3329, from: 2, to: 4 });
/// assert_eq!(second, PlannedSkill { type_id: 3327, from: 0, to: 1 });
///
/// let trained = plan.train(2)?;
/// assert_eq!(trained.raised(), [first]);
/// assert_eq!(trained.levels_missing(), 1);
/// // The fit that the steps lead to is a fit like any other.
/// let rest = TrainingPlan::new(&catalogue, trained.fit(), 0)?;
/// assert_eq!(rest.skills(), [second]);
/// assert_eq!(rest.train_all()?.fit(), plan.train_all()?.fit());
/// # Ok::<(), Box<dyn std::error::Error>>(())
/// ```
#[derive(Debug, Clone)]
pub struct TrainingPlan<'a> {
    catalogue: &'a [u8],
    fit: &'a [u8],
    result: u32,
    skills: Vec<PlannedSkill>,
}

/// A skill and the levels that it is raised from and to.
#[derive(Debug, Clone, Copy, PartialEq, Eq, Hash)]
pub struct PlannedSkill {
    /// The skill's type.
    pub type_id: i32,
    /// Its level before, 0 where it is not listed.
    pub from: u8,
    /// Its level behind.
    pub to: u8,
}

impl PlannedSkill {
    /// How many steps that takes.
    #[must_use]
    pub fn levels(self) -> u32 {
        u32::from(self.to.saturating_sub(self.from))
    }
}

impl<'a> TrainingPlan<'a> {
    /// The plan for one result: 0 is the ship's, 1 the character's, 2 the first
    /// item's, and so on. A result that lacks nothing has an empty one.
    ///
    /// # Errors
    ///
    /// The refusal that the documents' order picks, of 1 to 6, 8
    /// ([`Refusal::NoSuchResult`]), 9 ([`Refusal::WantedSkills`]) and 16
    /// ([`Refusal::ListedSkills`]).
    pub fn new(
        catalogue: &'a [u8],
        fit: &'a [u8],
        result: u32,
    ) -> Result<TrainingPlan<'a>, Refusal> {
        let lacking = skills(catalogue, fit, result, &SkillOptions::new(Reader::Officer))?;
        let planned = lacking.iter().filter_map(|entry| match entry.rule {
            Rule::Skill {
                type_id,
                required,
                level,
            } => Some(PlannedSkill {
                type_id,
                from: level,
                to: required,
            }),
            _ => None,
        });
        let plan = TrainingPlan {
            catalogue,
            fit,
            result,
            skills: planned.collect(),
        };
        // 16 goes by the whole plan, with no step too.
        plan.trained(0)?;
        Ok(plan)
    }

    /// The number of the result.
    #[must_use]
    pub fn result(&self) -> u32 {
        self.result
    }

    /// What is lacking, skill by skill, in the order in which it is trained.
    #[must_use]
    pub fn skills(&self) -> &[PlannedSkill] {
        &self.skills
    }

    /// How many levels are missing: as many steps leave nothing lacking, and no
    /// fewer do.
    #[must_use]
    pub fn levels_missing(&self) -> u32 {
        self.skills.iter().map(|skill| skill.levels()).sum()
    }

    /// Makes so many steps, from the fit that the plan was made of: called again, it
    /// starts there again. More than are missing are as many as are missing.
    ///
    /// # Errors
    ///
    /// None that is known of: a plan that was made is answered.
    pub fn train(&self, steps: u32) -> Result<Trained, Refusal> {
        let fit = self.trained(steps)?;
        let raised = raised(&self.skills, self.fit, &fit);
        let made: u32 = raised.iter().map(|skill| skill.levels()).sum();
        let missing = self.levels_missing();
        let lacking = lacking(&self.skills, &raised);
        Ok(Trained {
            fit,
            result: self.result,
            raised,
            lacking,
            levels_missing: missing.saturating_sub(made),
        })
    }

    /// Makes every step, so that nothing is lacking any more.
    ///
    /// # Errors
    ///
    /// As [`train`](TrainingPlan::train).
    pub fn train_all(&self) -> Result<Trained, Refusal> {
        self.train(u32::MAX)
    }

    /// The fit after so many steps.
    fn trained(&self, steps: u32) -> Result<Vec<u8>, Refusal> {
        // A skill that is added takes five bytes.
        let mut fit = vec![0; self.fit.len() + 5 * self.skills.len()];
        let word = exported::train(self.catalogue, self.fit, self.result, steps, &mut fit);
        let count = Refusal::or_count(word)? as usize;
        if count > fit.len() {
            return Err(Refusal::Unexpected { word });
        }
        fit.truncate(count);
        Ok(fit)
    }
}

/// The skills of a plan whose levels differ in two fits, in the plan's order.
fn raised(plan: &[PlannedSkill], old: &[u8], new: &[u8]) -> Vec<PlannedSkill> {
    let (Some(old), Some(new)) = (FitImage::new(old), FitImage::new(new)) else {
        return Vec::new();
    };
    let both = |skill: &PlannedSkill| PlannedSkill {
        from: old.level(skill.type_id).unwrap_or(0),
        to: new.level(skill.type_id).unwrap_or(0),
        ..*skill
    };
    let raised = plan.iter().map(both);
    raised.filter(|skill| skill.from != skill.to).collect()
}

/// What a plan still lacks once some of its skills were raised, in the plan's order.
fn lacking(plan: &[PlannedSkill], raised: &[PlannedSkill]) -> Vec<PlannedSkill> {
    let left = plan.iter().map(|skill| {
        let raised = raised.iter().find(|it| it.type_id == skill.type_id);
        PlannedSkill {
            from: raised.map_or(skill.from, |it| it.to),
            ..*skill
        }
    });
    left.filter(|skill| skill.levels() > 0).collect()
}

/// A fit after steps of training; see [`TrainingPlan::train`].
#[derive(Debug, Clone, PartialEq, Eq)]
pub struct Trained {
    fit: Vec<u8>,
    raised: Vec<PlannedSkill>,
    lacking: Vec<PlannedSkill>,
    levels_missing: u32,
    result: u32,
}

impl Trained {
    /// The fit's image. What is no skill and no level is as it was, byte for byte.
    #[must_use]
    pub fn fit(&self) -> &[u8] {
        &self.fit
    }

    /// The image itself, to keep.
    #[must_use]
    pub fn into_fit(self) -> Vec<u8> {
        self.fit
    }

    /// The skills that were raised, in the order in which they were.
    #[must_use]
    pub fn raised(&self) -> &[PlannedSkill] {
        &self.raised
    }

    /// The skills that are still lacking, from the levels that they have now, in the
    /// order in which they would be raised.
    #[must_use]
    pub fn lacking(&self) -> &[PlannedSkill] {
        &self.lacking
    }

    /// How many levels are still missing.
    #[must_use]
    pub fn levels_missing(&self) -> u32 {
        self.levels_missing
    }

    /// The number of the result that it was trained for.
    #[must_use]
    pub fn result(&self) -> u32 {
        self.result
    }

    /// How many levels were raised.
    #[must_use]
    pub fn levels_raised(&self) -> u32 {
        self.raised.iter().map(|skill| skill.levels()).sum()
    }

    /// What is lacking, and what the steps raise of it, a line for each skill.
    pub fn text(&self, explainer: &Explainer<'_>) -> String {
        let (made, left) = (self.levels_raised(), self.levels_missing);
        let whom = explainer.result_words(self.result);
        let lacks = match made + left {
            0 => return format!("{whom} lacks no level\n"),
            missing => levels(missing),
        };
        let steps = match made {
            1 => "1 step".to_string(),
            made => format!("{made} steps"),
        };
        let missing = match left {
            0 => "none is".to_string(),
            1 => "1 is".to_string(),
            left => format!("{left} are"),
        };
        let raised = self.raised.iter();
        let lines = raised.map(|skill| format!("  {}\n", explainer.explain_training(*skill)));
        let lines: String = lines.collect();
        format!("{whom} lacks {lacks}; after {steps} {missing} missing\n{lines}")
    }

    /// The same as one object, which lists too what is still lacking.
    pub fn json(&self, explainer: &Explainer<'_>) -> Json {
        let skill = |skill: &PlannedSkill| {
            Json::Object(vec![
                ("type_id", Json::Integer(skill.type_id.into())),
                ("from", Json::Integer(skill.from.into())),
                ("to", Json::Integer(skill.to.into())),
                ("sentence", Json::text(explainer.explain_training(*skill))),
            ])
        };
        let list = |skills: &[PlannedSkill]| Json::List(skills.iter().map(skill).collect());
        let mut fields = json::versioned(match self.levels_missing {
            0 => "trained",
            _ => "lacking",
        });
        fields.extend([
            ("result", Json::Integer(self.result.into())),
            ("levels_raised", Json::Integer(self.levels_raised().into())),
            ("levels_missing", Json::Integer(self.levels_missing.into())),
            ("skills", list(&self.raised)),
            ("lacking", list(&self.lacking)),
        ]);
        Json::Object(fields)
    }
}

/// So many levels in words.
pub(crate) fn levels(count: u32) -> String {
    match count {
        1 => "1 level".to_string(),
        count => format!("{count} levels"),
    }
}

#[cfg(test)]
mod tests {
    use super::*;
    use crate::{FitBuilder, Names};

    fn fit(skills: &[(i32, u8)]) -> Vec<u8> {
        let mut fit = FitBuilder::new(587);
        for (type_id, level) in skills {
            fit.skill(*type_id, *level);
        }
        fit.build().unwrap()
    }

    fn planned(type_id: i32, from: u8, to: u8) -> PlannedSkill {
        PlannedSkill { type_id, from, to }
    }

    /// What is said was raised is read in the fit that was written.
    #[test]
    fn what_was_raised_is_what_differs() {
        let plan = [planned(9, 2, 4), planned(3, 0, 5), planned(7, 1, 2)];
        let old = fit(&[(7, 1), (9, 2), (11, 3)]);
        let new = fit(&[(3, 1), (7, 1), (9, 4), (11, 3)]);
        assert_eq!(
            raised(&plan, &old, &new),
            [planned(9, 2, 4), planned(3, 0, 1)]
        );
        assert_eq!(raised(&plan, &old, &old), []);
        assert_eq!(raised(&plan, &old, &new[..3]), []);
    }

    #[test]
    fn what_is_lacking_goes_on_from_what_was_raised() {
        let plan = [planned(9, 2, 4), planned(3, 0, 5), planned(7, 1, 2)];
        assert_eq!(lacking(&plan, &[]), plan);
        assert_eq!(
            lacking(&plan, &[planned(9, 2, 4), planned(3, 0, 1)]),
            [planned(3, 1, 5), planned(7, 1, 2)]
        );
        assert_eq!(lacking(&plan, &plan), []);
    }

    #[test]
    fn a_training_in_words() {
        let image = fit(&[]);
        let names = Names::parse("587 Rifter\n3300 Gunnery\n").unwrap();
        let explainer = Explainer::new(&image, &names);
        let text = |raised: &[PlannedSkill], levels_missing| {
            let trained = Trained {
                fit: Vec::new(),
                raised: raised.to_vec(),
                lacking: Vec::new(),
                levels_missing,
                result: 0,
            };
            trained.text(&explainer)
        };
        assert_eq!(
            text(&[planned(3300, 2, 4), planned(5, 0, 1)], 0),
            "Rifter (the ship) lacks 3 levels; after 3 steps none is missing\n  \
             Gunnery: 2 to 4, 2 levels\n  type 5: 0 to 1, 1 level\n"
        );
        assert_eq!(
            text(&[planned(5, 0, 1)], 2),
            "Rifter (the ship) lacks 3 levels; after 1 step 2 are missing\n  \
             type 5: 0 to 1, 1 level\n"
        );
        assert_eq!(
            text(&[], 1),
            "Rifter (the ship) lacks 1 level; after 0 steps 1 is missing\n"
        );
        assert_eq!(text(&[], 0), "Rifter (the ship) lacks no level\n");
    }
}
