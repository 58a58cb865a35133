//! Document 02's P11: training, level by level. "Each step raises by one the
//! trained level of the first entry in its skill list, adding the skill at level
//! 1 if its id wasn't listed." The list is the original's `report`, asked again
//! after every step, on the fit that the step leads to.

use std::collections::BTreeMap;

use super::{Catalogue, Fit, Refusal, skill};
use crate::checker::Entry;
use crate::page::Limits;

/// So many steps are made one by one; behind them a skill is raised to its level
/// at once, as plans may be 130,560 steps long.
const SINGLE: u32 = 400;

/// The most skills that a fit lists.
const MOST: usize = 1_024;

/// Listed skills and their levels, by ascending id.
pub type Skills = BTreeMap<i32, u8>;

/// An entry of a skill list.
#[derive(Clone, Copy, Debug, PartialEq)]
pub struct Missing {
    pub skill: i32,
    pub required: u8,
    pub trained: u8,
}

impl Missing {
    /// Of 24 bytes: the payload's words are the skill, the required and the
    /// trained level.
    pub fn of(entry: &Entry) -> Missing {
        Missing {
            skill: i32::from_le_bytes([entry[8], entry[9], entry[10], entry[11]]),
            required: entry[12],
            trained: entry[16],
        }
    }

    /// How many levels are missing.
    pub fn levels(self) -> u32 {
        u32::from(self.required) - u32::from(self.trained)
    }
}

/// What training a fit for one result comes to, step by step.
pub struct Plan {
    fit: Vec<u8>,
    skills: Skills,
    /// The first list.
    pub first: Vec<Missing>,
    /// The skills that are raised, one after the other, and by how many steps.
    pub raises: Vec<(i32, u32)>,
}

impl Plan {
    /// The plan of a fit for a result, or the first refusal of 4 to 6, 8, 9 and
    /// 16.
    pub fn of(catalogue: &Catalogue, fit: &[u8], result: u32) -> Result<Plan, Refusal> {
        let decoded = Fit::decode(fit)?;
        let mut plan = Plan {
            fit: fit.to_vec(),
            first: first_list(catalogue, &decoded, result)?,
            skills: decoded.fit.character.skills,
            raises: Vec::new(),
        };
        if would_list(&plan.skills, &plan.first) > MOST {
            return Err(16);
        }
        plan.step_on(catalogue, result)?;
        Ok(plan)
    }

    /// Makes steps until the list is empty, and notes them.
    fn step_on(&mut self, catalogue: &Catalogue, result: u32) -> Result<(), Refusal> {
        let (mut skills, mut made) = (self.skills.clone(), 0);
        loop {
            let fit = Fit::decode(&self.with(&skills))?;
            let list = first_list(catalogue, &fit, result)?;
            let Some(first) = list.first() else {
                return Ok(());
            };
            let steps = match made < SINGLE {
                true => 1,
                false => first.levels(),
            };
            raise(&mut skills, first.skill, steps);
            self.raises.push((first.skill, steps));
            made += steps;
        }
    }

    /// "The sum of required minus trained over the first list."
    pub fn missing(&self) -> u32 {
        self.first.iter().map(|entry| entry.levels()).sum()
    }

    /// How many steps it took until the list was empty.
    pub fn steps(&self) -> u32 {
        self.raises.iter().map(|raise| raise.1).sum()
    }

    /// The listed skills and levels after so many steps.
    pub fn after(&self, mut steps: u32) -> Skills {
        let mut skills = self.skills.clone();
        for (id, most) in &self.raises {
            let made = steps.min(*most);
            steps -= made;
            if made > 0 {
                raise(&mut skills, *id, made);
            }
        }
        skills
    }

    /// The fit after so many steps. "A step on an empty list changes nothing."
    pub fn image(&self, steps: u32) -> Vec<u8> {
        self.with(&self.after(steps))
    }

    /// The fit with these skills and levels; what is neither is copied.
    fn with(&self, skills: &Skills) -> Vec<u8> {
        let behind = 28 + 5 * self.skills.len();
        let mut image = (skills.len() as u32).to_le_bytes().to_vec();
        image.extend(&self.fit[4..28]);
        image.extend(skills.keys().flat_map(|id| id.to_le_bytes()));
        image.extend(skills.values());
        image.extend(&self.fit[behind..]);
        image
    }
}

/// A skill that is not listed is as one at level 0, which is then listed.
fn raise(skills: &mut Skills, id: i32, steps: u32) {
    let level = skills.entry(id).or_insert(0);
    *level += u8::try_from(steps).expect("no level is over 255");
}

/// What a result lacks in a fit, or refusal 8 or 9.
pub fn first_list(catalogue: &Catalogue, fit: &Fit, result: u32) -> Result<Vec<Missing>, Refusal> {
    let listed = skill(catalogue, fit, result, Limits::MAIN)?;
    Ok(listed.entries.iter().map(Missing::of).collect())
}

/// How many skills are listed once those of the first list are.
pub fn would_list(skills: &Skills, first: &[Missing]) -> usize {
    let is_new = |entry: &&Missing| !skills.contains_key(&entry.skill);
    skills.len() + first.iter().filter(is_new).count()
}

#[cfg(test)]
mod tests {
    use super::*;
    use crate::names::REQUIRED;
    use crate::sketch::{HIGH, Sketch};

    fn plan(sketch: Sketch, result: u32) -> Result<Plan, Refusal> {
        let sketch = sketch.finish();
        let catalogue = Catalogue::decode(&sketch.catalogue.image())?;
        Plan::of(&catalogue, &sketch.fit.image(), result)
    }

    /// Skill 7 at level 3, which demands skill 2 at level 2.
    fn two() -> Sketch {
        Sketch::hull()
            .item(5, HIGH, 0)
            .with(REQUIRED, 7.0)
            .with(REQUIRED + 1, 3.0)
            .base(7, REQUIRED, 2.0)
            .base(7, REQUIRED + 1, 2.0)
    }

    #[test]
    fn each_step_raises_the_first_entry() {
        let plan = plan(two().skill(7, 2).skill(9, 1), 2).unwrap();
        assert_eq!(plan.raises, [(7, 1), (2, 1), (2, 1)]);
        assert_eq!((plan.missing(), plan.steps()), (3, 3));
        let after = |steps| plan.after(steps).into_iter().collect::<Vec<_>>();
        assert_eq!(after(0), [(7, 2), (9, 1)]);
        assert_eq!(after(1), [(7, 3), (9, 1)]);
        assert_eq!(after(2), [(2, 1), (7, 3), (9, 1)]);
        assert_eq!(after(3), [(2, 2), (7, 3), (9, 1)]);
        assert_eq!(after(u32::MAX), after(3));
    }

    #[test]
    fn what_is_no_skill_is_copied() {
        let plan = plan(two().skill(9, 1), 2).unwrap();
        let new = plan.image(4);
        assert_eq!(new.len(), plan.fit.len() + 10);
        assert_eq!(new[..4], [3, 0, 0, 0]);
        assert_eq!(new[4..28], plan.fit[4..28]);
        assert_eq!(new[28..40], [2, 0, 0, 0, 7, 0, 0, 0, 9, 0, 0, 0]);
        assert_eq!(new[40..43], [1, 3, 1]);
        assert_eq!(new[43..], plan.fit[33..]);
    }

    /// Skills raised at once are those that single steps raise.
    #[test]
    fn long_plans_go_on_as_they_began() {
        let sketch = Sketch::hull()
            .ship(REQUIRED, 9.0)
            .ship(REQUIRED + 1, 250.0)
            .base(9, REQUIRED, 8.0)
            .base(9, REQUIRED + 1, 255.0)
            .base(8, REQUIRED, 7.0)
            .base(8, REQUIRED + 1, 2.0);
        let plan = plan(sketch, 0).unwrap();
        assert_eq!(plan.raises[..250], [(9, 1); 250]);
        assert_eq!(plan.raises[250..400], [(8, 1); 150]);
        assert_eq!(plan.raises[400..], [(8, 105), (7, 2)]);
        assert_eq!((plan.missing(), plan.steps()), (507, 507));
    }

    #[test]
    fn sixteen_goes_by_the_first_list() {
        let full = |count: i32, level: f64| {
            let sketch = Sketch::hull().ship(REQUIRED, 7.0).ship(REQUIRED + 1, level);
            (0..count).fold(sketch, |sketch, number| sketch.skill(100 + number, 1))
        };
        let after = |plan: Plan| plan.after(u32::MAX).len();
        assert_eq!(plan(full(1_023, 1.0), 0).map(after), Ok(1_024));
        assert_eq!(plan(full(1_024, 1.0), 0).map(after), Err(16));
        assert_eq!(plan(full(1_024, 0.0), 0).map(after), Ok(1_024));
        assert_eq!(plan(full(1_024, 1.0), 2).map(after), Err(8));
    }
}
