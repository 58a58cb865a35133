//! Makes a case that differs as small as it can be while it still differs.

use std::time::{Duration, Instant};

use crate::case::{Ask, Case, Room, Steps};
use crate::checker::Checker;
use crate::model::{Damage, Fit, Outcome};
use crate::page::Limits;
use crate::profile::{League, Profile};
use crate::reader::Reader;
use crate::run::{Difference, run};
use crate::tally::Tally;

/// A small case with the call that differs alone, and how it differs.
pub fn shrink(case: &Case, difference: &Difference, checker: &dyn Checker) -> (Case, Difference) {
    let mut small = Small {
        case: Case {
            asks: vec![difference.ask],
            ..case.clone()
        },
        difference: difference.clone(),
        checker,
        end: Instant::now() + LONGEST,
    };
    small.case.planted.clear();
    if !small.offer(small.case.clone()) {
        // The reference and the plan differ, not the checker: nothing to shrink.
        return (case.clone(), difference.clone());
    }
    loop {
        let before = small.case.clone();
        small.round();
        if same(&before, &small.case) || small.is_late() {
            return (small.case, small.difference);
        }
    }
}

/// More than any generated case takes; a bound for the largest catalogues.
const LONGEST: Duration = Duration::from_secs(20);

struct Small<'a> {
    case: Case,
    difference: Difference,
    checker: &'a dyn Checker,
    end: Instant,
}

impl Small<'_> {
    fn is_late(&self) -> bool {
        Instant::now() > self.end
    }

    /// Takes a smaller case where it still differs.
    fn offer(&mut self, candidate: Case) -> bool {
        match run(&candidate, self.checker, &mut Tally::default()) {
            Ok(()) => false,
            Err(difference) => {
                self.case = candidate;
                self.difference = difference;
                true
            }
        }
    }

    /// Offers the case with one change.
    fn change(&mut self, change: impl FnOnce(&mut Case)) -> bool {
        let mut candidate = self.case.clone();
        change(&mut candidate);
        !same(&candidate, &self.case) && self.offer(candidate)
    }

    fn round(&mut self) {
        self.calls();
        self.rows(|case| &mut case.catalogue.bases);
        self.rows(|case| &mut case.catalogue.links);
        self.rows(|case| &mut case.catalogue.types);
        self.rows(|case| &mut case.catalogue.effects);
        self.rows(|case| &mut case.catalogue.names);
        self.damage(|case| &mut case.catalogue.damage);
        self.damage(|case| &mut case.frame);
        if self.case.asks == [Ask::Hall] {
            self.rows(|case| &mut case.fits);
        }
        self.change(|case| case.league = League::default());
        if self.case.league.profile.is_some() {
            self.rows(|case| &mut profile(case).prices);
            self.damage(|case| &mut profile(case).damage);
        }
        self.page();
        for reader in [Reader::GUEST, Reader::PILOT, Reader::OFFICER] {
            self.change(|case| case.reader = reader);
        }
        self.rows(|case| &mut case.training);
        self.rows(|case| &mut case.growth.items);
        self.rows(|case| &mut case.growth.results);
        self.rows(|case| &mut case.growth.lowered);
        self.rows(|case| &mut case.haul.items);
        self.rows(|case| &mut case.haul.results);
        for number in 0..self.case.fits.len() {
            self.fit(number);
        }
        self.numbers();
    }

    fn calls(&mut self) {
        for room in [Room::Exact, Room::Longer(24)] {
            self.change(|case| match &mut case.asks[0] {
                Ask::List(held) | Ask::Skill(_, held) | Ask::Widen(held) => *held = room,
                Ask::RetrainedList(held) | Ask::RetrainedSkill(_, held) => *held = room,
                Ask::Train(_, _, held) | Ask::Trim(held) | Ask::Cause(_, held) => *held = room,
                Ask::LeaveOut(_, held) => *held = room,
                _ => {}
            });
        }
        for fewer in [0, 1, 2].map(Steps::Of) {
            self.change(|case| match &mut case.asks[0] {
                Ask::Train(_, steps, _) | Ask::Trained(_, steps) => *steps = fewer,
                _ => {}
            });
        }
        for fewer in [0, 1, 2] {
            self.change(|case| match &mut case.asks[0] {
                Ask::LeaveOut(budget, _) => *budget = fewer,
                _ => {}
            });
        }
        // One of the two fits alone may show it.
        let (single, other) = match self.case.asks[0] {
            Ask::GrownList => (Ask::List(Room::Exact), grown(&self.case)),
            Ask::GrownSkill(result) => (Ask::Skill(result, Room::Exact), grown(&self.case)),
            Ask::RetrainedList(room) => (Ask::List(room), self.case.retrained()),
            Ask::RetrainedSkill(result, room) => (Ask::Skill(result, room), self.case.retrained()),
            Ask::HauledList => (Ask::List(Room::Exact), hauled(&self.case)),
            Ask::HauledSkill(result) => (Ask::Skill(result, Room::Exact), hauled(&self.case)),
            _ => return,
        };
        let alone = self.change(|case| case.asks[0] = single);
        if !alone {
            self.change(|case| {
                case.fits[0] = other;
                case.asks[0] = single;
            });
        }
    }

    /// The main page's limits in the place of others; else fewer pairs and
    /// fewer skills under a lower limit.
    fn page(&mut self) {
        self.change(|case| case.growth.limits = Limits::MAIN);
        self.change(|case| case.haul.limits = Limits::MAIN);
        self.change(|case| case.limits.pairs = Limits::MAIN.pairs);
        self.change(|case| case.limits.skills = Limits::MAIN.skills);
        while self.pair_less() {}
        while (1..3).any(|rows| self.skill_less(rows)) {}
    }

    /// The last pair, and the limit with it.
    fn pair_less(&mut self) -> bool {
        let has_pairs = |fit: &Fit| !fit.items.is_empty() && !fit.results.is_empty();
        if self.case.limits.pairs == 0 || !self.case.fits.first().is_some_and(has_pairs) {
            return false;
        }
        self.change(|case| {
            case.limits.pairs -= 1;
            case.fits[0].items.pop();
            case.fits[0].results.pop();
        })
    }

    /// The last demand, of one row or with its level, and the limit with it.
    fn skill_less(&mut self, rows: usize) -> bool {
        let left = self.case.catalogue.bases.len().checked_sub(rows);
        let Some(left) = left.filter(|_| self.case.limits.skills > 0) else {
            return false;
        };
        self.change(|case| {
            case.limits.skills -= 1;
            case.catalogue.bases.truncate(left);
        })
    }

    fn fit(&mut self, number: usize) {
        self.rows(move |case| &mut case.fits[number].skills);
        self.pairs(number);
        self.rows(move |case| &mut case.fits[number].items);
        self.rows(move |case| &mut case.fits[number].results);
        self.damage(move |case| &mut case.fits[number].damage);
        let results = self.case.fits[number].results.len();
        for result in 0..results + 2 {
            self.rows(move |case| &mut outcome(&mut case.fits[number], result).attributes);
            self.change(|case| outcome(&mut case.fits[number], result).state = 0);
        }
        self.change(|case| {
            case.fits[number].mode_flag = 0;
            case.fits[number].mode = 0;
        });
    }

    /// Drops an item together with its result, and counts results anew.
    fn pairs(&mut self, number: usize) {
        let fit = &self.case.fits[number];
        for place in (0..fit.items.len().min(fit.results.len())).rev() {
            self.change(|case| {
                let fit = &mut case.fits[number];
                fit.items.remove(place);
                fit.results.remove(place);
                for ask in &mut case.asks {
                    if let Ask::Skill(result, _)
                    | Ask::GrownSkill(result)
                    | Ask::HauledSkill(result)
                    | Ask::WidenedSkill(result)
                    | Ask::RetrainedSkill(result, _)
                    | Ask::Train(result, ..)
                    | Ask::Trained(result, _) = ask
                        && *result as usize > place + 2
                    {
                        *result -= 1;
                    }
                }
            });
        }
    }

    /// Drops rows: halves first, then single ones.
    fn rows<T>(&mut self, rows: impl Fn(&mut Case) -> &mut Vec<T>) {
        let mut step = rows(&mut self.case).len();
        while step > 0 && !self.is_late() {
            let mut end = rows(&mut self.case).len();
            while end > 0 {
                let start = end.saturating_sub(step);
                self.change(|case| {
                    rows(case).drain(start..end);
                });
                end = start;
            }
            step /= 2;
        }
    }

    fn damage(&mut self, damage: impl Fn(&mut Case) -> &mut Damage) {
        self.rows(|case| &mut damage(case).sizes);
        self.rows(|case| &mut damage(case).extra);
        self.rows(|case| &mut damage(case).patches);
        for cut in [0, 1] {
            self.change(|case| {
                let held = damage(case);
                held.cut = held.cut.min(cut);
            });
        }
    }

    /// Plain numbers in the place of large ones.
    fn numbers(&mut self) {
        for number in 0..self.case.fits.len() {
            for place in 0..self.case.fits[number].items.len() {
                for quantity in [0, 1] {
                    self.change(|case| case.fits[number].items[place].quantity = quantity);
                }
            }
            for place in 0..self.case.fits[number].skills.len() {
                self.change(|case| case.fits[number].skills[place].level = 0);
            }
        }
    }
}

/// The profile of a case that brings one.
fn profile(case: &mut Case) -> &mut Profile {
    case.league.profile.as_mut().expect("a profile is brought")
}

fn grown(case: &Case) -> Fit {
    case.growth.of(&case.fits[0])
}

fn hauled(case: &Case) -> Fit {
    case.haul.of(&case.fits[0])
}

/// A result of a fit: 0 ship, 1 character, 2 first item.
fn outcome(fit: &mut Fit, result: usize) -> &mut Outcome {
    match result {
        0 => &mut fit.ship,
        1 => &mut fit.character,
        _ => &mut fit.results[result - 2],
    }
}

fn same(a: &Case, b: &Case) -> bool {
    a.catalogue == b.catalogue
        && a.fits == b.fits
        && a.frame == b.frame
        && a.league == b.league
        && a.limits == b.limits
        && a.reader == b.reader
        && a.training == b.training
        && a.growth == b.growth
        && a.haul == b.haul
        && a.asks == b.asks
        && a.planted == b.planted
}

#[cfg(test)]
mod tests {
    use super::*;
    use crate::generate;
    use crate::model::{Item, Skill};
    use crate::names::REQUIRED;
    use crate::plain::{Fault, Flaw, Plain};
    use crate::sketch::Sketch;

    #[test]
    fn a_difference_shrinks_to_what_shows_it() {
        let checker = Plain::with(Flaw::Fault(Fault::TakenLaterOnly));
        let (case, difference) = (0..)
            .map(|number| generate::case(1, number))
            .find_map(|case| {
                let found = run(&case, &checker, &mut Tally::default()).err();
                found.map(|difference| (case, difference))
            })
            .expect("a case with two items in one slot");
        let (small, _) = shrink(&case, &difference, &checker);
        let fit = &small.fits[0];
        assert_eq!(fit.items.len(), 2, "two items share a slot");
        assert_eq!(fit.results.len(), 2);
        assert_eq!(fit.attribute_total(), 0);
        assert_eq!(fit.skills.len(), 0);
        assert_eq!(small.catalogue.types.len(), 1, "the hull alone");
        assert_eq!(small.catalogue.names.len(), 0);
        assert!(run(&small, &Plain::default(), &mut Tally::default()).is_ok());
    }

    /// A case that differs, made small.
    fn shrunk(case: Case, fault: Fault) -> Case {
        let checker = Plain::with(Flaw::Fault(fault));
        let difference = run(&case, &checker, &mut Tally::default()).expect_err("it differs");
        shrink(&case, &difference, &checker).0
    }

    #[test]
    fn of_two_trainings_one_alone_may_show_it() {
        let case = Case {
            reader: Reader::PILOT,
            training: vec![Skill { id: 7, level: 1 }, Skill { id: 9, level: 1 }],
            ..Sketch::hull().skill(3, 1).mode(5).case(
                "a guest reads two fits",
                &[Ask::RetrainedList(Room::Longer(40))],
            )
        };
        let small = shrunk(case, Fault::GuestKeepsLast);
        assert_eq!(small.asks, [Ask::List(Room::Longer(24))]);
        assert_eq!(small.reader, Reader::OFFICER, "it is held for a guest too");
        assert_eq!(small.fits[0].skills.len(), 1);
        assert_eq!(small.fits[0].mode_flag, 0);
        assert_eq!(small.training, []);
    }

    #[test]
    fn limits_fall_with_what_they_limit() {
        let mut sketch = Sketch::hull();
        sketch.fit.items = vec![Item::default(); 4];
        sketch.fit.results = vec![Outcome::default(); 6];
        let case = Case {
            limits: Limits::of(4, 3),
            ..sketch.list("six results of four pairs")
        };
        let small = shrunk(case, Fault::PairsByLarger);
        let fit = &small.fits[0];
        assert_eq!((fit.items.len(), fit.results.len()), (0, 1));
        assert_eq!(small.limits, Limits::of(0, 512));

        let mut sketch = Sketch::hull().ship(REQUIRED, 1.0).name(REQUIRED + 1);
        for id in 1..5 {
            sketch = sketch
                .base(id, REQUIRED, id as f32 + 1.0)
                .base(id, REQUIRED + 1, 1.0);
        }
        let case = Case {
            limits: Limits::of(7, 4),
            ..sketch.skills("five skills of four", 0)
        };
        let small = shrunk(case, Fault::SkillsOneOver);
        assert_eq!(small.limits, Limits::of(256, 0));
        assert_eq!(small.catalogue.bases.len(), 0);
        assert_eq!(small.fits[0].attribute_total(), 1);
    }
}
