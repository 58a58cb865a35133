//! Document 02, P13: the pairs to take off within a budget, byte by byte, and what is
//! promised of them: "With at least as many tries as pairs, no pair can be put back from
//! the answer alone; with up to 16 pairs and 65,552 tries or more, every other good set
//! has at least as many." "Every good set has at least that sum, and a larger budget
//! never gives a larger set." How far off a set is said to be is its size less what the
//! racks are over by in the list itself.

use super::shown::image_shown;
use super::{Shown, Stage, caught, expected_image};
use crate::case::Room;
use crate::checker::{Checker, in_words};
use crate::guard::{Fill, Guarded};
use crate::model::{Damage, Fit};
use crate::reference::Refusal;
use crate::reference::leave_out::{
    FEW, Judge, LeaveOut, SETS, Set, is_named, set_of, size, surplus, tries,
};
use crate::tally::{Call, Leaving, Tally};
use crate::verdict::compare_bytes;

/// More than the call writes for any fit.
const ANY_SET: usize = 2_048;

/// Budgets that the best of all sets takes, with up to 16 pairs.
const ENOUGH: u32 = 65_552;

/// So many sets are listed one by one to find the smallest good one.
const LISTED: usize = 1_000;

impl Stage<'_> {
    /// What every budget comes to, or the refusal before 10.
    fn left_out(&self) -> Result<&LeaveOut, Refusal> {
        let made = self.left_out.get_or_init(|| {
            let (catalogue, fit) = self.decoded()?;
            Ok(LeaveOut::of(&Judge::new(catalogue, fit)))
        });
        made.as_ref().map_err(|refusal| *refusal)
    }

    /// The word that the call must give, the bytes, and the length of its buffer.
    fn expected_left(&self, budget: u32, room: Room) -> (u64, Vec<u8>, usize) {
        let image = self.left_out().map(|all| all.within(budget).image());
        let image = match &image {
            Ok(image) => Ok(&image[..]),
            Err(refusal) => Err(*refusal),
        };
        let (word, image, length) = expected_image(image, room, 40);
        (word, image.to_vec(), length)
    }

    /// The call's word and every byte of the buffer.
    pub(super) fn hold_leave_out(
        &self,
        budget: u32,
        room: Room,
        checker: &dyn Checker,
    ) -> Result<(), String> {
        let (expected, new, length) = self.expected_left(budget, room);
        self.planted(expected)?;
        for fill in [Fill::First, Fill::Second] {
            let mut out = Guarded::buffer(length, fill);
            let word = self.left_out_called(checker, fill, budget, out.bytes_mut())?;
            self.source.held.unharmed(fill, "catalogue")?;
            self.fit().held.unharmed(fill, "fit")?;
            compare_bytes((expected, &new), "set to leave out", word, &out)?;
        }
        Ok(())
    }

    /// The word of a call on one of the copies, or that the checker panicked.
    fn left_out_called(
        &self,
        checker: &dyn Checker,
        fill: Fill,
        budget: u32,
        out: &mut [u8],
    ) -> Result<u64, String> {
        let catalogue = self.source.held.copy(fill).bytes();
        let fit = self.fit().held.copy(fill).bytes();
        caught(|| checker.leave_out(catalogue, fit, budget, out))
    }

    /// With a buffer for all pairs first: what differs there is no matter of the
    /// buffer's length.
    pub(super) fn shown_in_leave_out(
        &self,
        budget: u32,
        room: Room,
        checker: &dyn Checker,
    ) -> Shown {
        match self.left_out_shown(budget, Room::Of(ANY_SET), checker) {
            Shown::Buffer => self.left_out_shown(budget, room, checker),
            shown => shown,
        }
    }

    fn left_out_shown(&self, budget: u32, room: Room, checker: &dyn Checker) -> Shown {
        let (expected, new, length) = self.expected_left(budget, room);
        let mut out = vec![0; length];
        match self.left_out_called(checker, Fill::First, budget, &mut out) {
            Ok(word) => image_shown(Shown::LeftOut, (expected, &new), (word, &out)),
            Err(_) => Shown::Panic,
        }
    }

    /// What is promised, of the reference and of the checker's own calls.
    pub(super) fn hold_left_out(&self, checker: &dyn Checker) -> Result<(), String> {
        let Ok(all) = self.left_out() else {
            return Ok(());
        };
        let (catalogue, fit) = self.decoded().map_err(|_| "a refused image has a set")?;
        let judge = Judge::new(catalogue, fit);
        let is_good = |off: &[bool]| Ok(judge.is_good(off));
        let least = match all.pairs {
            0..=FEW => Some(least(all.pairs, is_good)?),
            0..=SETS => Some(least(all.pairs, |off| Ok(judge.is_good_by_count(off)))?),
            _ => None,
        };
        let answers = budgets(all).into_iter().map(|budget| {
            let left = all.within(budget);
            Ok(Answer {
                budget,
                distance: left.distance,
                off: left.off,
            })
        });
        let known = Known {
            pairs: all.pairs,
            least,
            surplus: surplus(&judge.listed(&vec![false; all.pairs])),
        };
        promised(&known, answers, is_good).map_err(|what| format!("of the original's, {what}"))?;
        let model = &self.case.fits[0];
        if model.damage != Damage::default() {
            return Ok(());
        }
        let answers = budgets(all)
            .into_iter()
            .map(|budget| self.left_by(checker, budget, all.pairs));
        let is_good = |off: &[bool]| {
            let entries = self.listed_by(checker, &without(model, off))?;
            Ok(!entries.iter().any(is_named))
        };
        let least = match least {
            Some(most) if sets(all.pairs, most) <= LISTED => Some(self::least(all.pairs, is_good)?),
            least => least,
        };
        let known = Known {
            pairs: all.pairs,
            least,
            surplus: surplus(&self.listed_by(checker, model)?),
        };
        promised(&known, answers, is_good).map_err(|what| format!("of the checker's, {what}"))
    }

    /// What the checker takes off.
    fn left_by(&self, checker: &dyn Checker, budget: u32, pairs: usize) -> Result<Answer, String> {
        let mut out = vec![0; ANY_SET];
        let word = self.left_out_called(checker, Fill::First, budget, &mut out)?;
        let bytes = match word >> 32 {
            0 => out.get(..word as usize),
            _ => None,
        };
        let bytes = bytes.ok_or_else(|| format!("the checker's set is {}", in_words(word)))?;
        let (words, _) = bytes.as_chunks::<4>();
        let mut words = words.iter().map(|word| u32::from_le_bytes(*word));
        let [tried, distance] = [words.next(), words.next()];
        let most = tries(pairs).min(budget);
        if tried != Some(most) {
            return Err(format!(
                "within {budget} the checker makes {tried:?} tries, not {most}"
            ));
        }
        let mut off = vec![false; pairs];
        for number in words {
            let flag = off.get_mut(number as usize);
            *flag.ok_or_else(|| format!("the checker takes off pair {number} of {pairs}"))? = true;
        }
        Ok(Answer {
            budget,
            distance: distance.ok_or("the checker writes no distance")?,
            off,
        })
    }

    pub(super) fn count_leave_out(&self, budget: u32, room: Room, tally: &mut Tally) {
        let (expected, _, length) = self.expected_left(budget, room);
        tally.leave_out(room, length, expected);
        tally.leave_out_pair(self.case);
        let (Ok((catalogue, fit)), Ok(all)) = (self.decoded(), self.left_out()) else {
            return;
        };
        let refusal = (expected >> 32) as u8;
        if refusal == 0 {
            tally.catalogue(Call::LeaveOut, catalogue);
        }
        tally.leaving(&Leaving {
            catalogue,
            fit,
            listed: self.officers_list(),
            all,
            budget,
            refusal,
        });
    }

    pub(super) fn count_left_out(&self, tally: &mut Tally) {
        if let (Ok((catalogue, fit)), Ok(all)) = (self.decoded(), self.left_out()) {
            tally.promised_left(all.pairs, fit.is_hull(catalogue));
        }
    }
}

/// What a budget comes to.
struct Answer {
    budget: u32,
    distance: u32,
    off: Set,
}

/// What is known of a fit.
struct Known {
    pairs: usize,
    /// The size of the smallest good set, where every set can be asked.
    least: Option<usize>,
    /// By how much its list has the racks over.
    surplus: u32,
}

/// The budgets that are asked for: with few pairs all up to one more than there are
/// tries, else those beside where something changes, among them each that finds a smaller
/// set by number.
fn budgets(all: &LeaveOut) -> Vec<u32> {
    let (count, most) = (all.pairs as u32, tries(all.pairs));
    let mut budgets: Vec<u32> = match all.pairs <= FEW {
        true => (0..=most + 1).collect(),
        false => vec![0, 1, count - 1, count, count + 1, most - 1, most, most + 1],
    };
    let found = all.found.iter().map(|(tries, _)| *tries);
    let by_number = found.filter(|tries| *tries > count);
    budgets.extend(by_number.flat_map(|tries| [tries - 1, tries]));
    budgets.extend([ENOUGH - 1, ENOUGH, u32::MAX]);
    budgets.sort();
    budgets.dedup();
    budgets
}

/// Holds what is promised of the answers to ascending budgets.
fn promised(
    known: &Known,
    answers: impl Iterator<Item = Result<Answer, String>>,
    is_good: impl Fn(&[bool]) -> Result<bool, String>,
) -> Result<(), String> {
    let mut before: Option<Answer> = None;
    for answer in answers {
        let answer = answer?;
        sized(known, &answer)?;
        let Answer { budget, off, .. } = &answer;
        if let Some(before) = &before
            && size(&before.off) < size(off)
        {
            return Err(format!(
                "{budget} tries take more pairs off than {}",
                before.budget
            ));
        }
        let (is_new, was_short) = match &before {
            Some(before) => (before.off != *off, (before.budget as usize) < known.pairs),
            None => (true, true),
        };
        if is_new && !is_good(off)? {
            return Err(format!(
                "without {off:?}, within {budget}, there are named entries"
            ));
        }
        if *budget as usize >= known.pairs
            && (is_new || was_short)
            && let Some(number) = put_back(off, &is_good)?
        {
            return Err(format!(
                "{number} could be put back from {off:?}, within {budget}"
            ));
        }
        before = Some(answer);
    }
    Ok(())
}

/// Holds how many pairs an answer has, and how far off it is said to be.
fn sized(known: &Known, answer: &Answer) -> Result<(), String> {
    let Answer {
        budget,
        distance,
        off,
    } = answer;
    let (taken, surplus) = (size(off), known.surplus);
    if surplus.checked_add(*distance) != Some(taken as u32) {
        return Err(format!(
            "within {budget}, {taken} pairs are said to be {distance} off, and the racks are \
             over by {surplus}"
        ));
    }
    let is_best = known.pairs <= SETS && *budget >= ENOUGH;
    if let Some(least) = known.least
        && (least < surplus as usize || (is_best && least < taken))
    {
        return Err(format!(
            "{least} pairs are enough; within {budget} it is {off:?}, at most {distance} off"
        ));
    }
    Ok(())
}

/// The size of the smallest good set: of all sets, those of fewer pairs are asked first.
fn least(pairs: usize, is_good: impl Fn(&[bool]) -> Result<bool, String>) -> Result<usize, String> {
    for count in 0..=pairs {
        for number in numbers(pairs).filter(|number| number.count_ones() as usize == count) {
            if is_good(&set_of(number, pairs))? {
                return Ok(count);
            }
        }
    }
    Err("no set is good, not even that of all pairs".to_string())
}

/// How many sets have so many pairs at most.
fn sets(pairs: usize, most: usize) -> usize {
    let is_small = |number: &u32| number.count_ones() as usize <= most;
    numbers(pairs).filter(is_small).count()
}

fn numbers(pairs: usize) -> std::ops::Range<u32> {
    0..1 << pairs
}

/// A pair that could be put back by itself.
fn put_back(
    off: &[bool],
    is_good: impl Fn(&[bool]) -> Result<bool, String>,
) -> Result<Option<usize>, String> {
    for number in (0..off.len()).filter(|number| off[*number]) {
        let mut less = off.to_vec();
        less[number] = false;
        if is_good(&less)? {
            return Ok(Some(number));
        }
    }
    Ok(None)
}

/// A fit without some of its pairs; what is in no pair falls away.
fn without(fit: &Fit, off: &[bool]) -> Fit {
    let pairs = fit.items.iter().zip(&fit.results).zip(off);
    let kept = pairs.filter(|(_, is_off)| !**is_off);
    let (items, results) = kept
        .map(|((item, result), _)| (*item, result.clone()))
        .unzip();
    Fit {
        items,
        results,
        ..fit.clone()
    }
}
