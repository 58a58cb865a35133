//! Refusals planted on purpose: each way to deserve each number, alone or
//! together with another.

mod cause;
mod ground;
mod page;
mod reader;
mod table;
mod train;

use crate::case::{Ask, CAUSES, Case, Cause, Plant, Steps};
use crate::rng::Rng;

pub use ground::Ground;

use table::{Dig, PLANTS};

/// Every plant: why the call is refused, how that is deserved, and the change
/// that does it. Those of readers, then of training and then of causes come last, so that
/// the numbers of the others stay.
pub fn plants() -> Vec<Row> {
    let numbered = PLANTS.iter();
    let numbered = numbered.map(|(number, how, dig)| (Cause::Number(*number), *how, *dig));
    let pairs = page::PAIRS.iter();
    let pairs = pairs.map(|(how, dig)| (Cause::Pairs, *how, *dig));
    let skills = page::SKILLS.iter();
    let skills = skills.map(|(how, dig)| (Cause::Skills, *how, *dig));
    let above = reader::ABOVE.iter();
    let above = above.map(|(how, dig)| (Cause::Number(19), *how, *dig));
    let guests = reader::GUESTS.iter();
    let guests = guests.map(|(how, dig)| (Cause::Number(20), *how, *dig));
    let full = train::FULL.iter();
    let full = full.map(|(how, dig)| (Cause::Number(16), *how, *dig));
    let others = numbered.chain(pairs).chain(skills);
    let beyond = cause::BEYOND.iter();
    let beyond = beyond.map(|(how, dig)| (Cause::Number(14), *how, *dig));
    let volumes = cause::VOLUMES.iter();
    let volumes = volumes.map(|(how, dig)| (Cause::Number(15), *how, *dig));
    let others = others.chain(above).chain(guests);
    others.chain(full).chain(beyond).chain(volumes).collect()
}

/// How many plants a list or skill call can meet.
pub fn untrained() -> usize {
    plants().len() - train::FULL.len() - cause::BEYOND.len() - cause::VOLUMES.len()
}

/// How many plants are not of readers.
pub fn others() -> usize {
    untrained() - reader::ABOVE.len() - reader::GUESTS.len()
}

type Row = (Cause, &'static str, Dig);

/// The pairs of refusals that can meet in one list or skill call, the first to be
/// given. Those of readers come last, as their plants do.
pub fn pairs() -> Vec<(Cause, Cause)> {
    let mut found = Vec::new();
    for (place, first) in CAUSES.into_iter().enumerate() {
        let behind = CAUSES[place + 1..].iter();
        let met = behind.filter(|second| can_meet(first, **second));
        found.extend(met.map(|second| (first, *second)));
    }
    found.sort_by_key(|pair| is_of_a_reader(pair.0));
    found
}

fn is_of_a_reader(cause: Cause) -> bool {
    matches!(cause, Cause::Number(19 | 20))
}

/// How many pairs are not of readers.
pub fn other_pairs() -> usize {
    let pairs = pairs().into_iter();
    pairs.filter(|pair| !is_of_a_reader(pair.0)).count()
}

/// A result that is not there wants no skills and lists nothing; the skill
/// call takes no profile, and the list call asks for no skills. A reader above 2
/// is no guest, and a guest is refused in the skill call alone. 16 is a training's, 14 and
/// 15 a cause's.
fn can_meet(first: Cause, second: Cause) -> bool {
    use Cause::{Number, Skills};
    !matches!(
        (first, second),
        (Number(8), Number(9 | 10) | Skills)
            | (Number(11 | 12), Number(8 | 9) | Skills)
            | (Number(19), Number(20))
            | (Number(20), Number(11 | 12))
            | (Number(14..=16), _)
            | (_, Number(14..=16))
    )
}

/// Whether a training can be refused for a cause.
fn can_train(cause: Cause) -> bool {
    matches!(cause, Cause::Number(1..=6 | 8 | 9 | 16 | 10))
}

/// The plants that a call can meet which is refused for such causes.
fn met(can_refuse: fn(Cause) -> bool) -> Vec<usize> {
    let plants = plants().into_iter().enumerate();
    let plants = plants.filter(|(_, plant)| can_refuse(plant.0));
    plants.map(|(number, _)| number).collect()
}

/// Every two of such causes, the first to be given.
fn met_together(can_refuse: fn(Cause) -> bool) -> Vec<(Cause, Cause)> {
    let causes = CAUSES.into_iter().filter(|cause| can_refuse(*cause));
    let causes: Vec<Cause> = causes.collect();
    let mut found = Vec::new();
    for (place, first) in causes.iter().enumerate() {
        found.extend(causes[place + 1..].iter().map(|second| (*first, *second)));
    }
    found
}

/// The plants that a training can meet.
pub fn training() -> Vec<usize> {
    met(can_train)
}

/// The pairs of refusals that can meet in one training. A result that is not
/// there wants no skills; beside 8, 16 is planted for the ship's result, and a
/// buffer is too short for whatever fit there would be.
pub fn training_pairs() -> Vec<(Cause, Cause)> {
    let mut found = met_together(can_train);
    found.retain(|pair| *pair != (Cause::Number(8), Cause::Number(9)));
    found
}

/// Whether a trim can be refused for a cause.
fn can_trim(cause: Cause) -> bool {
    matches!(cause, Cause::Number(1..=6 | 9 | 10))
}

/// The plants that a trim can meet.
pub fn trimming() -> Vec<usize> {
    met(can_trim)
}

/// The pairs of refusals that can meet in one trim: a buffer is too short for
/// whatever catalogue there would be.
pub fn trimming_pairs() -> Vec<(Cause, Cause)> {
    met_together(can_trim)
}

/// Whether a cause can be refused for a cause.
fn can_cause(cause: Cause) -> bool {
    matches!(cause, Cause::Number(1..=6 | 14 | 15 | 10))
}

/// The plants that a cause can meet.
pub fn causing() -> Vec<usize> {
    met(can_cause)
}

/// The pairs of refusals that can meet in one cause: a buffer is too short for
/// whatever pairs there would be.
pub fn causing_pairs() -> Vec<(Cause, Cause)> {
    met_together(can_cause)
}

/// Whether leaving out can be refused for a cause.
fn can_leave_out(cause: Cause) -> bool {
    matches!(cause, Cause::Number(1..=6 | 10))
}

/// The plants that leaving out can meet.
pub fn leaving_out() -> Vec<usize> {
    met(can_leave_out)
}

/// The pairs of refusals that can meet in leaving out: a buffer is too short for
/// whatever set there would be.
pub fn leaving_out_pairs() -> Vec<(Cause, Cause)> {
    met_together(can_leave_out)
}

/// Whether a widening can be refused for a cause.
pub fn can_widen(cause: Cause) -> bool {
    matches!(cause, Cause::Number(1..=3 | 10))
}

/// The plants that a widening can meet.
pub fn widening() -> Vec<usize> {
    met(can_widen)
}

/// The pairs of refusals that can meet in one widening.
pub fn widening_pairs() -> Vec<(Cause, Cause)> {
    let mut pairs = pairs();
    pairs.retain(|(first, second)| can_widen(*first) && can_widen(*second));
    pairs
}

/// A planted case in which the catalogue is widened, and no other call made.
pub fn widened(mut case: Case) -> Case {
    for ask in &mut case.asks {
        if let Ask::List(room) | Ask::Skill(_, room) = *ask {
            *ask = Ask::Widen(room);
        }
    }
    case
}

/// The calls in which refusals are planted.
#[derive(Clone, Copy, PartialEq)]
pub enum Calls {
    Lists,
    Trainings,
    Trims,
    Causes,
    LeaveOuts,
}

/// One plant alone.
pub fn alone(rng: &mut Rng, ground: Ground, number: usize, calls: Calls) -> Case {
    planted(rng, ground, &[plants()[number]], calls)
}

/// A plant of each of two refusals.
pub fn together(rng: &mut Rng, ground: Ground, pair: (Cause, Cause), calls: Calls) -> Case {
    let mut one = |cause: Cause| {
        let mut ways = plants();
        ways.retain(|row| row.0 == cause);
        ways[rng.below(ways.len())]
    };
    let both = [one(pair.1), one(pair.0)];
    planted(rng, ground, &both, calls)
}

/// One of some plants alone, or of each of two refusals one, which is more often.
pub fn either(rng: &mut Rng, plants: &[usize], pairs: &[(Cause, Cause)], calls: Calls) -> Case {
    let ground = Ground::realistic(rng);
    match rng.chance(400) {
        true => {
            let way = rng.pick(plants);
            alone(rng, ground, way, calls)
        }
        false => {
            let pair = rng.pick(pairs);
            together(rng, ground, pair, calls)
        }
    }
}

/// The later refusal is planted first, so that the earlier one surely stands.
fn planted(rng: &mut Rng, mut ground: Ground, plants: &[Row], calls: Calls) -> Case {
    if calls == Calls::Causes {
        cause::stranger(&mut ground);
    }
    for (_, _, dig) in plants {
        dig(&mut ground, rng);
    }
    let has = |cause: Cause| plants.iter().any(|plant| plant.0 == cause);
    let takes_a_profile = has(Cause::Number(11)) || has(Cause::Number(12));
    let takes_a_result = [8, 9, 20].map(Cause::Number).into_iter().any(has) || has(Cause::Skills);
    let ask = if calls == Calls::Trainings {
        Ask::Train(ground.result, steps(rng), ground.room)
    } else if calls == Calls::Trims {
        Ask::Trim(ground.room)
    } else if calls == Calls::Causes {
        Ask::Cause(ground.position, ground.room)
    } else if calls == Calls::LeaveOuts {
        Ask::LeaveOut(budget(rng), ground.room)
    } else if takes_a_result || (!takes_a_profile && rng.chance(400)) {
        Ask::Skill(ground.result, ground.room)
    } else {
        Ask::List(ground.room)
    };
    Case {
        title: "planted refusals".to_string(),
        catalogue: ground.catalogue,
        fits: vec![ground.fit],
        league: ground.league,
        limits: ground.limits,
        reader: ground.reader,
        asks: vec![ask],
        planted: plants
            .iter()
            .map(|(cause, how, _)| Plant { cause: *cause, how })
            .collect(),
        ..Case::default()
    }
}

/// Few steps, as many as it takes, or as many as there can be.
pub fn steps(rng: &mut Rng) -> Steps {
    let most = Steps::Of(u32::MAX);
    rng.pick(&[
        Steps::Of(0),
        Steps::Of(1),
        Steps::Of(3),
        Steps::OneLess,
        Steps::All,
        Steps::OneMore,
        most,
    ])
}

/// No try, a few, or more than there can be.
fn budget(rng: &mut Rng) -> u32 {
    rng.pick(&[0, 1, 2, 9, 300, 65_552, u32::MAX])
}

#[cfg(test)]
mod tests {
    use super::*;

    #[test]
    fn every_refusal_has_a_plant_and_93_pairs_can_meet() {
        for cause in CAUSES {
            assert!(plants().iter().any(|plant| plant.0 == cause));
        }
        assert_eq!(pairs().len(), 93);
        assert_eq!(other_pairs(), 69);
        assert_eq!(training_pairs().len(), 44);
        assert_eq!(trimming_pairs().len(), 28);
        assert_eq!(causing_pairs().len(), 36);
        assert_eq!(leaving_out_pairs().len(), 21);
    }

    #[test]
    fn plants_and_pairs_of_readers_come_last() {
        let plants = plants();
        let of_readers = others()..untrained();
        let is_last =
            |(place, plant): (usize, &Row)| is_of_a_reader(plant.0) == of_readers.contains(&place);
        assert!(plants.iter().enumerate().all(is_last));
        let own = plants[untrained()..].iter().map(|plant| plant.0.number());
        assert!(own.is_sorted_by_key(|number| [16, 14, 15].iter().position(|own| *own == number)));
        let pairs = pairs().into_iter().map(|pair| is_of_a_reader(pair.0));
        assert!(pairs.is_sorted());
    }
}
