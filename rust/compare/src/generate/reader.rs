//! Who list and skill calls are for, and other training for the same fit: the
//! two fits that a guest reads.

use crate::case::{Ask, Case, Cause, Plant, Room};
use crate::model::{Catalogue, Damage, Skill};
use crate::reader::Reader;
use crate::rng::Rng;
use crate::sketch::CATEGORY_SKILL;

/// Gives a case its reader and another pilot's training. Where another refusal
/// is planted, the reader is one who gets it.
pub fn bring(rng: &mut Rng, case: &mut Case) {
    let is_about_readers = |plant: &Plant| matches!(plant.cause, Cause::Number(19 | 20));
    if case.fits.is_empty() {
        return;
    }
    if !case.planted.iter().any(is_about_readers) {
        case.reader = reader(rng, case);
    }
    if case.fits[0].damage == Damage::default() && rng.chance(400) {
        train(rng, case);
    }
}

fn reader(rng: &mut Rng, case: &Case) -> Reader {
    let asks_for_skills = |ask: &Ask| matches!(ask, Ask::Skill(..));
    match case.planted.is_empty() {
        true => match rng.below(100) {
            0..=44 => Reader::OFFICER,
            45..=64 => Reader::PILOT,
            65..=89 => Reader::GUEST,
            90..=96 => rng.pick(&Reader::ABOVE),
            _ => Reader(3 + rng.below(u32::MAX as usize - 2) as u32),
        },
        false if case.asks.iter().any(asks_for_skills) => rng.pick(&Reader::ALL[1..]),
        false => rng.pick(&Reader::ALL),
    }
}

/// Other training, and a guest's calls on both fits. Their buffers are those of
/// the calls that are made already.
fn train(rng: &mut Rng, case: &mut Case) {
    case.training = training(rng, &case.catalogue, &case.fits[0].skills);
    let results = case.fits[0].results.len() as u32;
    let room = match rng.below(5) {
        0 => Room::Empty,
        1 => Room::OneShort,
        2 => Room::Exact,
        3 => Room::Longer(rng.below(100)),
        // Whatever the lists have.
        _ => Room::Of(rng.below(400)),
    };
    case.asks.push(Ask::RetrainedList(room));
    if rng.chance(300) {
        let result = rng.below(results as usize + 3) as u32;
        case.asks.push(Ask::RetrainedSkill(result, room));
    }
}

/// The same skills at other levels, some of them, others besides, or others
/// altogether.
fn training(rng: &mut Rng, catalogue: &Catalogue, own: &[Skill]) -> Vec<Skill> {
    let mut skills = match rng.below(10) {
        0 => Vec::new(),
        1..=5 => own.to_vec(),
        _ => some(rng, catalogue, own.len()),
    };
    if rng.chance(500) {
        for skill in &mut skills {
            skill.level = rng.pick(&[0, 1, 4, 5, 6, 255]);
        }
    }
    if rng.chance(300) {
        let kept = rng.below(skills.len() + 1);
        skills.truncate(kept);
    }
    if rng.chance(400) {
        let more = rng.pick(&[1, 2, 7, 60]);
        skills.extend(some(rng, catalogue, more));
    }
    if rng.chance(20) {
        let missing = 1_024_usize.saturating_sub(skills.len());
        skills.extend(some(rng, catalogue, missing));
    }
    skills.sort_by_key(|skill| skill.id);
    skills.dedup_by_key(|skill| skill.id);
    skills.truncate(1_024);
    skills
}

/// So many skills: of the catalogue's, of its other types, and of types that it
/// lacks.
fn some(rng: &mut Rng, catalogue: &Catalogue, count: usize) -> Vec<Skill> {
    let of = |is_skill: bool| {
        let rows = catalogue.types.iter();
        let own = rows.filter(|row| (row.category == CATEGORY_SKILL) == is_skill);
        own.map(|row| row.id).collect::<Vec<i32>>()
    };
    let (known, others) = (of(true), of(false));
    let id = |rng: &mut Rng| match rng.below(4) {
        0 if !others.is_empty() => rng.pick(&others),
        1 => rng.draw() as i32,
        _ if !known.is_empty() => rng.pick(&known),
        _ => rng.between(-1, 40_000) as i32,
    };
    let mut skills = Vec::new();
    for _ in 0..count {
        let id = id(rng);
        skills.push(Skill {
            id,
            level: rng.below(6) as u8,
        });
    }
    skills
}
