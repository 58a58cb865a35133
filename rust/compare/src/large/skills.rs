//! Walks over the catalogue of full size, with as many trained skills as there
//! may be.

use super::catalogue::{CHAIN, LONG_SKILL, Role, SKILLS, catalogue};
use super::fits::{PAIRS, fill, outcome};
use crate::case::{Ask, Case, Room};
use crate::model::{Fit, Item, Skill};
use crate::names::REQUIRED;
use crate::sketch::*;
use crate::tally::size::{RESULTS, SKILL_BUFFERS};

/// The results that demand: what stands at both ends of the ids, a skill with
/// very many base values, the last skill, and 513 skills.
const ENDS: u32 = 1;
const LONG: u32 = 2;
pub const TOO_MANY: u32 = 102;
const LAST: u32 = 257;

/// The whole chain of 512 is listed, with every buffer.
pub fn untrained() -> Case {
    let rooms = SKILL_BUFFERS.map(|length| Room::Of(length as usize));
    let asks: Vec<Ask> = ROOMS
        .iter()
        .chain(&rooms)
        .map(|room| Ask::Skill(0, *room))
        .collect();
    case("512 skills to train, at full size", demanding(|_| 0), asks)
}

/// Some are trained well enough; every result that demands is asked, and
/// numbers that no result has.
pub fn trained() -> Case {
    let mut asks = Vec::new();
    for result in [0, ENDS, LONG, TOO_MANY, LAST] {
        asks.push(Ask::Skill(result, Room::OneShort));
        asks.push(Ask::Skill(result, Room::Longer(40)));
    }
    asks.extend(RESULTS.map(|result| Ask::Skill(result, Room::Longer(40))));
    let levels = |number: usize| (number % 6) as u8;
    case("skills at full size", demanding(levels), asks)
}

fn case(title: &str, fit: Fit, asks: Vec<Ask>) -> Case {
    Case {
        title: title.to_string(),
        catalogue: catalogue(),
        fits: vec![fit],
        asks,
        ..Case::default()
    }
}

fn demanding(level: impl Fn(usize) -> u8) -> Fit {
    let skill = |number: usize| f64::from(Role::Skill.id(number));
    let demand = |wanted: &[f64]| {
        let rows = (REQUIRED..).step_by(2).zip(wanted);
        let both = rows.flat_map(|(name, wanted)| [(name, *wanted), (name + 1, 5.0)]);
        outcome(ONLINE, &both.collect::<Vec<_>>())
    };
    let mut fit = Fit {
        ship_type: Role::Hull.id(0),
        items: vec![Item::default(); PAIRS],
        results: vec![outcome(ONLINE, &[]); PAIRS],
        ship: demand(&[skill(CHAIN - 1)]),
        character: demand(&[f64::from(i32::MIN), f64::from(i32::MAX)]),
        ..Fit::default()
    };
    let mut ask = |result: u32, wanted: &[f64]| fit.results[result as usize - 2] = demand(wanted);
    ask(LONG, &[skill(LONG_SKILL)]);
    ask(TOO_MANY, &[skill(CHAIN - 1), skill(CHAIN)]);
    ask(LAST, &[skill(SKILLS - 1)]);
    // The first 512 and the last 510 skills, and what stands at both ends.
    let numbers = (0..CHAIN).chain(SKILLS - (CHAIN - 2)..SKILLS);
    fit.skills.push(Skill {
        id: i32::MIN,
        level: level(1),
    });
    fit.skills.extend(numbers.map(|number| Skill {
        id: Role::Skill.id(number),
        level: level(number),
    }));
    fit.skills.push(Skill {
        id: i32::MAX,
        level: level(2),
    });
    fill(&mut fit);
    fit
}
