//! Makes cases from a seed.

pub mod cause;
pub mod fit;
pub mod growth;
pub mod hall;
pub mod haul;
pub mod league;
mod leave_out;
pub mod limits;
pub mod page;
mod patch;
pub mod plant;
mod raw;
mod reader;
pub mod skills;
mod train;
mod trim;
pub mod world;

use crate::case::{Ask, Case, Room};
use crate::model::Fit;
use crate::rng::Rng;
use plant::Calls;
use world::{Style, World};

/// Has a patch draw other numbers than the case that it changes.
const PATCH: u64 = 0x0050_4154_4348;

/// The same of who reads it.
const READER: u64 = 0x5245_4144_4552;

/// Has cargo behind a fit drawn from other numbers than the fit.
const HAUL: u64 = 0x4841_554C;

/// The same of how it is trained.
const TRAIN: u64 = 0x0054_5241_494E;

/// And of how its catalogue is trimmed.
const TRIM: u64 = 0x5452_494D;

/// And of which entries are asked about.
const CAUSE: u64 = 0x0043_4155_5345;

/// And of what is taken off.
const LEAVE_OUT: u64 = 0x4C45_4156_4531;

/// The generated case of a number. What a patch takes away and what its calls
/// bring beside the images is drawn by itself, so that the rest is the same with
/// and without.
pub fn case(seed: u64, number: u64) -> Case {
    let mut case = images(&mut Rng::for_case(seed, number));
    patch::apply(&mut Rng::for_case(seed ^ PATCH, number), &mut case);
    league::bring(&mut Rng::for_case(!seed, number), &mut case);
    page::bring(&mut Rng::for_case(!seed, !number), &mut case);
    reader::bring(&mut Rng::for_case(seed ^ READER, number), &mut case);
    haul::bring(&mut Rng::for_case(seed ^ HAUL, number), &mut case);
    train::bring(&mut Rng::for_case(seed ^ TRAIN, number), &mut case);
    trim::bring(&mut Rng::for_case(seed ^ TRIM, number), &mut case);
    cause::bring(&mut Rng::for_case(seed ^ CAUSE, number), &mut case);
    leave_out::bring(&mut Rng::for_case(seed ^ LEAVE_OUT, number), &mut case);
    case
}

fn images(rng: &mut Rng) -> Case {
    match rng.below(1000) {
        0..=224 => {
            let style = Style::realistic(rng);
            single(rng, style, 24, "a realistic fit")
        }
        225..=239 => leave_out::planted(rng),
        240..=259 => cause::planted(rng),
        260..=279 => trim::planted(rng),
        280..=299 => train::planted(rng),
        300..=549 => {
            let style = Style::adversarial(rng);
            single(rng, style, 10, "an adversarial fit")
        }
        550..=649 => skills::graph(rng),
        650..=769 => growth::growth(rng),
        770..=839 => hall::hall(rng),
        840..=889 => {
            let way = rng.below(plant::untrained());
            let ground = plant::Ground::realistic(rng);
            plant::alone(rng, ground, way, Calls::Lists)
        }
        890..=899 => {
            let way = rng.pick(&plant::widening());
            let ground = plant::Ground::realistic(rng);
            plant::widened(plant::alone(rng, ground, way, Calls::Lists))
        }
        900..=939 => {
            let pair = rng.pick(&plant::pairs());
            let ground = plant::Ground::realistic(rng);
            plant::together(rng, ground, pair, Calls::Lists)
        }
        940..=949 => {
            let pair = rng.pick(&plant::widening_pairs());
            let ground = plant::Ground::realistic(rng);
            plant::widened(plant::together(rng, ground, pair, Calls::Lists))
        }
        950..=979 => raw::flipped(rng),
        980..=989 => raw::noise(rng),
        990..=997 => {
            let count = rng.between(505, 516) as usize;
            skills::reaching(rng, count)
        }
        _ => limits::full(rng),
    }
}

/// One fit of a style with its calls.
fn single(rng: &mut Rng, style: Style, most: usize, title: &str) -> Case {
    let world = World::new(rng, style);
    let made = fit::fit(rng, &world, style, most);
    let asks = asks(rng, &made);
    Case {
        title: title.to_string(),
        catalogue: world.catalogue,
        fits: vec![made],
        asks,
        ..Case::default()
    }
}

/// The list call with every kind of buffer, and the skill call of some results.
fn asks(rng: &mut Rng, fit: &Fit) -> Vec<Ask> {
    let results = fit.results.len() as u32;
    let longer = Room::Longer(rng.below(100));
    let rooms = [Room::Empty, Room::OneShort, Room::Exact, longer];
    let mut asks = rooms.map(Ask::List).to_vec();
    let any = rng.below(results as usize + 3) as u32;
    for result in [0, 1, any, results + 1] {
        asks.push(Ask::Skill(result, Room::Exact));
        asks.push(Ask::Skill(result, a_room(rng)));
    }
    if rng.chance(250) {
        asks.push(Ask::Widen(Room::Exact));
        asks.push(Ask::Widen(a_room(rng)));
        asks.push(Ask::WidenedList);
        asks.push(Ask::WidenedSkill(any));
    }
    asks
}

fn a_room(rng: &mut Rng) -> Room {
    match rng.below(4) {
        0 => Room::Empty,
        1 => Room::OneShort,
        2 => Room::Exact,
        _ => Room::Longer(rng.below(200)),
    }
}
