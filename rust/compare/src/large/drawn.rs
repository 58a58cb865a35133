//! Large cases that follow from the seed: fits of up to 256 items, 1,024
//! skills and 30,000 attributes over the catalogue of full size.

use std::collections::BTreeMap;

use super::catalogue::{Role as Made, attribute, catalogue, hardpoint_mark};
use super::fits::fill;
use crate::case::{Ask, Case, Room};
use crate::generate::fit::fit;
use crate::generate::world::{Role, Style, World};
use crate::model::Fit;
use crate::names::COUNT;
use crate::rng::Rng;

/// One in so many cases of a run is drawn here.
pub const EVERY: u64 = 1_000;

/// The types of each role that fits are made of.
const TYPES: usize = 3_000;

pub fn case(seed: u64, number: u64) -> Case {
    // Other numbers than those of the small case of the same number.
    let rng = &mut Rng::for_case(!seed, number);
    let style = match rng.chance(600) {
        true => Style::realistic(rng),
        false => Style::adversarial(rng),
    };
    let world = world(rng, style);
    let mut made = fit(rng, &world, style, 256);
    shorten(rng, &mut made);
    if rng.chance(500) {
        fill(&mut made);
    }
    let results = made.results.len() as u32;
    let mut asks = vec![
        Ask::List(Room::OneShort),
        Ask::List(Room::Exact),
        Ask::List(Room::Of(135_696 + rng.below(100))),
    ];
    for result in [0, 1, rng.below(results as usize + 2) as u32, results + 1] {
        asks.push(Ask::Skill(result, Room::Exact));
        asks.push(Ask::Skill(result, Room::Of(12_288 + rng.below(100))));
    }
    Case {
        title: "a fit over a catalogue of full size".to_string(),
        catalogue: world.catalogue,
        fits: vec![made],
        asks,
        ..Case::default()
    }
}

/// As many skills, items and results as there may be; which, is drawn.
fn shorten(rng: &mut Rng, fit: &mut Fit) {
    rng.shuffle(&mut fit.skills);
    fit.skills.truncate(1_024);
    fit.skills.sort_by_key(|skill| skill.id);
    fit.items.truncate(256);
    fit.results.truncate(256);
}

fn world(rng: &mut Rng, style: Style) -> World {
    let mut made = catalogue();
    made.names.retain(|_| !rng.chance(style.missing));
    let mut roles: BTreeMap<Role, Vec<i32>> = BTreeMap::new();
    for number in 0..TYPES {
        let high = Made::Module(0).id(number);
        let weapon = match hardpoint_mark(number) {
            7 => Role::Turret,
            _ => Role::Launcher,
        };
        let mode = match number % 2 {
            0 => Role::Container,
            _ => Role::Mode,
        };
        let rows = [
            (Role::Hull, Made::Hull.id(number)),
            (Role::Structure, Made::Structure.id(number)),
            (mode, Made::ModeOrContainer.id(number)),
            (Role::Skill, Made::Skill.id(number)),
            (Role::Rack(0), high),
            (weapon, high),
            (Role::Rack(1), Made::Module(1).id(number)),
            (Role::Rack(2), Made::Module(2).id(number)),
            (Role::Rack(3), Made::Module(3).id(number)),
            (Role::Rack(4), Made::Subsystem.id(number)),
            (Role::Rack(5), Made::Module(5).id(number)),
            (Role::StructureModule, Made::StructureModule.id(number)),
            (Role::Drone, Made::Drone.id(number)),
            (Role::Fighter, Made::Fighter.id(number)),
            (Role::Implant, Made::Implant.id(number)),
            (Role::Cargo, Made::Odd.id(number)),
        ];
        for (role, id) in rows {
            roles.entry(role).or_default().push(id);
        }
    }
    World::of_rows(made, (0..COUNT).map(attribute).collect(), roles)
}
