//! What refusals are planted on, and the larger changes that plants share.

use super::super::fit::fit;
use super::super::world::{Role, Style, World};
use super::table::an_item;
use crate::case::{Position, Room};
use crate::model::{Base, Catalogue, Fit, Outcome, Skill};
use crate::names::{CAPACITY, MAX_ACTIVE_DRONES, REQUIRED, RIG_SIZE};
use crate::page::Limits;
use crate::profile::{League, Profile};
use crate::reader::Reader;
use crate::rng::Rng;
use crate::sketch::*;

/// What a plant may change.
pub struct Ground {
    pub catalogue: Catalogue,
    pub fit: Fit,
    pub league: League,
    pub limits: Limits,
    pub reader: Reader,
    pub result: u32,
    pub position: Position,
    pub room: Room,
}

impl Ground {
    /// The least that every plant can stand on.
    pub fn small() -> Ground {
        let sketch = Sketch::hull()
            .name(MAX_ACTIVE_DRONES)
            .name(REQUIRED)
            .name(REQUIRED + 1)
            .known(9, 100, CATEGORY_DRONE)
            .mark(9, 1)
            .ship(CAPACITY, 5.0)
            .ship(RIG_SIZE, 1.0)
            .character(MAX_ACTIVE_DRONES, 5.0)
            .skill(3300, 1)
            .item(9, DRONE_BAY, 0)
            .finish();
        Ground {
            catalogue: sketch.catalogue,
            fit: sketch.fit,
            league: League::default(),
            limits: Limits::MAIN,
            reader: Reader::OFFICER,
            result: 0,
            position: Position::Last,
            room: Room::Longer(48),
        }
    }

    /// A realistic fit with something of everything that a plant may break.
    pub fn realistic(rng: &mut Rng) -> Ground {
        let style = Style {
            missing: 0,
            odd: 0,
            wrong: 50,
            strange_ids: false,
        };
        let world = World::new(rng, style);
        let mut fit = fit(rng, &world, style, 8);
        fit.ship_type = world.a(rng, Role::Hull);
        for outcome in [&mut fit.ship, &mut fit.character] {
            while outcome.attributes.len() < 2 {
                let id = outcome.attributes.last().map_or(1, |row| row.0 + 1);
                outcome.attributes.push((id, 0));
            }
        }
        fit.items.insert(0, an_item(BOOSTER, 1));
        fit.results.insert(0, Outcome::default());
        // Plants put skills behind the last, so that has to leave room.
        fit.skills.retain(|skill| skill.id < 1_000_000);
        if fit.skills.is_empty() {
            let id = world.a(rng, Role::Skill);
            fit.skills.push(Skill { id, level: 1 });
        }
        Ground {
            catalogue: world.catalogue,
            fit,
            league: League::default(),
            limits: Limits::MAIN,
            reader: Reader::OFFICER,
            result: 0,
            position: Position::Last,
            room: Room::Longer(24 * 700),
        }
    }
}

/// Has the ship demand so many skills, each demanding the next at level 4.
pub fn chain(ground: &mut Ground, length: i32) {
    let attribute = |name: usize| {
        let names = &ground.catalogue.names;
        let row = names.iter().find(|row| row.number == name as u32);
        row.expect("the ground has every name that a plant needs")
            .attribute
    };
    let (skill, level) = (attribute(REQUIRED), attribute(REQUIRED + 1));
    let first = 1_000_000;
    let mut demanded = ground.fit.ship.attributes.clone();
    demanded.retain(|row| row.0 != skill && row.0 != level);
    demanded.push((skill, f64::from(first).to_bits()));
    demanded.push((level, 4f64.to_bits()));
    demanded.sort_by_key(|row| row.0);
    ground.fit.ship.attributes = demanded;
    for number in 0..length - 1 {
        let id = first + number;
        ground
            .catalogue
            .bases
            .push(Base::single(id, skill, (id + 1) as f32));
        let level = Base::single(id, level, 4.0);
        ground.catalogue.bases.push(level);
    }
    ground.catalogue.bases.sort_by_key(|base| base.type_id);
    ground.result = 0;
}

impl Ground {
    /// The profile, of a few groups where there was none.
    pub fn profile(&mut self) -> &mut Profile {
        let few = || Profile::of(&[(-7, 3), (0, 0), (25, 1_000_000), (100, 4_294_967_295)]);
        self.league.profile.get_or_insert_with(few)
    }
}

/// Makes sure that the list call and the skill call each have an entry.
pub fn an_entry(ground: &mut Ground) {
    chain(ground, 2);
    let last = ground.fit.skills.last().map_or(0, |skill| skill.id);
    ground.fit.skills.push(Skill {
        id: last.max(2_000_000) + 1,
        level: 1,
    });
}
