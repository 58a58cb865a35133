//! A catalogue in the manner of EVE's type data: hulls, modules of every rack,
//! drones, fighters, implants, skills that demand skills, and cargo.

use std::collections::BTreeMap;

use crate::model::{Base, Catalogue, Effect, Link, Name, Type};
use crate::names::{self, REQUIRED};
use crate::numbers;
use crate::rng::Rng;
use crate::sketch::*;

/// How far a case strays from what the game holds, each in so many of a
/// thousand draws.
#[derive(Clone, Copy, Debug)]
pub struct Style {
    /// Names that have no id.
    pub missing: u32,
    /// Numbers that are odd.
    pub odd: u32,
    /// Items in a place where they do not belong.
    pub wrong: u32,
    /// Ids from a small, mixed range, negative ones included.
    pub strange_ids: bool,
}

impl Style {
    /// A fit as a member would enter it.
    pub fn realistic(rng: &mut Rng) -> Style {
        Style {
            missing: rng.pick(&[0, 0, 0, 10]),
            odd: rng.pick(&[0, 10, 30]),
            wrong: rng.pick(&[0, 20, 120]),
            strange_ids: false,
        }
    }

    /// A fit as an enemy would.
    pub fn adversarial(rng: &mut Rng) -> Style {
        Style {
            missing: rng.pick(&[0, 30, 150, 500]),
            odd: rng.pick(&[100, 300, 600]),
            wrong: rng.pick(&[100, 400]),
            strange_ids: rng.chance(500),
        }
    }
}

/// What a type is for.
#[derive(Clone, Copy, Debug, PartialEq, Eq, PartialOrd, Ord)]
pub enum Role {
    Hull,
    Structure,
    Container,
    Mode,
    Skill,
    Rack(u8),
    Turret,
    Launcher,
    StructureModule,
    Drone,
    Fighter,
    Implant,
    Cargo,
}

const ROLES: [Role; 18] = [
    Role::Hull,
    Role::Structure,
    Role::Container,
    Role::Mode,
    Role::Skill,
    Role::Rack(0),
    Role::Rack(1),
    Role::Rack(2),
    Role::Rack(3),
    Role::Rack(4),
    Role::Rack(5),
    Role::Turret,
    Role::Launcher,
    Role::StructureModule,
    Role::Drone,
    Role::Fighter,
    Role::Implant,
    Role::Cargo,
];

/// A catalogue with its types by role and every name's attribute id, also of
/// those names that the catalogue leaves out.
pub struct World {
    pub catalogue: Catalogue,
    pub ids: Vec<i32>,
    roles: BTreeMap<Role, Vec<i32>>,
    all: Vec<i32>,
}

/// Effect ids as the game numbers them, by mark.
const EFFECTS: [(i32, u32); 9] = [
    (11, 3),
    (12, 1),
    (13, 2),
    (40, 8),
    (42, 7),
    (2663, 4),
    (3772, 5),
    (6306, 6),
    (16, 0),
];

impl World {
    pub fn new(rng: &mut Rng, style: Style) -> World {
        let ids = attribute_ids(rng, style);
        let mut world = World {
            catalogue: Catalogue::default(),
            ids,
            roles: BTreeMap::new(),
            all: Vec::new(),
        };
        for number in 0..names::COUNT {
            if !rng.chance(style.missing) {
                world.catalogue.names.push(Name {
                    number: number as u32,
                    attribute: world.ids[number],
                });
            }
        }
        for (id, mark) in EFFECTS {
            if !rng.chance(style.missing / 4) {
                world.catalogue.effects.push(Effect { id, mark });
            }
        }
        world.catalogue.effects.sort_by_key(|effect| effect.id);
        world.add_types(rng, style);
        world.add_links(rng, style);
        world.add_bases(rng, style);
        world
    }

    /// Over a catalogue that is there, with the types of each role.
    pub fn of_rows(catalogue: Catalogue, ids: Vec<i32>, roles: BTreeMap<Role, Vec<i32>>) -> World {
        let all = catalogue.types.iter().map(|row| row.id).collect();
        World {
            catalogue,
            ids,
            roles,
            all,
        }
    }

    /// A type of a role.
    pub fn a(&self, rng: &mut Rng, role: Role) -> i32 {
        rng.pick(&self.roles[&role])
    }

    pub fn of(&self, role: Role) -> &[i32] {
        &self.roles[&role]
    }

    /// Any type, sometimes one that the catalogue lacks.
    pub fn any(&self, rng: &mut Rng) -> i32 {
        match rng.below(8) {
            0 => rng.pick(&[0, -1, i32::MIN, i32::MAX, 99_999_999, self.all[0] + 1]),
            _ => rng.pick(&self.all),
        }
    }

    pub fn row(&self, type_id: i32) -> Option<&Type> {
        self.catalogue.types.iter().find(|row| row.id == type_id)
    }

    fn add_types(&mut self, rng: &mut Rng, style: Style) {
        let mut known: BTreeMap<i32, Type> = BTreeMap::new();
        for role in ROLES {
            let count = match role {
                Role::Skill => rng.between(3, 9),
                _ => rng.between(1, 3),
            };
            for _ in 0..count {
                let id = type_id(rng, style);
                let row = a_type(rng, style, role, id);
                known.entry(id).or_insert(row);
                self.roles.entry(role).or_default().push(id);
            }
        }
        self.all = known.keys().copied().collect();
        self.catalogue.types = known.into_values().collect();
    }

    fn add_links(&mut self, rng: &mut Rng, style: Style) {
        let effect_of = |mark: u32| {
            EFFECTS
                .iter()
                .find(|row| row.1 == mark)
                .map_or(16, |row| row.0)
        };
        let mut links = Vec::new();
        for (role, ids) in &self.roles {
            for type_id in ids {
                let mut effects = match role {
                    Role::Rack(rack) => vec![effect_of(u32::from(*rack) + 1)],
                    Role::Turret => vec![effect_of(1), effect_of(7)],
                    Role::Launcher => vec![effect_of(8), effect_of(1)],
                    Role::StructureModule => vec![effect_of(1)],
                    _ => Vec::new(),
                };
                effects.push(16);
                if rng.chance(style.wrong / 2) {
                    effects.push(effect_of(rng.between(0, 8) as u32));
                }
                if rng.chance(style.wrong / 4) {
                    effects.push(77_777);
                }
                if rng.chance(300) {
                    rng.shuffle(&mut effects);
                }
                links.extend(effects.into_iter().map(|effect| Link {
                    type_id: *type_id,
                    effect,
                }));
            }
        }
        links.sort_by_key(|link| link.type_id);
        self.catalogue.links = links;
    }

    fn add_bases(&mut self, rng: &mut Rng, style: Style) {
        let skills = self.of(Role::Skill).to_vec();
        let mut bases = Vec::new();
        for type_id in &skills {
            for row in 0..6 {
                if !rng.chance(if row == 0 { 500 } else { 80 }) {
                    continue;
                }
                let mut add = |name: usize, single: u32| {
                    let value = f32::from_bits(single);
                    bases.push(Base::single(*type_id, self.ids[name], value));
                };
                let wanted = match rng.chance(style.odd / 4) {
                    true => numbers::odd_single(rng),
                    false => (rng.pick(&skills) as f32).to_bits(),
                };
                let level = match rng.chance(style.odd) {
                    true => numbers::odd_single(rng),
                    false => (rng.between(1, 5) as f32).to_bits(),
                };
                add(REQUIRED + 2 * row, wanted);
                if rng.chance(100) {
                    add(REQUIRED + 2 * row, (rng.pick(&skills) as f32).to_bits());
                }
                if !rng.chance(100) {
                    add(REQUIRED + 2 * row + 1, level);
                }
                if rng.chance(100) {
                    add(REQUIRED + 2 * row + 1, 5f32.to_bits());
                }
            }
        }
        for _ in 0..rng.below(12) {
            bases.push(Base {
                type_id: self.any(rng),
                attribute: rng.pick(&self.ids),
                value: numbers::widened(numbers::odd_single(rng)),
            });
        }
        if rng.chance(300) {
            rng.shuffle(&mut bases);
        }
        bases.sort_by_key(|base| base.type_id);
        self.catalogue.bases = bases;
    }
}

/// An attribute id for each name: the game's manner, or a small mixed range
/// in which names may share an id.
fn attribute_ids(rng: &mut Rng, style: Style) -> Vec<i32> {
    (0..names::COUNT as i32)
        .map(|number| match style.strange_ids {
            true if rng.chance(50) => rng.pick(&[i32::MIN, -1, 0, i32::MAX]),
            true => rng.between(-60, 60) as i32,
            // Spread out in no order of the names', no two alike.
            false => 11 + number * 1237 % 3001,
        })
        .collect()
}

fn type_id(rng: &mut Rng, style: Style) -> i32 {
    match style.strange_ids {
        true if rng.chance(40) => rng.pick(&[i32::MIN, -1, 0, i32::MAX]),
        true => rng.between(-80, 80) as i32,
        // Every id below 2^24 is exact as an f32, as the game's are.
        false => rng.between(400, 90_000) as i32,
    }
}

fn a_type(rng: &mut Rng, style: Style, role: Role, id: i32) -> Type {
    let (category, groups): (i32, &[i32]) = match role {
        Role::Hull => (CATEGORY_SHIP, &[25, 26, 27, 419, 547, 963]),
        Role::Structure => (CATEGORY_STRUCTURE, &[1657, 1404, 1406]),
        Role::Container => (2, &[12, 340, 448, 649]),
        Role::Mode => (CATEGORY_MODULE, &[1306]),
        Role::Skill => (CATEGORY_SKILL, &[255, 256, 257, 268]),
        Role::Rack(4) => (CATEGORY_SUBSYSTEM, &[954, 955, 956, 957]),
        Role::Rack(5) => (CATEGORY_STRUCTURE_MODULE, &[1321, 1322]),
        Role::Rack(3) => (CATEGORY_MODULE, &[773, 774]),
        Role::Rack(_) => (CATEGORY_MODULE, &[38, 40, 46, 60, 62]),
        Role::Turret => (CATEGORY_MODULE, &[53, 55, 74]),
        Role::Launcher => (CATEGORY_MODULE, &[507, 508, 509]),
        Role::StructureModule => (CATEGORY_STRUCTURE_MODULE, &[1562, 1327]),
        Role::Drone => (CATEGORY_DRONE, &[100, 101]),
        Role::Fighter => (CATEGORY_FIGHTER, &[1652, 1653, 1537, 4777]),
        Role::Implant => (CATEGORY_IMPLANT, &[300, 303, 738]),
        Role::Cargo => (CATEGORY_CHARGE, &[83, 85, 18]),
    };
    let (mut group, mut category) = (rng.pick(groups), category);
    if rng.chance(style.odd / 4) {
        group = rng.pick(&[0, -1, 12, 1306, 25, i32::MIN]);
    }
    if rng.chance(style.odd / 8) {
        category = rng.pick(&[0, 6, 7, 16, 18, 20, 32, 65, 66, 87, -6]);
    }
    let flag = u32::from(!rng.chance(100));
    let volume = match rng.chance(style.odd) {
        true => numbers::odd_single(rng),
        // Any mantissa: products then take more digits than an f64 holds.
        false if rng.chance(400) => 0x3C00_0000 + (rng.draw() as u32 & 0x07FF_FFFF),
        false => rng
            .pick(&[0.01f32, 0.1, 1.0, 5.0, 25.0, 50.0, 4000.0])
            .to_bits(),
    };
    Type {
        id,
        group,
        category,
        flag,
        volume,
    }
}
