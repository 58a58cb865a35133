//! A catalogue of full size, in the manner of the game's data, with ids over
//! the whole range of an i32: 48,000 types, 3,500 effects, 50,000 links and
//! 600,000 base values. The first and the last row of every block count.

use std::sync::LazyLock;

use crate::model::{Base, Catalogue, Effect, Link, Name, Type};
use crate::names::{COUNT, REQUIRED};
use crate::sketch::*;

const TYPES: usize = 48_000;
const EFFECTS: usize = 3_500;
const BASES_OF_EACH: usize = 12;

/// Skills demand the skill before them, but for every 512th.
pub const CHAIN: usize = 512;
pub const SKILLS: usize = TYPES / 16;

/// Two types have so many links more than others, and two skills so many base
/// values more: what counts stands behind them.
const MORE_LINKS: usize = 1_000;
const MORE_BASES: usize = 12_000;

/// The skill with many base values that is not the last one.
pub const LONG_SKILL: usize = 1_500;

/// What a type is for, by its number modulo 16.
#[derive(Clone, Copy, Debug, PartialEq)]
pub enum Role {
    Hull,
    Skill,
    /// A module of a rack.
    Module(u8),
    Subsystem,
    StructureModule,
    Drone,
    Fighter,
    Implant,
    /// No module, and marked as one: twice for a rack, once for a hardpoint.
    Odd,
    Structure,
    /// A mode, or a container.
    ModeOrContainer,
}

impl Role {
    pub const ALL: [Role; 16] = [
        Role::Hull,
        Role::Skill,
        Role::Module(HIGH),
        Role::Module(MEDIUM),
        Role::Module(LOW),
        Role::Module(RIG),
        Role::Module(SUBSYSTEM),
        Role::Module(SERVICE),
        Role::Subsystem,
        Role::StructureModule,
        Role::Drone,
        Role::Fighter,
        Role::Implant,
        Role::Odd,
        Role::Structure,
        Role::ModeOrContainer,
    ];

    /// The role of the type at a row; the first and the last are modules.
    fn of(row: usize) -> Role {
        Role::ALL[(row + 3) % 16]
    }

    /// The row of the type of a number among those of the role.
    fn row(self, number: usize) -> usize {
        let place = Role::ALL.iter().position(|role| *role == self);
        16 * number + (place.expect("every role is among them") + 13) % 16
    }

    /// The id of the type of a number, below 3,000, among those of the role.
    pub fn id(self, number: usize) -> i32 {
        type_id(self.row(number))
    }

    fn category(self, row: usize) -> i32 {
        match self {
            Role::Hull => CATEGORY_SHIP,
            Role::Skill => CATEGORY_SKILL,
            Role::Module(_) => CATEGORY_MODULE,
            Role::Subsystem => CATEGORY_SUBSYSTEM,
            Role::StructureModule => CATEGORY_STRUCTURE_MODULE,
            Role::Drone => CATEGORY_DRONE,
            Role::Fighter => CATEGORY_FIGHTER,
            Role::Implant => CATEGORY_IMPLANT,
            Role::Odd => CATEGORY_CHARGE,
            Role::Structure => CATEGORY_STRUCTURE,
            Role::ModeOrContainer => [2, CATEGORY_MODULE][row / 16 % 2],
        }
    }
}

/// Each id is a multiple of 128, so that an f32 holds it; the last is the
/// highest of all, which the cast of a larger f32 gives.
fn type_id(row: usize) -> i32 {
    spread(row, TYPES, 89_472)
}

fn effect_id(row: usize) -> i32 {
    spread(row, EFFECTS, 1_227_133)
}

/// The ids of the names, in no order of theirs.
pub fn attribute(name: usize) -> i32 {
    spread((37 * name + 5) % COUNT, COUNT, 48_806_446)
}

/// Ids from the lowest to the highest, so many, by steps.
pub fn spread(row: usize, rows: usize, step: usize) -> i32 {
    match row + 1 == rows {
        true => i32::MAX,
        false => (i64::from(i32::MIN) + (row * step) as i64) as i32,
    }
}

/// Whether a turret's or a launcher's hardpoint is taken.
pub fn hardpoint_mark(row_of_role: usize) -> u32 {
    if row_of_role.is_multiple_of(2) { 8 } else { 7 }
}

/// The catalogue, made once.
pub fn catalogue() -> Catalogue {
    static MADE: LazyLock<Catalogue> = LazyLock::new(made);
    MADE.clone()
}

fn made() -> Catalogue {
    Catalogue {
        names: (0..COUNT)
            .map(|number| Name {
                number: number as u32,
                attribute: attribute(number),
            })
            .collect(),
        effects: (0..EFFECTS)
            .map(|row| Effect {
                id: effect_id(row),
                mark: mark(row),
            })
            .collect(),
        types: (0..TYPES).map(a_type).collect(),
        links: (0..TYPES).flat_map(links).collect(),
        bases: (0..TYPES).flat_map(bases).collect(),
        ..Catalogue::default()
    }
}

fn a_type(row: usize) -> Type {
    let role = Role::of(row);
    let group = match role {
        Role::ModeOrContainer => [649, 1306][row / 16 % 2],
        _ => row as i32 * 7 % 1_000 - 500,
    };
    Type {
        id: type_id(row),
        group,
        category: role.category(row),
        flag: u32::from(!row.is_multiple_of(5)),
        volume: (row as f32 % 97.0 + 0.25).to_bits(),
    }
}

/// Neighbours have different marks; the first is a rack's, the last a
/// hardpoint's.
fn mark(row: usize) -> u32 {
    (2 * row as u32 + 2) % 9
}

/// An effect of a mark, another one for another type.
fn effect(of: u32, row: usize) -> i32 {
    let place = (0..9).find(|place| mark(*place) == of).expect("a mark");
    effect_id(9 * (row * 31 % 388) + place)
}

fn links(row: usize) -> Vec<Link> {
    let last = row + 1 == TYPES;
    let mut effects = Vec::new();
    match Role::of(row) {
        Role::Module(rack) => {
            if last || row == Role::Module(LOW).row(1_000) {
                effects.extend((0..MORE_LINKS).map(|number| effect(4, number)));
            }
            effects.push(match rack {
                HIGH if last => effect_id(EFFECTS - 1),
                HIGH => effect(hardpoint_mark(row / 16), row),
                // One that the catalogue lacks.
                _ if row.is_multiple_of(7) => effect(0, row) + 1,
                _ => effect(0, row),
            });
            effects.push(match row {
                0 => effect_id(0),
                _ => effect(u32::from(rack) + 1, row),
            });
        }
        Role::Subsystem => effects.push(effect(5, row)),
        Role::Odd => effects.extend([1, hardpoint_mark(row / 16), 2].map(|of| effect(of, row))),
        _ => {}
    }
    let link = |effect| Link {
        type_id: type_id(row),
        effect,
    };
    effects.into_iter().map(link).collect()
}

fn bases(row: usize) -> Vec<Base> {
    let number = row / 16;
    let is_skill = Role::of(row) == Role::Skill;
    let is_long = is_skill && (number == LONG_SKILL || number + 1 == SKILLS);
    let more = if is_long { MORE_BASES } else { 0 };
    let mut values: Vec<(i32, f32)> = (0..more + BASES_OF_EACH)
        .map(|place| (unread(row + place), place as f32))
        .collect();
    let first = attribute(REQUIRED + 2 * (number % 6));
    let level = attribute(REQUIRED + 2 * (number % 6) + 1);
    if is_skill && !number.is_multiple_of(CHAIN) {
        values[more + 3] = (first, Role::Skill.id(number - 1) as f32);
        values[more + 5] = (level, (1 + number % 5) as f32);
        // Of two values the first counts.
        values[more + 9] = (first, 77.0);
    }
    // The first and the last base value of all are a demand's.
    if row == 0 {
        values[0] = (first, i32::MAX as f32);
    }
    if row + 1 == TYPES {
        values[BASES_OF_EACH - 1] = (first, Role::Skill.id(3) as f32);
    }
    let base = |(attribute, value)| Base::single(type_id(row), attribute, value);
    values.into_iter().map(base).collect()
}

/// An attribute id that no name has: those of names are even, or the highest.
pub fn unread(number: usize) -> i32 {
    (number as u32).wrapping_mul(2_654_435_769) as i32 & !1 | 1
}

#[cfg(test)]
mod tests {
    use super::*;
    use crate::tally::size::Block;

    #[test]
    fn the_full_size_is_what_it_is_called() {
        let made = catalogue();
        assert_eq!(made.names.len(), 88);
        assert_eq!(made.effects.len(), Block::Effects.full_size());
        assert_eq!(made.types.len(), Block::Types.full_size());
        assert_eq!(made.links.len(), Block::Links.full_size());
        assert_eq!(made.bases.len(), Block::Bases.full_size());
    }

    #[test]
    fn ids_go_from_end_to_end() {
        let made = catalogue();
        let ends = |ids: Vec<i32>| (*ids.iter().min().unwrap(), *ids.iter().max().unwrap());
        let all = (i32::MIN, i32::MAX);
        assert_eq!(ends(made.types.iter().map(|row| row.id).collect()), all);
        assert_eq!(ends(made.effects.iter().map(|row| row.id).collect()), all);
        assert_eq!(
            ends(made.names.iter().map(|row| row.attribute).collect()),
            all
        );
        for row in &made.types {
            assert_eq!(row.id as f32 as i32, row.id, "an f32 holds the id");
        }
        for name in &made.names {
            assert!((0..90_000).all(|number| unread(number) != name.attribute));
        }
    }
}
