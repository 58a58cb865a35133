//! Catalogues in the manner of EVE's type data, from 1/64 of its size to all
//! of it. Each is part of the next larger one, and the smallest already has
//! every type that a fit of this benchmark names.

use compare::model::{Base, Catalogue, Effect, Link, Name, Type};
use compare::names::{self, REQUIRED};
use compare::rng::Rng;
use compare::sketch::*;

/// How much there is of the full type data.
const TYPES: usize = 48_000;
const EFFECTS: usize = 3_500;
const LINKS: usize = 50_000;
const BASES: usize = 600_000;

/// The parts of the full size that are timed: 1/64, 1/16, 1/4 and all of it.
pub const PARTS: [usize; 4] = [64, 16, 4, 1];

/// The part that counts as a small catalogue.
pub const SMALL: usize = 64;
pub const FULL: usize = 1;

/// Effect ids as the game numbers them, by mark from 1.
const MARKED: [i32; 8] = [12, 13, 11, 2663, 3772, 6306, 42, 40];

/// Another effect that many types have.
const ONLINE_EFFECT: i32 = 16;

/// The types that fits name: in every part of the full size.
pub const SKILLS: usize = 450;
const HULLS: usize = 30;
const MODULES: usize = 170;
const DRONES: usize = 30;
const IMPLANTS: usize = 40;
const GOODS: usize = 30;

/// What a type is for.
#[derive(Clone, Copy, PartialEq)]
pub enum Role {
    Skill(usize),
    Hull,
    /// A module of a rack, by its number.
    Module(u8),
    Drone,
    Implant,
    Goods,
    /// One of the many types that no fit here names.
    Other,
}

/// The attribute id of a name: spread out, in no order of the names'.
pub fn attribute(name: usize) -> i32 {
    11 + name as i32 * 1_237 % 3_001
}

/// The id of the type at a position among all; the game's leave gaps too.
fn type_id(position: usize) -> i32 {
    400 + position as i32 * 15 / 8
}

/// The role of the type at a position: every 64th is one that fits name.
fn role(position: usize) -> Role {
    if !position.is_multiple_of(64) {
        return Role::Other;
    }
    // 750 places, of which each role gets its number, spread over all ids.
    let mut place = position / 64 * 311 % (TYPES / 64);
    for (count, make) in [
        (SKILLS, Role::Skill as fn(usize) -> Role),
        (HULLS, |_| Role::Hull),
        (MODULES, |number| Role::Module((number % 4) as u8)),
        (DRONES, |_| Role::Drone),
        (IMPLANTS, |_| Role::Implant),
        (GOODS, |_| Role::Goods),
    ] {
        if place < count {
            return make(place);
        }
        place -= count;
    }
    Role::Other
}

/// The types of a role, in ascending order of their ids.
pub fn types_of(wanted: impl Fn(Role) -> bool) -> Vec<i32> {
    (0..TYPES)
        .filter(|position| wanted(role(*position)))
        .map(type_id)
        .collect()
}

/// Skills by their number.
pub fn skill_ids() -> Vec<i32> {
    let mut skills: Vec<(usize, i32)> = (0..TYPES)
        .filter_map(|position| match role(position) {
            Role::Skill(number) => Some((number, type_id(position))),
            _ => None,
        })
        .collect();
    skills.sort();
    skills.into_iter().map(|(_, id)| id).collect()
}

/// A catalogue of 1/`part` of the full size.
pub fn catalogue(part: usize) -> Catalogue {
    let positions: Vec<usize> = (0..TYPES).step_by(part).collect();
    let mut rng = Rng::new(part as u64);
    Catalogue {
        names: all_names(),
        effects: effects(EFFECTS.div_ceil(part)),
        types: positions.iter().map(|position| a_type(*position)).collect(),
        links: links(&positions, LINKS / part),
        bases: bases(&positions, BASES / part, &mut rng),
        ..Catalogue::default()
    }
}

fn all_names() -> Vec<Name> {
    (0..names::COUNT)
        .map(|number| Name {
            number: number as u32,
            attribute: attribute(number),
        })
        .collect()
}

fn effects(count: usize) -> Vec<Effect> {
    let mut effects: Vec<Effect> = (1..)
        .zip(MARKED)
        .map(|(mark, id)| Effect { id, mark })
        .collect();
    effects.push(Effect {
        id: ONLINE_EFFECT,
        mark: 0,
    });
    let others = (50..).step_by(2).filter(|id| !MARKED.contains(id));
    effects.extend(
        others
            .take(count - effects.len())
            .map(|id| Effect { id, mark: 0 }),
    );
    effects.sort_by_key(|effect| effect.id);
    effects
}

fn a_type(position: usize) -> Type {
    let spread = (position * 7 / 64 % 12) as i32;
    let (category, group) = match role(position) {
        Role::Skill(_) => (CATEGORY_SKILL, 255 + spread),
        Role::Hull => (CATEGORY_SHIP, 25 + spread % 4),
        Role::Module(_) => (CATEGORY_MODULE, 38 + spread),
        Role::Drone => (CATEGORY_DRONE, 100 + spread % 2),
        Role::Implant => (CATEGORY_IMPLANT, 300 + spread % 3),
        Role::Goods => (CATEGORY_CHARGE, 83 + spread % 3),
        Role::Other => (25, 1_000 + spread),
    };
    Type {
        id: type_id(position),
        group,
        category,
        flag: u32::from(!position.is_multiple_of(10)),
        volume: (5.0 + spread as f32).to_bits(),
    }
}

/// Four effects for each module, with its rack's among them; the others of
/// `count` go to the other types, eight each.
fn links(positions: &[usize], count: usize) -> Vec<Link> {
    let mut links = Vec::with_capacity(count);
    let add = |links: &mut Vec<Link>, position: usize, effects: &[i32]| {
        links.extend(effects.iter().map(|effect| Link {
            type_id: type_id(position),
            effect: *effect,
        }));
    };
    for position in positions {
        if let Role::Module(rack) = role(*position) {
            let hardpoint = if rack == 0 { MARKED[6] } else { ONLINE_EFFECT };
            let rack = MARKED[usize::from(rack)];
            add(&mut links, *position, &[52, rack, hardpoint, 56]);
        }
    }
    let others: Vec<usize> = positions
        .iter()
        .copied()
        .filter(|position| !matches!(role(*position), Role::Module(_)))
        .collect();
    for position in others.iter().cycle() {
        let left = count - links.len();
        if left == 0 {
            break;
        }
        let effects = [50, 52, 54, 56, 58, 60, 62, 64];
        add(&mut links, *position, &effects[..left.min(8)]);
    }
    links.sort_by_key(|link| link.type_id);
    links
}

/// Twelve or thirteen base values for each type; a skill's demands stand
/// between others.
fn bases(positions: &[usize], count: usize, rng: &mut Rng) -> Vec<Base> {
    let skills = skill_ids();
    let mut bases = Vec::with_capacity(count);
    for (place, position) in positions.iter().enumerate() {
        // The last type takes what is missing to the count.
        let end = count * (place + 1) / positions.len();
        let mut rows: Vec<(i32, f32)> = Vec::new();
        while bases.len() + rows.len() < end {
            rows.push((rng.between(4_000, 5_600) as i32, rng.below(500) as f32));
        }
        if let Role::Skill(number) = role(*position) {
            for (row, wanted) in demands(number).enumerate() {
                let name = REQUIRED + 2 * row;
                rows[3 * row + 3] = (attribute(name), skills[wanted] as f32);
                rows[3 * row + 4] = (attribute(name + 1), (1 + wanted % 5) as f32);
            }
        }
        let base = |(attribute, value)| Base::single(type_id(*position), attribute, value);
        bases.extend(rows.into_iter().map(base));
    }
    bases
}

/// What a skill demands: one or two skills that are more basic, none at last.
fn demands(number: usize) -> impl Iterator<Item = usize> {
    let first = (number > 3).then_some(number / 4);
    let second = (number > 40).then_some(number / 9);
    first.into_iter().chain(second)
}

/// A catalogue of one hull and a chain of skills, each demanding the next,
/// with so many base values for each; and a fit whose ship demands the first.
pub fn chain(length: usize, width: usize) -> Catalogue {
    linked(length, width, |number| 3_300 + 2 * number as i32)
}

/// The same with falling ids: a skill that is put in stands before all that were.
pub fn falling_chain(length: usize, width: usize) -> Catalogue {
    linked(length, width, |number| {
        3_300 + 2 * (length - 1 - number) as i32
    })
}

/// The same from both ends inwards: a skill that is put in stands between those that were.
pub fn narrowing_chain(length: usize, width: usize) -> Catalogue {
    linked(length, width, |number| {
        let place = match number % 2 {
            0 => number / 2,
            _ => length - 1 - number / 2,
        };
        3_300 + 2 * place as i32
    })
}

fn linked(length: usize, width: usize, skill: impl Fn(usize) -> i32) -> Catalogue {
    let mut types = vec![Type {
        id: SHIP,
        group: SHIP_GROUP,
        category: CATEGORY_SHIP,
        flag: 0,
        volume: 0,
    }];
    let mut bases = Vec::new();
    for number in 0..length {
        types.push(Type {
            id: skill(number),
            group: 255,
            category: CATEGORY_SKILL,
            flag: 0,
            volume: 0,
        });
        let mut rows: Vec<(i32, f32)> = (0..width as i32).map(|row| (4_000 + row, 1.0)).collect();
        if number + 1 < length {
            let middle = (width - 2) / 2;
            rows[middle] = (attribute(REQUIRED), skill(number + 1) as f32);
            rows[middle + 1] = (attribute(REQUIRED + 1), 5.0);
        }
        let base = |(attribute, value)| Base::single(skill(number), attribute, value);
        bases.extend(rows.into_iter().map(base));
    }
    types.sort_by_key(|it| it.id);
    bases.sort_by_key(|it| it.type_id);
    Catalogue {
        names: all_names(),
        types,
        bases,
        ..Catalogue::default()
    }
}

/// A catalogue of one hull and one skill that has a million base values and demands
/// nothing, so that a walk looks at all of them.
pub fn heavy() -> Catalogue {
    let mut catalogue = chain(1, 2);
    let row = catalogue.bases[0];
    let others = (0..1_000_000).map(|number| Base {
        attribute: 10_000 + number,
        ..row
    });
    catalogue.bases = others.collect();
    catalogue
}

/// The same over two windows of marks: links stand before the skill's base values,
/// others behind them, and so what is wanted is walked four times, twice for counting
/// and twice for copying. As long as a catalogue may be.
pub fn heaviest() -> Catalogue {
    let mut catalogue = heavy();
    let row = catalogue.bases[0];
    catalogue.bases.truncate(838_000);
    let behind = (1..=102_000).map(|number| Base {
        type_id: row.type_id + number,
        ..row
    });
    catalogue.bases.extend(behind);
    catalogue.links = (0..210_000).map(unmarked).collect();
    catalogue
}

/// A chain of so many skills in the second window of marks.
pub fn far_chain(length: usize) -> Catalogue {
    let mut catalogue = chain(length, 2);
    catalogue.links = (0..1_048_577).map(unmarked).collect();
    catalogue
}

/// A link of an effect that marks nothing.
fn unmarked(type_id: i32) -> Link {
    Link { type_id, effect: 0 }
}

#[cfg(test)]
mod tests {
    use super::*;

    #[test]
    fn the_full_size_is_what_it_is_called() {
        let full = catalogue(FULL);
        assert_eq!(full.names.len(), 88);
        assert_eq!(full.effects.len(), 3_500);
        assert_eq!(full.types.len(), 48_000);
        assert_eq!(full.links.len(), 50_000);
        assert_eq!(full.bases.len(), 600_000);
        assert_eq!(full.image().len(), 10_988_724);
        assert_eq!(full.old_image().len(), 8_588_724);
    }

    #[test]
    fn a_smaller_part_has_every_type_that_fits_name() {
        let small = catalogue(SMALL);
        assert_eq!(small.types.len(), 750);
        let full = catalogue(FULL);
        for row in &small.types {
            assert!(full.types.contains(row));
        }
        assert_eq!(skill_ids().len(), SKILLS);
    }
}
