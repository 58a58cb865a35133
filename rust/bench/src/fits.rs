//! The fits that are timed, with the attributes that the rules look for among
//! many that they do not.

use std::collections::BTreeMap;

use compare::model::{Fit, Item, Outcome, Skill};
use compare::names::*;
use compare::rng::Rng;
use compare::sketch::{
    ACTIVE, BOOSTER, CARGO, DRONE_BAY, FIGHTER_TUBE, HIGH, IMPLANT, LOW, MEDIUM, ONLINE, RIG,
    SERVICE, SHIP, SUBSYSTEM,
};

use crate::world::{self, Role, attribute};

/// How much a fit has of what.
#[derive(Clone, Copy)]
pub struct Shape {
    pub modules: usize,
    pub drones: usize,
    pub goods: usize,
    pub implants: usize,
    pub skills: usize,
    /// Attributes of each item, of the ship and of the character.
    pub attributes: usize,
    pub ship_attributes: usize,
    pub character_attributes: usize,
}

/// A frigate as a new member has it.
pub const SMALL: Shape = Shape {
    modules: 8,
    drones: 1,
    goods: 1,
    implants: 0,
    skills: 20,
    attributes: 40,
    ship_attributes: 150,
    character_attributes: 20,
};

/// A full ship with its drones, cargo and implants.
pub const REALISTIC: Shape = Shape {
    modules: 25,
    drones: 5,
    goods: 10,
    implants: 10,
    skills: 400,
    attributes: 60,
    ship_attributes: 250,
    character_attributes: 60,
};

/// As many pairs and attributes as a fit may have.
pub const LARGEST: Shape = Shape {
    modules: 200,
    drones: 20,
    goods: 26,
    implants: 10,
    skills: 400,
    attributes: 116,
    ship_attributes: 250,
    character_attributes: 54,
};

/// A hangar: as many stacks of drones as a fit holds.
pub const HANGAR: Shape = Shape {
    modules: 0,
    drones: 256,
    goods: 0,
    implants: 0,
    ..SMALL
};

/// A hangar with the largest quantity in each of its stacks.
pub fn full_hangar(number: u64) -> Fit {
    let mut made = fit(HANGAR, number);
    for item in &mut made.items {
        item.quantity = u32::MAX;
    }
    made
}

/// A realistic fit of whose items no type is there: each is of an id two behind
/// its own, in a gap of every catalogue.
pub fn vanished(number: u64) -> Fit {
    let mut made = fit(REALISTIC, number);
    for item in &mut made.items {
        item.type_id += 2;
    }
    made
}

/// A realistic fit with three high slots, whose last high module has a limit of one of
/// its group, and whose hold and launched drones are too many.
pub fn crowded(number: u64) -> Fit {
    let mut made = fit(REALISTIC, number);
    set(&mut made.ship, RACKS, 3.0);
    set(&mut made.ship, CAPACITY, 9.0);
    set(&mut made.character, MAX_ACTIVE_DRONES, 2.0);
    let last = made.items.iter().rposition(|item| item.kind == HIGH);
    let last = last.expect("it has high modules");
    set(&mut made.results[last], GROUP_LIMITS, 0.0);
    made
}

/// A hold of as many stacks as there may be, in which half of them have room.
pub fn laden(number: u64) -> Fit {
    let shape = Shape {
        modules: 0,
        drones: 0,
        goods: 256,
        implants: 0,
        ..SMALL
    };
    let mut made = fit(shape, number);
    set(&mut made.ship, CAPACITY, 128.0 * 5.0 * 5.0);
    made
}

/// A fit of a shape that breaks no rule: enough CPU, limits that nothing passes,
/// and its own ship among those that its items go on.
pub fn clear(shape: Shape, number: u64) -> Fit {
    let mut made = fit(shape, number);
    set(&mut made.ship, LOADS, 100.0);
    for result in &mut made.results {
        for limit in [GROUP_LIMITS, GROUP_LIMITS + 2, MAX_TYPE_FITTED] {
            if has(result, limit) {
                set(result, limit, 256.0);
            }
        }
        if has(result, SHIP_GROUPS) {
            set(result, SHIP_TYPES, f64::from(made.ship_type));
        }
    }
    made
}

fn has(result: &Outcome, name: usize) -> bool {
    let mut rows = result.attributes.iter();
    rows.any(|(id, _)| *id == attribute(name))
}

/// Gives a result a value, whether it had one or not.
fn set(result: &mut Outcome, name: usize, value: f64) {
    let mut rows: BTreeMap<i32, u64> = result.attributes.iter().copied().collect();
    rows.insert(attribute(name), value.to_bits());
    result.attributes = rows.into_iter().collect();
}

/// The slots of the worst fit, in turn: three of four are fitted.
const WORST_SLOTS: [u8; 16] = [
    HIGH,
    MEDIUM,
    LOW,
    RIG,
    SUBSYSTEM,
    SERVICE,
    IMPLANT,
    HIGH,
    MEDIUM,
    LOW,
    RIG,
    SUBSYSTEM,
    SERVICE,
    BOOSTER,
    FIGHTER_TUBE,
    DRONE_BAY,
];

/// As many pairs and attributes as a fit may have, of modules that break nearly
/// every rule: in slots of other racks, all at one place of them, under limits
/// of 0, for other ships and for structures, of another size and too big.
pub fn worst(number: u64) -> Fit {
    let shape = Shape {
        modules: 0,
        drones: 0,
        goods: 0,
        implants: 0,
        ship_attributes: 38,
        character_attributes: 10,
        ..LARGEST
    };
    let mut made = fit(shape, number);
    let mut rng = Rng::for_case(11, number);
    let modules = world::types_of(|role| matches!(role, Role::Module(_)));
    for pair in 0..256 {
        let item = Item {
            type_id: pick(&mut rng, &modules),
            quantity: 7,
            kind: WORST_SLOTS[pair % WORST_SLOTS.len()],
            ..Item::default()
        };
        push(&mut made, &mut rng, item, ACTIVE, worst_values(), 117);
    }
    made
}

/// A ship without an item.
fn empty(number: u64) -> Fit {
    let shape = Shape {
        modules: 0,
        drones: 0,
        goods: 0,
        implants: 0,
        ..SMALL
    };
    fit(shape, number)
}

/// So many pairs of one type, of which none may stay, and which break every other rule
/// that has to go too, but only all together: two share a slot, two a part, and of the
/// rack and the group there is one too many. Whatever is tried, the last rule of the
/// first pair that stays is in the way.
pub fn gathered(pairs: usize, number: u64) -> Fit {
    let mut made = empty(number);
    let mut rng = Rng::for_case(13, number);
    let modules = world::types_of(|role| matches!(role, Role::Module(_)));
    let type_id = pick(&mut rng, &modules);
    let most = pairs as f64 - 1.0;
    set(&mut made.ship, RACKS, most - 2.0);
    for pair in 0..pairs {
        let (kind, index) = match pair {
            0 | 1 => (SUBSYSTEM, pair),
            pair => (HIGH, pair.max(3)),
        };
        let item = Item {
            type_id,
            quantity: 1,
            kind,
            index: index as u16,
            ..Item::default()
        };
        let mut values = vec![(SUBSYSTEM_SLOT, 125.0), (MAX_TYPE_FITTED, 0.0)];
        values.extend((0..3).map(|limit| (GROUP_LIMITS + limit, most)));
        push(&mut made, &mut rng, item, ACTIVE, values, 12);
    }
    made
}

/// So many pairs of one type and group, of which the first suffers one less beside it than
/// there are, and each behind it one less than the one before: half of them may stay, and
/// of more than those the pairs behind the first half say so.
pub fn stepped(pairs: usize, number: u64) -> Fit {
    let mut made = empty(number);
    let mut rng = Rng::for_case(14, number);
    let modules = world::types_of(|role| matches!(role, Role::Module(_)));
    let type_id = pick(&mut rng, &modules);
    let most = pairs as f64 - 1.0;
    set(&mut made.ship, RACKS, most);
    for pair in 0..pairs {
        let item = Item {
            type_id,
            quantity: 1,
            kind: HIGH,
            index: pair as u16,
            ..Item::default()
        };
        let mut values = vec![(MAX_TYPE_FITTED, most - pair as f64)];
        values.extend((0..3).map(|limit| (GROUP_LIMITS + limit, most)));
        push(&mut made, &mut rng, item, ACTIVE, values, 12);
    }
    made
}

/// What a module of the worst fit says of itself.
fn worst_values() -> Vec<(usize, f64)> {
    let mut values = vec![
        (VOLUME, 5_000.0),
        (RIG_SIZE, 3.0),
        (SUBSYSTEM_SLOT, 125.0),
        (IMPLANTNESS, 11.0),
        (BOOSTERNESS, 3.0),
        (SHIP_TYPES, 1.0),
        (STANDUP_FIGHTERS, 1.0),
        (MAX_TYPE_FITTED, 0.0),
    ];
    values.extend((0..3).map(|limit| (GROUP_LIMITS + limit, 0.0)));
    values.extend((0..4).map(|group| (SHIP_GROUPS + group, 1_000.0)));
    values
}

/// A fit of so many pairs, each as in the largest one.
pub fn of_pairs(pairs: usize) -> Shape {
    let modules = pairs.div_ceil(256 / LARGEST.modules).min(pairs);
    let rest = pairs - modules;
    Shape {
        modules,
        drones: rest - rest / 2,
        goods: rest / 2,
        implants: 0,
        ..LARGEST
    }
}

impl Shape {
    pub fn pairs(&self) -> usize {
        self.modules + self.drones + self.goods + self.implants
    }
}

/// A fit of a shape; another number gives other types and values.
pub fn fit(shape: Shape, number: u64) -> Fit {
    let mut rng = Rng::for_case(7, number);
    let skills = world::skill_ids();
    let mut fit = Fit {
        ship_type: pick(&mut rng, &world::types_of(|role| role == Role::Hull)),
        ship: Outcome {
            state: ONLINE,
            attributes: filled(&mut rng, ship_values(), shape.ship_attributes),
            ..Outcome::default()
        },
        character: Outcome {
            state: ONLINE,
            attributes: filled(
                &mut rng,
                vec![(MAX_ACTIVE_DRONES, 5.0)],
                shape.character_attributes,
            ),
            ..Outcome::default()
        },
        ..Fit::default()
    };
    let mut trained = skills.clone();
    rng.shuffle(&mut trained);
    trained.truncate(shape.skills);
    trained.sort();
    fit.skills = trained
        .into_iter()
        .map(|id| Skill {
            id,
            level: rng.between(2, 5) as u8,
        })
        .collect();

    let racks: Vec<Vec<i32>> = (0..4)
        .map(|rack| world::types_of(|role| role == Role::Module(rack)))
        .collect();
    for module in 0..shape.modules {
        // Three of a ship's 25 are rigs; the other racks share the rest.
        let rack = if module % 8 == 7 {
            RIG
        } else {
            (module % 3) as u8
        };
        let index = fit.items.iter().filter(|item| item.kind == rack).count();
        let mut values = module_values(&mut rng, &skills);
        if rack == RIG {
            values.push((RIG_SIZE, 2.0));
        }
        let item = Item {
            type_id: pick(&mut rng, &racks[usize::from(rack)]),
            quantity: 1,
            kind: rack,
            index: index as u16,
            zero: 0,
        };
        push(&mut fit, &mut rng, item, ACTIVE, values, shape.attributes);
    }
    let drones = world::types_of(|role| role == Role::Drone);
    for _ in 0..shape.drones {
        let item = Item {
            type_id: pick(&mut rng, &drones),
            quantity: 1,
            kind: DRONE_BAY,
            ..Item::default()
        };
        let values = demand(&mut rng, &skills);
        push(&mut fit, &mut rng, item, ACTIVE, values, shape.attributes);
    }
    let goods = world::types_of(|role| role == Role::Goods);
    for _ in 0..shape.goods {
        let item = Item {
            type_id: pick(&mut rng, &goods),
            quantity: 1 + rng.below(9) as u32,
            kind: CARGO,
            ..Item::default()
        };
        push(
            &mut fit,
            &mut rng,
            item,
            ONLINE,
            vec![(VOLUME, 5.0)],
            shape.attributes,
        );
    }
    let implants = world::types_of(|role| role == Role::Implant);
    for slot in 1..=shape.implants {
        let item = Item {
            type_id: pick(&mut rng, &implants),
            quantity: 1,
            kind: IMPLANT,
            index: slot as u16,
            ..Item::default()
        };
        let values = vec![(IMPLANTNESS, slot as f64)];
        push(&mut fit, &mut rng, item, ONLINE, values, shape.attributes);
    }
    fit
}

/// A fit whose ship demands the first skill of `world::chain`.
pub fn at_chain() -> Fit {
    Fit {
        ship_type: SHIP,
        ship: Outcome {
            state: ONLINE,
            attributes: rows(vec![(REQUIRED, 3_300.0), (REQUIRED + 1, 5.0)]),
            ..Outcome::default()
        },
        ..Fit::default()
    }
}

/// The same, whose character demands another skill: together they want more than one
/// walk holds.
pub fn beside_chain() -> Fit {
    let character = Outcome {
        attributes: rows(vec![(REQUIRED, 1.0), (REQUIRED + 1, 5.0)]),
        ..at_chain().ship
    };
    Fit {
        character,
        ..at_chain()
    }
}

/// A fit of as many results as there may be, each of which demands the skill of
/// `world::heavy`, and so many others that no other result demands.
pub fn all_at_one_skill(others: usize) -> Fit {
    let demanding = |number: usize| {
        let own = (0..others).map(|row| (1_000_000 + others * number + row) as f64);
        let skills = [3_300.0].into_iter().chain(own).enumerate();
        let demands = skills.flat_map(|(row, skill)| {
            let name = REQUIRED + 2 * row;
            [(name, skill), (name + 1, 5.0)]
        });
        Outcome {
            attributes: rows(demands.collect()),
            ..at_chain().ship
        }
    };
    Fit {
        ship: demanding(0),
        character: demanding(1),
        results: (2..258).map(demanding).collect(),
        ..at_chain()
    }
}

/// A fit whose ship demands the first skill of `world::falling_chain(512, _)`, and
/// that lists as many skills with higher ids: whatever is put in stands before all.
pub fn at_falling_chain() -> Fit {
    let mut fit = at_chain();
    let listed = (10_000..10_512).map(|id| Skill { id, level: 1 });
    fit.skills = listed.collect();
    fit.ship.attributes = rows(vec![(REQUIRED, 4_322.0), (REQUIRED + 1, 5.0)]);
    fit
}

/// A fit whose ship demands the first skill of `world::narrowing_chain(512, _)`, and
/// that lists as many skills, half of them with lower ids and half with higher ones:
/// whatever is put in stands in the middle, and half of all others make room.
pub fn at_narrowing_chain() -> Fit {
    let mut fit = at_chain();
    let listed = (2_000..2_256).chain(10_000..10_256);
    fit.skills = listed.map(|id| Skill { id, level: 1 }).collect();
    fit
}

fn pick(rng: &mut Rng, types: &[i32]) -> i32 {
    rng.pick(types)
}

fn push(
    fit: &mut Fit,
    rng: &mut Rng,
    item: Item,
    state: u8,
    values: Vec<(usize, f64)>,
    attributes: usize,
) {
    fit.items.push(item);
    fit.results.push(Outcome {
        state,
        attributes: filled(rng, values, attributes),
        ..Outcome::default()
    });
}

/// A ship that has enough of everything but CPU.
fn ship_values() -> Vec<(usize, f64)> {
    let mut values: Vec<(usize, f64)> = Vec::new();
    for row in 0..10 {
        values.push((LOADS + 2 * row, 100.0));
        values.push((LOADS + 2 * row + 1, 100.0));
    }
    values[0].1 = 101.5;
    for (rack, slots) in [8.0, 8.0, 8.0, 3.0, 0.0, 0.0].into_iter().enumerate() {
        values.push((RACKS + rack, slots));
    }
    values.extend([(HARDPOINTS, 8.0), (HARDPOINTS + 1, 2.0)]);
    values.extend([(CAPACITY, 4_000.0), (RIG_SIZE, 2.0), (VOLUME, 50_000.0)]);
    values.extend([(REQUIRED, 0.0), (REQUIRED + 1, 0.0)]);
    values
}

/// What a module says of itself: its volume, one or two demands, and for some
/// of them a limit or the ships that they go on.
fn module_values(rng: &mut Rng, skills: &[i32]) -> Vec<(usize, f64)> {
    let mut values = demand(rng, skills);
    values.push((VOLUME, 25.0));
    if rng.chance(250) {
        values.push((GROUP_LIMITS + 2, 1.0));
    }
    if rng.chance(150) {
        values.push((GROUP_LIMITS, 3.0));
    }
    if rng.chance(100) {
        values.push((MAX_TYPE_FITTED, 1.0));
    }
    if rng.chance(150) {
        values.extend([(SHIP_GROUPS, 25.0), (SHIP_GROUPS + 1, 26.0)]);
    }
    values
}

fn demand(rng: &mut Rng, skills: &[i32]) -> Vec<(usize, f64)> {
    let mut values = Vec::new();
    for row in 0..1 + rng.below(2) {
        let skill = f64::from(rng.pick(skills));
        values.push((REQUIRED + 2 * row, skill));
        values.push((REQUIRED + 2 * row + 1, rng.between(1, 5) as f64));
    }
    values
}

fn rows(values: Vec<(usize, f64)>) -> Vec<(i32, u64)> {
    let rows: BTreeMap<i32, u64> = values
        .into_iter()
        .map(|(name, value)| (attribute(name), value.to_bits()))
        .collect();
    rows.into_iter().collect()
}

/// The values, among others that no rule reads.
fn filled(rng: &mut Rng, values: Vec<(usize, f64)>, count: usize) -> Vec<(i32, u64)> {
    let read: Vec<i32> = (0..COUNT).map(attribute).collect();
    let mut rows: BTreeMap<i32, u64> = rows(values).into_iter().collect();
    while rows.len() < count {
        let id = rng.between(1, 5_600) as i32;
        if !read.contains(&id) {
            rows.insert(id, (rng.below(1_000) as f64).to_bits());
        }
    }
    rows.into_iter().collect()
}

#[cfg(test)]
mod tests {
    use super::*;

    #[test]
    fn the_shapes_are_what_they_are_called() {
        let realistic = fit(REALISTIC, 0);
        assert_eq!(realistic.items.len(), 50);
        assert_eq!(realistic.skills.len(), 400);

        let largest = fit(LARGEST, 0);
        assert_eq!((largest.items.len(), largest.results.len()), (256, 256));
        assert_eq!(largest.attribute_total(), 30_000);

        for pairs in [1, 4, 16, 64, 256] {
            assert_eq!(of_pairs(pairs).pairs(), pairs);
        }
    }

    #[test]
    fn what_has_vanished_is_in_no_catalogue() {
        let full = world::catalogue(world::FULL);
        for number in 0..8 {
            for item in vanished(number).items {
                let mut types = full.types.iter();
                assert!(types.all(|row| row.id != item.type_id), "{item:?}");
            }
        }
    }
}
