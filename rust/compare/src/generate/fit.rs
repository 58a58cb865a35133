//! A fit over a world: a ship, what is on it, and results near its limits.

use std::collections::BTreeMap;

use super::world::{Role, Style, World};
use crate::model::{Fit, Item, Outcome, Skill};
use crate::names::*;
use crate::numbers::{self, Width};
use crate::rng::Rng;
use crate::sketch::*;

/// The attributes of one result as they are put together.
type Attributes = BTreeMap<i32, u64>;

/// A fit of about so many items.
pub fn fit(rng: &mut Rng, world: &World, style: Style, most: usize) -> Fit {
    let ship_type = match rng.below(20) {
        0..=11 => world.a(rng, Role::Hull),
        12..=15 => world.a(rng, Role::Structure),
        16..=17 => world.a(rng, Role::Container),
        18 => world.a(rng, Role::Hull),
        _ => world.any(rng),
    };
    let mut fit = Fit {
        ship_type,
        ..Fit::default()
    };
    mode(rng, world, &mut fit);
    skills(rng, world, style, &mut fit);
    let kinds = kinds(rng);
    for _ in 0..rng.below(most + 1) {
        let kind = rng.pick(&kinds);
        let item = item(rng, world, style, &fit, kind);
        fit.items.push(item);
    }
    let has_hangar = rng.chance(style.odd / 8);
    if has_hangar {
        hangar(rng, world, &mut fit);
    }
    fit.ship = ship(rng, world, style, &fit);
    fit.character = character(rng, world, style);
    if has_hangar && rng.chance(500) {
        lead(rng, world, &mut fit.character);
    }
    let rig_size = fit
        .ship
        .attributes
        .iter()
        .find(|row| row.0 == world.ids[RIG_SIZE]);
    let rig_size = rig_size.map_or(1.0, |row| f64::from_bits(row.1));
    fit.results = fit
        .items
        .iter()
        .map(|item| result(rng, world, style, item, ship_type, rig_size))
        .collect();
    unequal(rng, world, style, &mut fit);
    fit
}

/// The kinds of slot that a fit uses: all, or a few, so that items meet.
fn kinds(rng: &mut Rng) -> Vec<u8> {
    match rng.below(5) {
        0 => {
            let (one, other) = (rng.below(12) as u8, rng.below(12) as u8);
            vec![one, one, other]
        }
        _ => (0..12).collect(),
    }
}

/// Stacks of drones that come to about 32 bits together, or to far more.
fn hangar(rng: &mut Rng, world: &World, fit: &mut Fit) {
    let stacks: &[u32] = rng.pick(&[
        &[4_294_967_295, 1],
        &[4_294_967_294, 1],
        &[2_147_483_648, 2_147_483_648],
        &[2_147_483_648, 2_147_483_647],
        &[1, 0, 4_294_967_295, 7],
        &[4_294_967_295; 3],
    ]);
    for quantity in stacks {
        fit.items.push(Item {
            type_id: world.a(rng, Role::Drone),
            quantity: *quantity,
            kind: DRONE_BAY,
            zero: 0,
            index: 0,
        });
    }
}

/// Has the character lead about as many drones as a hangar holds, or any
/// number.
fn lead(rng: &mut Rng, world: &World, character: &mut Outcome) {
    let most = rng.pick(&[
        4_294_967_291.0,
        4_294_967_292.0,
        4_294_967_296.0,
        12_884_901_885.0,
        1e300,
        f64::NAN,
        f64::INFINITY,
        f64::NEG_INFINITY,
    ]);
    let id = world.ids[MAX_ACTIVE_DRONES];
    let rows = &mut character.attributes;
    rows.retain(|row| row.0 != id);
    rows.push((id, most.to_bits()));
    rows.sort_by_key(|row| row.0);
}

/// Sometimes a few items without result, or results without item.
fn unequal(rng: &mut Rng, world: &World, style: Style, fit: &mut Fit) {
    match rng.below(10) {
        0 => {
            let kept = fit.results.len().saturating_sub(rng.below(4));
            fit.results.truncate(kept);
        }
        1 => {
            for _ in 0..rng.below(4) {
                let kind = rng.below(12) as u8;
                let item = item(rng, world, style, fit, kind);
                let extra = result(rng, world, style, &item, fit.ship_type, 1.0);
                fit.results.push(extra);
            }
        }
        _ => {}
    }
}

fn mode(rng: &mut Rng, world: &World, fit: &mut Fit) {
    match rng.below(10) {
        0..=1 => (fit.mode_flag, fit.mode) = (1, world.a(rng, Role::Mode)),
        2 => (fit.mode_flag, fit.mode) = (1, world.any(rng)),
        _ => {}
    }
}

fn skills(rng: &mut Rng, world: &World, style: Style, fit: &mut Fit) {
    let mut trained: BTreeMap<i32, u8> = BTreeMap::new();
    for id in world.of(Role::Skill) {
        if rng.chance(700) {
            trained.insert(*id, rng.between(0, 5) as u8);
        }
    }
    while rng.chance(style.wrong) {
        trained.insert(world.any(rng), rng.draw() as u8);
    }
    fit.skills = trained
        .into_iter()
        .map(|(id, level)| Skill { id, level })
        .collect();
}

/// An item in a slot of a kind.
pub fn item(rng: &mut Rng, world: &World, style: Style, fit: &Fit, kind: u8) -> Item {
    let role = match kind {
        HIGH => rng.pick(&[
            Role::Rack(0),
            Role::Turret,
            Role::Launcher,
            Role::StructureModule,
        ]),
        MEDIUM..=SERVICE => Role::Rack(kind),
        FIGHTER_TUBE | FIGHTER_BAY => Role::Fighter,
        IMPLANT | BOOSTER => Role::Implant,
        DRONE_BAY => Role::Drone,
        _ => Role::Cargo,
    };
    let mut type_id = match rng.chance(style.wrong) {
        true => world.any(rng),
        false => world.a(rng, role),
    };
    // Fits hold the same module several times.
    if rng.chance(300)
        && let Some(same) = fit.items.iter().find(|item| item.kind == kind)
    {
        type_id = same.type_id;
    }
    let used = fit.items.iter().filter(|item| item.kind == kind).count() as u16;
    let index = match kind {
        FIGHTER_BAY | DRONE_BAY | CARGO => 0,
        _ if rng.chance(style.wrong) => rng.between(0, 3) as u16,
        BOOSTER if rng.chance(style.odd) => rng.pick(&[255, 256, 300, 65_534, 65_535]),
        _ if rng.chance(style.odd / 2) => rng.pick(&[254, 255]),
        _ => used + u16::from(kind == IMPLANT || kind == BOOSTER),
    };
    let quantity = match kind {
        _ if rng.chance(style.odd / 8) => {
            rng.pick(&[0, 2, 65_536, 2_147_483_648, 4_294_967_294, 4_294_967_295])
        }
        DRONE_BAY | FIGHTER_TUBE | FIGHTER_BAY => rng.between(1, 9) as u32,
        CARGO if rng.chance(250) => rng.draw() as u32,
        CARGO => rng.between(1, 2000) as u32,
        _ => 1,
    };
    Item {
        type_id,
        quantity,
        kind,
        zero: 0,
        index,
    }
}

fn ship(rng: &mut Rng, world: &World, style: Style, fit: &Fit) -> Outcome {
    let mut values = Attributes::new();
    for row in 0..10 {
        let available = match rng.chance(style.odd) {
            true => numbers::available(rng),
            false => rng.between(1, 8000) as f64 / 8.0,
        };
        let used = match rng.below(10) {
            0..=4 => available * 0.75,
            5..=8 => numbers::around_limit(rng, available),
            _ if rng.chance(style.odd) => f64::from_bits(numbers::odd(rng)),
            _ => available * 1.25,
        };
        some(rng, &mut values, world, LOADS + 2 * row, used.to_bits());
        some(
            rng,
            &mut values,
            world,
            LOADS + 2 * row + 1,
            available.to_bits(),
        );
    }
    for slot in 0..8 {
        let count = match slot {
            0..=5 => fit.items.iter().filter(|item| item.kind == slot).count(),
            _ => 2,
        };
        let slots = match rng.chance(style.odd) {
            true => numbers::near_cast(rng, Width::U32),
            false => (count as f64 + rng.pick(&[-1.0, 0.0, 0.0, 0.9, 1.0])).to_bits(),
        };
        some(rng, &mut values, world, RACKS + usize::from(slot), slots);
    }
    let capacity = match rng.chance(style.odd) {
        true => numbers::odd(rng),
        false => (rng.between(0, 6000) as f64).to_bits(),
    };
    some(rng, &mut values, world, CAPACITY, capacity);
    if rng.chance(700) {
        let size = match rng.chance(style.odd) {
            true => numbers::near_cast(rng, Width::U8),
            false => (rng.between(1, 4) as f64).to_bits(),
        };
        values.insert(world.ids[RIG_SIZE], size);
    }
    if rng.chance(200) {
        let capital = match rng.chance(style.odd) {
            true => numbers::odd(rng),
            false => 1f64.to_bits(),
        };
        values.insert(world.ids[IS_CAPITAL_SIZE], capital);
    }
    demands(rng, &mut values, world, style);
    outcome(rng, values)
}

fn character(rng: &mut Rng, world: &World, style: Style) -> Outcome {
    let mut values = Attributes::new();
    let drones = match rng.chance(style.odd) {
        true => numbers::available(rng).to_bits(),
        false => (rng.between(0, 10) as f64).to_bits(),
    };
    some(rng, &mut values, world, MAX_ACTIVE_DRONES, drones);
    if rng.chance(100) {
        demands(rng, &mut values, world, style);
    }
    outcome(rng, values)
}

/// What an item calculated to.
pub fn result(
    rng: &mut Rng,
    world: &World,
    style: Style,
    item: &Item,
    ship_type: i32,
    rig_size: f64,
) -> Outcome {
    let mut values = Attributes::new();
    let kind = item.kind;
    let mut put = |name: usize, value: u64| {
        values.insert(world.ids[name], value);
    };
    if rng.chance(if kind == RIG { 850 } else { 60 }) {
        let size = match rng.below(10) {
            _ if rng.chance(style.odd) => numbers::near_cast(rng, Width::U8),
            0 => (rig_size + 0.5).to_bits(),
            1 => (rig_size + 1.0).to_bits(),
            _ => rig_size.to_bits(),
        };
        put(RIG_SIZE, size);
    }
    for (slot, name) in [(IMPLANT, IMPLANTNESS), (BOOSTER, BOOSTERNESS)] {
        if rng.chance(if kind == slot { 850 } else { 30 }) {
            let number = match rng.below(8) {
                _ if rng.chance(style.odd) => numbers::near_cast(rng, Width::U16),
                0 => (f64::from(item.index) + 0.7).to_bits(),
                1 => (rng.between(1, 12) as f64).to_bits(),
                _ => f64::from(item.index).to_bits(),
            };
            put(name, number);
        }
    }
    if rng.chance(if kind == SUBSYSTEM { 850 } else { 30 }) {
        let part = match rng.below(3) {
            _ if rng.chance(style.odd / 2) => rng.pick(&[f64::NAN, 0.0, -0.0, 125.5]),
            0 if rng.chance(style.odd) => f64::from_bits(numbers::odd(rng)),
            _ => rng.between(125, 129) as f64,
        };
        let part = part.to_bits();
        put(SUBSYSTEM_SLOT, part);
    }
    if rng.chance(500) {
        let volume = match rng.below(4) {
            _ if rng.chance(style.odd) => numbers::odd(rng),
            0 => rng
                .pick(&[3500.0, 3500.5, 3500.0_f64.next_up(), 3500.0_f64.next_down()])
                .to_bits(),
            1 => 4000f64.to_bits(),
            _ => (rng.between(1, 50) as f64).to_bits(),
        };
        put(VOLUME, volume);
    }
    if rng.chance(if kind == FIGHTER_TUBE || kind == FIGHTER_BAY {
        400
    } else {
        20
    }) {
        let mark = match rng.chance(style.odd) {
            true => numbers::odd(rng),
            false => 1f64.to_bits(),
        };
        put(STANDUP_FIGHTERS + rng.below(3), mark);
    }
    for limit in 0..3 {
        if rng.chance(200) {
            put(GROUP_LIMITS + limit, allowance(rng, style));
        }
    }
    if rng.chance(200) {
        put(MAX_TYPE_FITTED, allowance(rng, style));
    }
    restrictions(rng, &mut values, world, style, ship_type);
    demands(rng, &mut values, world, style);
    for _ in 0..rng.below(4) {
        values.insert(rng.between(4000, 4100) as i32, numbers::odd(rng));
    }
    outcome(rng, values)
}

fn allowance(rng: &mut Rng, style: Style) -> u64 {
    match rng.chance(style.odd) {
        true => numbers::near_cast(rng, Width::U32),
        false => (rng.between(0, 6) as f64 / 2.0).to_bits(),
    }
}

/// Ship types and groups that an item goes on, now and then.
fn restrictions(
    rng: &mut Rng,
    values: &mut Attributes,
    world: &World,
    style: Style,
    ship_type: i32,
) {
    let ship_group = world.row(ship_type).map_or(0, |row| row.group);
    for (first, rows, own) in [(SHIP_TYPES, 13, ship_type), (SHIP_GROUPS, 20, ship_group)] {
        if !rng.chance(180) {
            continue;
        }
        for _ in 0..rng.between(1, 3) {
            let listed = match rng.below(6) {
                _ if rng.chance(style.odd) => numbers::near_cast(rng, Width::I32),
                0 => (f64::from(own) + 0.6).to_bits(),
                1 => (f64::from(own) - 0.4).to_bits(),
                2..=3 => f64::from(own).to_bits(),
                _ => (rng.between(1, 1000) as f64).to_bits(),
            };
            values.insert(world.ids[first + rng.below(rows)], listed);
        }
    }
}

/// Skills that a result demands, now and then.
fn demands(rng: &mut Rng, values: &mut Attributes, world: &World, style: Style) {
    if !rng.chance(500) {
        return;
    }
    for _ in 0..rng.between(1, 3) {
        let row = rng.below(6);
        let skill = match rng.chance(style.odd / 4) {
            true => numbers::near_cast(rng, Width::I32),
            false => f64::from(world.a(rng, Role::Skill)).to_bits(),
        };
        values.insert(world.ids[REQUIRED + 2 * row], skill);
        if rng.chance(900) {
            let level = match rng.chance(style.odd) {
                true => numbers::near_cast(rng, Width::U8),
                false => (rng.between(1, 5) as f64).to_bits(),
            };
            values.insert(world.ids[REQUIRED + 2 * row + 1], level);
        }
    }
}

/// Most of the time, a value under a name.
fn some(rng: &mut Rng, values: &mut Attributes, world: &World, name: usize, value: u64) {
    if rng.chance(900) {
        values.insert(world.ids[name], value);
    }
}

fn outcome(rng: &mut Rng, values: Attributes) -> Outcome {
    Outcome {
        state: rng.below(4) as u8,
        zero: 0,
        count: None,
        attributes: values.into_iter().collect(),
    }
}
