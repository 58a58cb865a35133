//! The pairs that make an entry, at their corners: each rule with as many pairs as it can
//! keep, what counts for it and what does not, amounts and sums at the ends of what they
//! can be, and each way to be refused.

use super::Make;
use crate::case::{Ask, Case, Position, Room};
use crate::generate::cause::entries;
use crate::model::Type;
use crate::names::*;
use crate::sketch::*;

pub const CASES: &[Make] = &[
    // Entries that no pair makes.
    loads,
    || caused("a ship that is no hull", gun(Sketch::of(30, 25, 7), 0)),
    || {
        let sketch = guns(Sketch::hull(), 2).mode(99).skill(8, 1).skill(90, 2);
        caused("a mode and skills that are none", sketch.item(77, CARGO, 0))
    },
    || caused("nothing", Sketch::hull()),
    // Racks and hardpoints.
    || racks(0),
    || racks(1),
    || racks(2),
    || hardpoints(0),
    || hardpoints(1),
    || hardpoints(2),
    || {
        let sketch = Sketch::hull().ship(0, 2.0).ship(1, 1.0).ship(RACKS, 1.0);
        caused("CPU and high slots, both 0", guns(sketch, 3))
    },
    || amount(f64::NAN),
    || amount(-3.0),
    || amount(1.5),
    || amount(0.9),
    || {
        let sketch = Sketch::hull().name(RACKS).known(9, 1, CATEGORY_MODULE);
        caused("no slots at all", guns(sketch, 2))
    },
    // Rules about one pair.
    wrong_slots,
    || {
        let sketch = Sketch::hull().known(40, 1, CATEGORY_CHARGE);
        let sketch = [HIGH, DRONE_BAY, FIGHTER_TUBE, IMPLANT]
            .into_iter()
            .fold(gun(sketch, 1), |sketch, kind| sketch.item(40, kind, 0));
        caused("no module, drone, fighter nor implant", gun(sketch, 2))
    },
    || {
        let sketch = Sketch::hull().known(40, 1, CATEGORY_IMPLANT);
        let sketch = gun(sketch, 0).item(40, IMPLANT, 3).with(IMPLANTNESS, 4.0);
        let sketch = sketch.item(40, BOOSTER, 3).with(BOOSTERNESS, 4.0);
        caused("a wrong index", sketch)
    },
    || {
        let sketch = gun(Sketch::hull(), 0).ship(RIG_SIZE, 2.0).item(9, RIG, 0);
        let sketch = sketch
            .with(RIG_SIZE, 3.0)
            .item(9, RIG, 1)
            .with(RIG_SIZE, 2.0);
        let sketch = sketch.item(9, HIGH, 2).with(SHIP_TYPES, 7.0);
        let sketch = sketch.name(IS_CAPITAL_SIZE).item(9, HIGH, 3);
        caused("rules about what is fitted", sketch.with(VOLUME, 4_000.0))
    },
    || {
        let sketch = gun(Sketch::hull(), 0).known(41, 1, CATEGORY_STRUCTURE_MODULE);
        caused("a structure's module", sketch.item(41, HIGH, 1))
    },
    || {
        let sketch = Sketch::of(30, 25, CATEGORY_STRUCTURE);
        caused("a ship's module", guns(sketch, 2))
    },
    || {
        let sketch = gun(Sketch::hull(), 0).item(71, HIGH, 1).item(-72, CARGO, 0);
        caused("missing types", gun(sketch, 2))
    },
    // Slots and parts that are taken.
    || {
        let sketch = gun(gun(gun(Sketch::hull(), 4), 4), 4);
        caused("three in one slot", sketch.item(9, LOW, 4).item(9, HIGH, 5))
    },
    || {
        let sketch = Sketch::hull().item(9, LOW, 4).item(9, HIGH, 5);
        let sketch = gun(gun(sketch, 4), 5).item(9, LOW, 5).item(9, LOW, 4);
        caused("two slots, each of two", sketch)
    },
    || {
        let sketch = [10.0, 11.0, 10.0, 10.0].into_iter();
        let sketch = sketch.fold(subsystems(), part);
        caused("three of one part", sketch)
    },
    || {
        let sketch = [f64::NAN, 10.0, f64::NAN, 10.0, 10.5];
        let sketch = sketch.into_iter().fold(subsystems(), part);
        caused("parts that are NaN, or nearly equal", sketch)
    },
    || {
        let sketch = [10.5, f64::NAN, 10.0, 10.0].into_iter();
        caused("a part of NaN in front", sketch.fold(subsystems(), part))
    },
    || {
        let sketch = [0.0, 1.0, -0.0].into_iter().fold(subsystems(), part);
        caused("parts 0 and -0", sketch)
    },
    || {
        let sketch = [-0.0, 0.0, 0.0].into_iter().fold(subsystems(), part);
        caused("parts -0, 0 and 0", sketch)
    },
    || {
        let sketch = subsystems().item(9, HIGH, 0).with(SUBSYSTEM_SLOT, 10.0);
        let sketch = part(part(sketch, 10.0).item(50, SUBSYSTEM, 7), 10.0);
        caused("the part of a gun, and none", sketch)
    },
    || {
        let sketch = Sketch::hull()
            .known(40, 1, CATEGORY_CHARGE)
            .item(40, HIGH, 3);
        caused("one slot, and no module in it", gun(sketch, 3))
    },
    || {
        let sketch = gun(gun(gun(gun(Sketch::hull(), 3), 4), 4), 3);
        caused("two slots of one rack, one within the other", sketch)
    },
    // Limits of a group and of a type.
    || limited(0, 0.0),
    || limited(0, 1.0),
    || limited(0, 2.0),
    || limited(1, 0.0),
    || limited(1, 1.0),
    || limited(1, 2.0),
    || limited(2, 0.0),
    || limited(2, 1.0),
    || limited(2, 2.0),
    || limited(3, 0.0),
    || limited(3, 1.0),
    || limited(3, 2.0),
    || limited(0, f64::NAN),
    || limited(0, -1.0),
    || limited(0, 1.6),
    || limited(3, f64::NAN),
    || limited(3, -1.0),
    || limited(3, 1.6),
    || uncounted(1, 0.0, OFFLINE),
    || uncounted(1, 1.0, OFFLINE),
    || uncounted(1, 1.0, OVERLOAD),
    || uncounted(2, 0.0, ONLINE),
    || uncounted(2, 1.0, ONLINE),
    || uncounted(2, 1.0, OVERLOAD),
    || only_limit(0),
    || only_limit(1),
    || only_limit(2),
    || only_limit(3),
    limits_of_two,
    // Launched drones.
    || drones(0, &[0]),
    || drones(0, &[7]),
    || drones(-1, &[3, 2]),
    || drones(3, &[2, 3, 1]),
    || drones(5, &[1, 5, 3]),
    || drones(1, &[1, 1, 2]),
    || drones(3, &[3, 3]),
    || drones(3, &[u32::MAX, 1, 4]),
    || drones(2, &[1, 65_536, 4]),
    || drones(1 << 24, &[1 << 24, 1, 1]),
    || drones(i64::from(u32::MAX), &[u32::MAX, 3, 10]),
    || drones(i64::from(u32::MAX), &[u32::MAX; 3]),
    || drones(i64::from(u32::MAX), &[1, u32::MAX, u32::MAX, 9]),
    || drones_over(0),
    || drones_over(255),
    || drones_over(256),
    || drones_over(65_535),
    || drones_over(65_536),
    || drones_over(u32::MAX),
    launched,
    // Cargo.
    || cargo(5.0, &[(1.0, 3), (2.5, 2), (0.0, 9), (1.0, 2), (1.0, 4)]),
    || cargo(-1.0, &[(1.0, 3), (1.0, 2)]),
    || cargo(0.0, &[(1.0, 0), (1.0, 1), (0.0, 1), (1.0, 1)]),
    || cargo(5.0, &[(1.0, 1), (1.0, 5), (1.0, 3)]),
    || cargo(5.0, &[(1.0, 2), (1.0, 6), (1.0, 1)]),
    || cargo(1.0, &[(1.0, 1), (1.0, 1), (1.0, 2)]),
    || cargo(3.0, &[(1.0, 3), (1.0, 3)]),
    || cargo(0.3, &[(0.1, 1), (0.1, 1), (0.1, 1), (0.1, 1)]),
    || cargo(0.3, &[(0.1, 3), (0.1, 1), (0.1, 2)]),
    || cargo(16_777_216.0, &[(16_777_216.0, 1), (1.0, 1), (1.0, 1)]),
    || cargo(16_777_217.0, &[(16_777_216.0, 1), (1.0, 1), (1.0, 1)]),
    || cargo(f64::from(u32::MAX), &[(1.0, u32::MAX), (1.0, 3), (1.0, 10)]),
    || {
        cargo(
            beside_2_53(),
            &[(1.0, 1), (1.0, 1), (GREAT, MANY), (1.0, 1)],
        )
    },
    || {
        cargo(
            beside_2_53(),
            &[(1.0, 1), (GREAT, MANY), (1.0, 1), (1.0, 3)],
        )
    },
    || cargo(1e30, &[(f32::MAX, u32::MAX), (1.0, 1), (f32::MAX, 2)]),
    || cargo_over(0),
    || cargo_over(255),
    || cargo_over(256),
    || cargo_over(65_535),
    || cargo_over(65_536),
    || cargo_over(u32::MAX),
    without_volume,
    beside_no_volume,
    || {
        let sketch = hold().ship(0, 2.0).ship(1, 1.0);
        caused("CPU and the hold", good(sketch).item(100, CARGO, 0))
    },
    // Refusal 15.
    || bad(-1.0),
    || bad(-f32::from_bits(1)),
    || bad(f32::INFINITY),
    || bad(f32::NEG_INFINITY),
    || bad(f32::NAN),
    || bad(f32::from_bits(0xFFC0_0001)),
    || bad_nothing(-0.0),
    || bad_nothing(f32::MAX),
    || {
        caused(
            "a bad volume, no hull",
            weighing(Sketch::of(30, 25, 7), -1.0),
        )
    },
    || {
        let sketch = weighing(everything().name(CAPACITY), f32::NAN);
        caused("a bad volume, every kind of entry", sketch)
    },
    || {
        let sketch = weighing(everything().nameless(CAPACITY), f32::NAN);
        caused("a bad volume, where capacity has no id", sketch)
    },
    || {
        let sketch = good(guns(Sketch::hull(), 2));
        let sketch = weighing(sketch.item(71, CARGO, 0), -2.0).quantity(0);
        caused("no piece of a bad volume", sketch)
    },
    || {
        let sketch = Sketch::hull().mode(99).skill(8, 1);
        caused(
            "a bad volume, a mode and a skill",
            weighing(sketch, f32::NAN),
        )
    },
    || {
        let sketch = weighing(hold().ship(RACKS, 0.0), f32::INFINITY);
        caused("no piece of an infinite volume", sketch.quantity(0))
    },
    || caused("two bad volumes", weighing(weighing(hold(), -2.0), -1.0)),
    spared,
    flagless,
    // Positions.
    || positions("positions that are low again in some bits", racked(1, 2)),
    || positions("positions beyond nothing", Sketch::hull()),
    || positions("positions beyond one", Sketch::of(30, 25, 7)),
    || {
        let sketch = guns(Sketch::hull(), 3).skill(-8, 1).skill(8, 1);
        caused("a guest's list is shorter", sketch.item(71, HIGH, 2))
    },
    // Items and results of no pair.
    || {
        let sketch = racked(1, 3).unpaired(9, HIGH, 3).unpaired(9, HIGH, 4);
        caused("more items than results", sketch.unpaired(9, CARGO, 0))
    },
    || {
        let sketch = gun(gun(Sketch::hull(), 1), 1).unpaired(9, HIGH, 1);
        caused("more items in one slot", sketch.unpaired(9, HIGH, 1))
    },
    || caused("more results than items", racked(1, 3).result().result()),
    || {
        let sketch = Sketch::hull().unpaired(9, HIGH, 3).skill(8, 0);
        caused("no pair, and an item", sketch.known(9, 1, CATEGORY_MODULE))
    },
    // Refused images, with a position and a volume that are refused.
    || broken("a broken state", |case| case.fits[0].character.state = 4),
    || {
        broken("a repeated skill", |case| {
            let skill = case.fits[0].skills[0];
            case.fits[0].skills.push(skill);
        })
    },
    || broken("a broken length", |case| case.fits[0].damage.cut = 1),
    || broken("a broken catalogue", |case| case.catalogue.damage.cut = 1),
    // Many at once.
    || caused("something of everything", everything()),
    || caused("ten in a rack of four", racked(4, 10)),
    || caused("ten in a rack of five", racked(5, 10)),
    || caused("ten in a rack of six", racked(6, 10)),
    || caused("ten in a rack of seven", racked(7, 10)),
    || caused("ten in a rack of eight", racked(8, 10)),
    || caused("ten in a rack of nine", racked(9, 10)),
    || caused("twenty in a rack of sixteen", racked(16, 20)),
    || caused("twenty in a rack of three", racked(3, 20)),
];

/// Asks for every entry of a sketch's list, with buffers of every kind, and for what is
/// behind them.
fn caused(title: &str, sketch: Sketch) -> Case {
    let mut case = sketch.case(&format!("causes: {title}"), &[]);
    for position in 0..entries(&case).len() as u32 {
        let position = Position::Of(position);
        let rooms = ROOMS.map(|room| Ask::Cause(position, room));
        case.asks.extend(rooms);
        case.asks.push(Ask::Caused(position));
    }
    for room in [Room::Empty, Room::Longer(9)] {
        case.asks.push(Ask::Cause(Position::Behind, room));
    }
    case
}

/// Asks for positions that are 0 in some bits.
fn positions(title: &str, sketch: Sketch) -> Case {
    let mut case = caused(title, sketch);
    for bits in [8, 12, 16, 24, 31] {
        let position = Position::Of(1 << bits);
        case.asks.push(Ask::Cause(position, Room::Longer(40)));
    }
    let most = Position::Of(u32::MAX);
    case.asks.push(Ask::Cause(most, Room::Longer(40)));
    case.asks.push(Ask::Cause(most, Room::Empty));
    case
}

/// A position and a volume that are refused, and what refuses them before.
fn broken(title: &str, harm: fn(&mut Case)) -> Case {
    let mut case = caused(title, weighing(racked(1, 2).skill(8, 1), -1.0));
    for position in [Position::Of(0), Position::Of(u32::MAX)] {
        for room in [Room::Empty, Room::Longer(40)] {
            case.asks.push(Ask::Cause(position, room));
        }
    }
    harm(&mut case);
    case
}

/// Gun 9 in a high slot.
fn gun(sketch: Sketch, index: u16) -> Sketch {
    armed(sketch).item(9, HIGH, index)
}

/// Has the catalogue have gun 9, of group 60.
fn armed(sketch: Sketch) -> Sketch {
    match sketch.catalogue.types.iter().any(|row| row.id == 9) {
        true => sketch,
        false => sketch.known(9, 60, CATEGORY_MODULE),
    }
}

fn guns(sketch: Sketch, count: u16) -> Sketch {
    (0..count).fold(sketch, gun)
}

/// So many guns in a rack of so many.
fn racked(amount: u16, count: u16) -> Sketch {
    guns(Sketch::hull().ship(RACKS, f64::from(amount)), count)
}

/// Every load over its output.
fn loads() -> Case {
    let sketch = (0..10).fold(guns(Sketch::hull(), 2), |sketch, row| {
        sketch.ship(2 * row, 2.0).ship(2 * row + 1, 1.0)
    });
    caused("every load", sketch)
}

/// Two items more than each rack has room for, with others between.
fn racks(amount: u16) -> Case {
    let mut sketch = armed(Sketch::hull());
    for rack in 0..6 {
        sketch = sketch.ship(RACKS + rack, f64::from(amount));
    }
    for index in 0..amount + 2 {
        for rack in 0..6 {
            let index = index + 10 * rack;
            sketch = sketch.item(9, rack as u8, index);
        }
        sketch = sketch.item(9, CARGO, 0).item(9, FIGHTER_TUBE, index);
    }
    caused(&format!("racks of {amount}"), sketch)
}

/// Two turrets and two launchers more than there are hardpoints, fitted anywhere; others
/// of them in the hold, in the bay of fighters and in tubes.
fn hardpoints(amount: u16) -> Case {
    let mut sketch = armed(Sketch::hull());
    for type_id in [60, 61] {
        sketch = sketch.known(type_id, 60, CATEGORY_MODULE);
    }
    sketch = sketch.mark(60, 7).mark(61, 8);
    for hardpoint in 0..2 {
        sketch = sketch.ship(HARDPOINTS + hardpoint, f64::from(amount));
    }
    for index in 0..amount + 2 {
        sketch = sketch.item(60, CARGO, 0).item(60, HIGH, index);
        sketch = sketch.item(61, LOW, index).item(61, FIGHTER_TUBE, index);
        sketch = sketch.item(9, MEDIUM, index).item(60, FIGHTER_BAY, 0);
    }
    caused(&format!("hardpoints of {amount}"), sketch)
}

/// Four in a rack whose room is an odd amount.
fn amount(amount: f64) -> Case {
    let sketch = guns(Sketch::hull().ship(RACKS, amount), 4);
    caused(&format!("a rack of {amount}"), sketch)
}

/// What is marked for each rack, in the next one.
fn wrong_slots() -> Case {
    let sketch = (0..6).fold(armed(Sketch::hull()), |sketch, rack| {
        let type_id = 60 + rack as i32;
        let sketch = sketch.known(type_id, 1, CATEGORY_MODULE);
        let sketch = sketch.mark(type_id, rack + 1);
        sketch.item(type_id, ((rack + 1) % 6) as u8, 3 + rack as u16)
    });
    caused("wrong slots", gun(sketch, 0))
}

fn subsystems() -> Sketch {
    armed(Sketch::hull()).known(50, 90, CATEGORY_SUBSYSTEM)
}

/// One more subsystem, in a slot of its own, of a part.
fn part(sketch: Sketch, part: f64) -> Sketch {
    let index = sketch.fit.items.len() as u16;
    let sketch = sketch.item(50, SUBSYSTEM, index);
    sketch.with(SUBSYSTEM_SLOT, part)
}

/// The name of a limit: three of groups, and that of types.
fn limit_name(limit: usize) -> usize {
    match limit {
        3 => MAX_TYPE_FITTED,
        _ => GROUP_LIMITS + limit,
    }
}

/// Two types of one group and one of another, in every state, in racks and in bays; some
/// of them have a limit.
fn limited(limit: usize, amount: f64) -> Case {
    let name = limit_name(limit);
    let mut sketch = armed(Sketch::hull()).known(10, 60, CATEGORY_MODULE);
    sketch = sketch.known(11, 61, CATEGORY_MODULE);
    for (number, (type_id, kind, state)) in [
        (9, CARGO, ACTIVE),
        (9, HIGH, ONLINE),
        (11, HIGH, OVERLOAD),
        (10, MEDIUM, ACTIVE),
        (9, LOW, OVERLOAD),
        (9, HIGH, ACTIVE),
        (10, HIGH, OFFLINE),
        (9, DRONE_BAY, ACTIVE),
        (9, HIGH, OFFLINE),
        (9, MEDIUM, ACTIVE),
        (10, LOW, OVERLOAD),
    ]
    .into_iter()
    .enumerate()
    {
        let index = match kind {
            CARGO | DRONE_BAY => 0,
            _ => number as u16,
        };
        sketch = sketch.item(type_id, kind, index).state(state).quantity(3);
        if [4, 5, 8, 9].contains(&number) {
            sketch = sketch.with(name, amount);
        }
    }
    caused(&format!("limit {limit} of {amount}"), sketch)
}

/// One with a limit in a state, and others of its group.
fn uncounted(limit: usize, amount: f64, state: u8) -> Case {
    let name = limit_name(limit);
    let sketch = gun(gun(Sketch::hull(), 0).state(ACTIVE), 1).state(ONLINE);
    let sketch = gun(sketch, 2).state(state).with(name, amount);
    let sketch = gun(gun(sketch, 3).state(OFFLINE), 4).state(ACTIVE);
    let sketch = gun(gun(sketch, 5).state(OVERLOAD), 6).state(ACTIVE);
    caused(
        &format!("limit {limit} of {amount} at state {state}"),
        sketch,
    )
}

/// A limit of 0, and one pair.
fn only_limit(limit: usize) -> Case {
    let sketch = gun(Sketch::hull(), 0).state(ACTIVE);
    let sketch = sketch.with(limit_name(limit), 0.0).item(9, CARGO, 0);
    caused(&format!("limit {limit} of 0, one pair"), sketch)
}

/// Pairs of one group and type, whose limits are not alike.
fn limits_of_two() -> Case {
    let limits = [3.0, 1.0, 2.0, 0.0];
    let sketch = (0..8).fold(Sketch::hull(), |sketch, index| {
        let sketch = gun(sketch, index).state(ACTIVE);
        let amount = limits[usize::from(index) % 4];
        let names = [0, 1, 2, 3].map(limit_name);
        names
            .into_iter()
            .fold(sketch, |sketch, name| sketch.with(name, amount))
    });
    caused("limits that are not alike", sketch)
}

/// Stacks of launched drones, and so many that may be.
fn drones(most: i64, stacks: &[u32]) -> Case {
    let sketch = Sketch::hull().character(MAX_ACTIVE_DRONES, most as f64);
    caused(&format!("{stacks:?} drones of {most}"), bay(sketch, stacks))
}

fn bay(sketch: Sketch, stacks: &[u32]) -> Sketch {
    let sketch = gun(sketch.known(80, 5, CATEGORY_DRONE), 0);
    stacks.iter().fold(sketch, |sketch, stack| {
        sketch.item(80, DRONE_BAY, 0).quantity(*stack).state(ACTIVE)
    })
}

/// Stacks around so many drones as may be.
fn drones_over(most: u32) -> Case {
    let stacks = [most, 1, most / 2, most, 2, most.max(9)];
    drones(most.into(), &stacks)
}

/// Drones in every state, fighters in tubes and drones in the hold; the ship has an amount
/// of its own.
fn launched() -> Case {
    let mut sketch = gun(Sketch::hull().known(80, 5, CATEGORY_DRONE), 0);
    sketch = sketch
        .character(MAX_ACTIVE_DRONES, 4.0)
        .ship(MAX_ACTIVE_DRONES, 1.0);
    for (kind, quantity, state) in [
        (DRONE_BAY, 2, OVERLOAD),
        (DRONE_BAY, 9, ONLINE),
        (FIGHTER_TUBE, 9, ACTIVE),
        (DRONE_BAY, 2, ACTIVE),
        (CARGO, 9, ACTIVE),
        (DRONE_BAY, 1, ACTIVE),
        (DRONE_BAY, 9, OFFLINE),
        (DRONE_BAY, 1, ACTIVE),
        (DRONE_BAY, 0, ACTIVE),
    ] {
        sketch = sketch.item(80, kind, 0).quantity(quantity).state(state);
    }
    caused("drones in every state", sketch.unpaired(80, DRONE_BAY, 0))
}

/// A volume that is 2^53 so many times.
const GREAT: f32 = 4_194_304.0;
const MANY: u32 = 1 << 31;

/// An available amount whose limit is 2^53, so that 1 is lost beside it.
fn beside_2_53() -> f64 {
    let wanted = 2f64.powi(53);
    let limit = |of: f64| of + of.abs() * 1e-9;
    let mut amount = wanted / (1.0 + 1e-9);
    while limit(amount) < wanted {
        amount = amount.next_up();
    }
    while limit(amount) > wanted {
        amount = amount.next_down();
    }
    amount
}

/// Stacks of cargo, each of a volume of its own, and a hold.
fn cargo(capacity: f64, stacks: &[(f32, u32)]) -> Case {
    let mut sketch = gun(Sketch::hull().ship(CAPACITY, capacity), 0);
    for (number, (volume, quantity)) in stacks.iter().enumerate() {
        let type_id = 100 + number as i32;
        sketch = sketch.known(type_id, 450, CATEGORY_CHARGE).volume(*volume);
        sketch = sketch.item(type_id, CARGO, 0).quantity(*quantity);
    }
    caused(&format!("cargo {stacks:?} in {capacity}"), gun(sketch, 1))
}

/// Stacks around so much as there is room for.
fn cargo_over(most: u32) -> Case {
    let stacks = [most, 1, most / 2, most, 2, most.max(9)];
    cargo(most.into(), &stacks.map(|stack| (1.0, stack)))
}

/// Cargo without a volume, of a missing type, of volume 0 and -0, and of no quantity.
fn without_volume() -> Case {
    let mut sketch = good(hold().known(101, 450, CATEGORY_CHARGE).item(101, CARGO, 0));
    for (type_id, volume) in [(103, 0.0), (104, -0.0)] {
        sketch = sketch.known(type_id, 450, CATEGORY_CHARGE).volume(volume);
        sketch = sketch.item(type_id, CARGO, 0);
    }
    let sketch = sketch.item(71, CARGO, 0).item(100, CARGO, 0).quantity(0);
    let sketch = sketch.item(100, CARGO, 0).item(100, LOW, 9).quantity(50);
    caused(
        "cargo that takes nothing",
        sketch.unpaired(100, CARGO, 0).quantity(90),
    )
}

/// Cargo of a missing type and without a volume between stacks that are needed.
fn beside_no_volume() -> Case {
    let sketch = good(hold()).quantity(2).item(71, CARGO, 0);
    let sketch = sketch.known(101, 450, CATEGORY_CHARGE).item(101, CARGO, 0);
    caused("cargo of no volume between", sketch.item(100, CARGO, 0))
}

/// A hold of 2, with a gun before it.
fn hold() -> Sketch {
    gun(Sketch::hull().ship(CAPACITY, 2.0), 0)
}

/// Three of volume 1 in the hold.
fn good(sketch: Sketch) -> Sketch {
    let sketch = sketch.known(100, 450, CATEGORY_CHARGE).volume(1.0);
    sketch.item(100, CARGO, 0).quantity(3)
}

/// One of a volume in the hold.
fn weighing(sketch: Sketch, volume: f32) -> Sketch {
    let type_id = 200 + sketch.catalogue.types.len() as i32;
    let sketch = sketch.known(type_id, 450, CATEGORY_CHARGE).volume(volume);
    sketch.item(type_id, CARGO, 0)
}

/// A bad volume behind a good one, and an entry of a rack.
fn bad(volume: f32) -> Case {
    let sketch = good(guns(hold().ship(RACKS, 1.0), 2));
    caused(&format!("a volume of {volume:?}"), weighing(sketch, volume))
}

/// The same of a volume that is fine, at the end of what is.
fn bad_nothing(volume: f32) -> Case {
    let mut case = bad(volume);
    case.title += ", which is none";
    case
}

/// Bad volumes where they take no room.
fn spared() -> Case {
    let sketch = [DRONE_BAY, FIGHTER_BAY].into_iter();
    let sketch = sketch.fold(good(hold()), |sketch, kind| sketch.item(300, kind, 0));
    let sketch = sketch.known(300, 450, CATEGORY_MODULE).volume(f32::NAN);
    let sketch = sketch.known(301, 450, CATEGORY_MODULE).volume(-1.0);
    let kinds = [
        MEDIUM,
        RIG,
        SUBSYSTEM,
        SERVICE,
        FIGHTER_TUBE,
        IMPLANT,
        BOOSTER,
    ];
    let sketch = kinds
        .into_iter()
        .fold(sketch, |sketch, kind| sketch.item(301, kind, 5));
    let sketch = sketch.item(301, LOW, 3).item(300, HIGH, 4);
    caused(
        "bad volumes beside the hold",
        sketch.unpaired(301, CARGO, 0),
    )
}

/// Bad volume bits under flag 0.
fn flagless() -> Case {
    let mut sketch = good(hold()).item(302, CARGO, 0);
    sketch.catalogue.types.push(Type {
        id: 302,
        group: 1,
        category: CATEGORY_CHARGE,
        flag: 0,
        volume: f32::NAN.to_bits(),
    });
    caused("bad volume bits under flag 0", sketch)
}

/// Entries of many rules at once.
fn everything() -> Sketch {
    let sketch = guns(Sketch::hull().ship(RACKS, 1.0).skill(8, 1).mode(9), 3);
    let sketch = sketch.ship(0, 2.0).ship(1, 1.0).ship(CAPACITY, 2.0);
    let sketch = sketch.character(MAX_ACTIVE_DRONES, 2.0);
    let sketch = gun(sketch, 2)
        .with(GROUP_LIMITS, 2.0)
        .with(MAX_TYPE_FITTED, 1.0);
    let sketch = bay(sketch.item(71, LOW, 0), &[1, 1, 1]);
    let sketch = sketch.known(50, 90, CATEGORY_SUBSYSTEM);
    good(part(part(sketch, 125.0), 125.0))
}

#[cfg(test)]
mod tests {
    use super::*;

    #[test]
    fn one_is_lost_beside_the_great_volume() {
        let available = beside_2_53();
        let wanted = 2f64.powi(53);
        assert_eq!(f64::from(GREAT) * f64::from(MANY), wanted);
        assert_eq!(available + available.abs() * 1e-9, wanted);
        assert_eq!(wanted + 1.0, wanted);
    }

    #[test]
    fn every_case_has_calls() {
        for make in CASES {
            assert!(!make().asks.is_empty());
        }
    }
}
