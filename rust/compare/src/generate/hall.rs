//! Hall inputs: fits that are clear, faulted and refused, and broken frames.

use super::fit::fit;
use super::world::{Role, Style, World};
use crate::case::{Ask, Case, Room};
use crate::model::{Damage, Fit, Item, Outcome};
use crate::names::MAX_ACTIVE_DRONES;
use crate::rng::Rng;
use crate::sketch::{ACTIVE, CARGO, CATEGORY_DRONE, DRONE_BAY, Sketch};
use crate::tally::size::UNREAD;

/// How a hall input's frame may be broken; each gives refusal 4 where the
/// catalogue is in order.
pub const FRAMES: [&str; 7] = [
    "input of 3 bytes",
    "no input",
    "65 fits",
    "one byte behind the last fit",
    "last byte missing",
    "a length too high",
    "lengths that wrap 32 bits",
];

pub fn hall(rng: &mut Rng) -> Case {
    let style = match rng.chance(500) {
        true => Style::realistic(rng),
        false => Style::adversarial(rng),
    };
    let world = World::new(rng, style);
    let count = match rng.below(12) {
        0 => 0,
        1 => 64,
        2 => 63,
        3..=5 => rng.below(20),
        _ => rng.below(6),
    };
    let fits: Vec<Fit> = (0..count).map(|_| one(rng, &world, style)).collect();
    let mut case = Case {
        title: "a hall of fits".to_string(),
        catalogue: world.catalogue,
        fits,
        asks: vec![Ask::Hall],
        ..Case::default()
    };
    match rng.below(8) {
        0 => {
            let frame = rng.below(FRAMES.len());
            break_frame(rng, &mut case, frame);
        }
        1 => shift_lengths(&mut case),
        _ => {}
    }
    if rng.chance(100) {
        match rng.below(3) {
            0 => case.catalogue.damage.extra.push(0),
            1 => case.catalogue.types.reverse(),
            _ => case.catalogue.types[0].flag = 2,
        }
    }
    case
}

/// A fit that is clear, faulted for unequal numbers alone, likely faulted, or
/// refused by one of 4 to 6.
fn one(rng: &mut Rng, world: &World, style: Style) -> Fit {
    let mut made = match rng.below(3) {
        0 => bare(rng, world),
        1 if rng.chance(50) => fit(rng, world, style, 200),
        _ => fit(rng, world, style, 6),
    };
    match rng.below(16) {
        0 => made.damage.extra.push(0),
        1 => made.damage.cut = rng.below(60),
        2 => made.ship.attributes = vec![(5, 0), (5, 0)],
        3 => made.mode_flag = 2,
        4 => made.character.state = 4,
        5 => {
            made.ship_type = world.a(rng, Role::Hull);
            made.results.truncate(made.items.len());
            made.items.truncate(made.results.len());
            for _ in 0..2 {
                made.items.push(Item {
                    type_id: world.a(rng, Role::Drone),
                    quantity: u32::MAX,
                    kind: DRONE_BAY,
                    zero: 0,
                    index: 0,
                });
                made.results.push(Outcome {
                    state: ACTIVE,
                    ..Outcome::default()
                });
            }
            if rng.chance(500) {
                let most = (world.ids[MAX_ACTIVE_DRONES], 1e12_f64.to_bits());
                made.character.attributes = vec![most];
            }
        }
        6 => made.items.resize(
            257,
            Item {
                kind: CARGO,
                ..Item::default()
            },
        ),
        // Of one kind more than of the other.
        7 | 8 => {
            for _ in 0..1 + rng.below(3) {
                made.items.push(Item {
                    type_id: world.a(rng, Role::Cargo),
                    quantity: 1,
                    kind: rng.below(12) as u8,
                    ..Item::default()
                });
            }
        }
        9 | 10 => {
            let more = 1 + rng.below(3);
            let most = made.items.len().max(made.results.len());
            made.results.resize(most + more, Outcome::default());
        }
        _ => {}
    }
    made
}

/// A hull with nothing on it, or a few pairs of nothing in its hold.
fn bare(rng: &mut Rng, world: &World) -> Fit {
    let mut made = Fit {
        ship_type: world.a(rng, Role::Hull),
        ..Fit::default()
    };
    for _ in 0..rng.below(3) {
        made.items.push(Item {
            type_id: world.a(rng, Role::Cargo),
            kind: CARGO,
            ..Item::default()
        });
        made.results.push(Outcome::default());
    }
    made
}

/// Breaks the frame in one of the ways of [`FRAMES`].
pub fn break_frame(rng: &mut Rng, case: &mut Case, way: usize) {
    let frame = &mut case.frame;
    match way {
        0 => {
            frame.cut = usize::MAX;
            frame.extra = vec![0; 3];
        }
        1 => frame.cut = usize::MAX,
        2 => case.fits.resize(65, Fit::default()),
        3 => frame.extra.push(rng.draw() as u8),
        4 => frame.cut = 1,
        5 => {
            case.fits.push(Fit::default());
            let last = case.fits.len();
            frame.sizes.push((last, 37));
        }
        _ => {
            // The first length grows by 2^31, the second too: together 2^32.
            case.fits.insert(0, Fit::default());
            case.fits.insert(0, Fit::default());
            frame.sizes.push((1, 36 + 0x8000_0000));
            frame.sizes.push((2, 36 + 0x8000_0000));
        }
    }
}

/// Moves a byte from one fit to the next: the frame is right, both fits are not.
fn shift_lengths(case: &mut Case) {
    let lengths: Vec<u32> = case
        .fits
        .iter()
        .map(|fit| fit.image().len() as u32)
        .collect();
    if let [first, second, ..] = lengths[..]
        && first > 0
    {
        case.frame = Damage {
            sizes: vec![(1, first - 1), (2, second + 1)],
            ..Damage::default()
        };
    }
}

/// 64 fits, or none, or one with a long list: the corners of the call, over a
/// small catalogue.
pub fn corner(number: usize) -> Case {
    let ground = Sketch::hull()
        .known(9, 100, CATEGORY_DRONE)
        .name(MAX_ACTIVE_DRONES);
    let launched = ground
        .clone()
        .item(9, DRONE_BAY, 0)
        .quantity(u32::MAX)
        .state(ACTIVE)
        .item(9, DRONE_BAY, 0)
        .quantity(u32::MAX)
        .state(ACTIVE);
    let led = launched.clone().character(MAX_ACTIVE_DRONES, 1e12).fit;
    let (hull, drones) = (ground.fit.clone(), launched.fit);
    let mut long = hull.clone();
    long.items = vec![Item::default(); 256];
    long.results = vec![Outcome::default(); 256];
    let mut broken = hull.clone();
    broken.mode_flag = 2;
    let fits = match number {
        0 => vec![],
        1 => vec![hull],
        2 => vec![Fit::default()],
        3 => vec![broken],
        4 => vec![hull; 64],
        5 => vec![broken; 64],
        6 => vec![long; 64],
        7 => vec![drones],
        8 => vec![hull.clone(), broken, drones, long, Fit::default(), hull],
        20 => vec![led],
        21 => vec![drones, led.clone(), hull, led],
        _ => vec![hull],
    };
    let mut case = Case {
        title: "a hall at its corners".to_string(),
        catalogue: ground.finish().catalogue,
        fits,
        asks: vec![Ask::Hall],
        ..Case::default()
    };
    match number {
        9..=15 => break_frame(&mut Rng::new(number as u64), &mut case, number - 9),
        16 => case.catalogue.damage.extra.push(0),
        17 => {
            case.catalogue.types[0].flag = 2;
            case.frame.cut = usize::MAX;
        }
        18 => {
            case.catalogue.types.reverse();
            case.frame.extra.push(0);
        }
        19 => {
            case.fits.push(Fit::default());
            shift_lengths(&mut case);
        }
        _ => {}
    }
    case
}

/// How many corners there are.
pub const CORNERS: usize = 22;

/// Fits that list nothing, with as many items and results as the number says,
/// unequal or not: alone, then beside fits of every other kind.
pub fn unequal(number: usize) -> Case {
    let ground = Sketch::hull().known(9, 100, CATEGORY_DRONE);
    let hull = ground.fit.clone();
    let holding = |items: u32, results: u32| {
        let mut fit = hull.clone();
        fit.items = vec![
            Item {
                type_id: 9,
                quantity: 1,
                kind: CARGO,
                ..Item::default()
            };
            items as usize
        ];
        fit.results = vec![Outcome::default(); results as usize];
        fit
    };
    let mut broken = holding(2, 1);
    broken.mode_flag = 2;
    // Ship 0 is no hull.
    let mut listed = holding(1, 2);
    listed.ship_type = 0;
    let rest = number.checked_sub(UNREAD.len());
    let fits = match rest {
        None => {
            let (items, results) = UNREAD[number];
            vec![holding(items, results)]
        }
        Some(0) => vec![holding(1, 1)],
        Some(1) => vec![holding(256, 256)],
        Some(2) => vec![hull.clone(), holding(3, 2), broken, listed, holding(2, 2)],
        Some(3) => vec![broken, holding(2, 3), Fit::default(), holding(1, 1), hull],
        Some(4) => vec![holding(1, 0); 64],
        Some(5) => vec![holding(0, 1); 64],
        Some(_) => vec![listed, holding(0, 1), holding(1, 0), broken],
    };
    Case {
        title: "fits with as many items as results, and with more of one".to_string(),
        catalogue: ground.finish().catalogue,
        fits,
        asks: vec![
            Ask::Hall,
            Ask::List(Room::Exact),
            Ask::List(Room::Longer(24)),
        ],
        ..Case::default()
    }
}

/// How many of these there are.
pub const UNEQUAL: usize = UNREAD.len() + 7;
