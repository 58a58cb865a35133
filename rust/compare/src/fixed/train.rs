//! Training at its corners: where a skill is added, which level it comes to, how
//! many steps there are, and 16 on either side of 1,024 skills.

use super::chains::chain;
use super::{Make, ODD_VALUES};
use crate::case::{Ask, Case, Room, Steps};
use crate::model::Skill;
use crate::names::*;
use crate::sketch::*;

pub const CASES: &[Make] = &[
    || {
        trained(
            "a skill two levels short",
            wanting(3300, 3.0).skill(3300, 1),
        )
    },
    || trained("a skill at its level", wanting(3300, 3.0).skill(3300, 3)),
    || trained("a skill over its level", wanting(3300, 3.0).skill(3300, 5)),
    || {
        trained(
            "a skill listed at level 0",
            wanting(3300, 3.0).skill(3300, 0),
        )
    },
    || trained("a skill added to none", wanting(3300, 3.0)),
    || {
        trained(
            "a skill added first",
            listing(wanting(10, 3.0), &[20, 30, 40]),
        )
    },
    || {
        trained(
            "a skill added second",
            listing(wanting(25, 3.0), &[20, 30, 40]),
        )
    },
    || {
        trained(
            "a skill added third",
            listing(wanting(35, 3.0), &[20, 30, 40]),
        )
    },
    || {
        trained(
            "a skill added last",
            listing(wanting(50, 3.0), &[20, 30, 40]),
        )
    },
    || {
        trained(
            "a skill wanted at level 0",
            wanting(3300, 0.0).skill(3301, 2),
        )
    },
    || {
        trained(
            "a skill wanted at level 1",
            wanting(3300, 1.0).skill(3301, 2),
        )
    },
    || added_id(i32::MIN),
    || added_id(-1),
    || added_id(0),
    || added_id(i32::MAX),
    || {
        let sketch = listing(wanting(-7, 3.0), &[-9, -8, 4, 9]);
        trained("a negative id among both", sketch)
    },
    || {
        let mut sketch = listing(Sketch::hull(), &[3302, 3305]);
        for row in 0..6 {
            sketch = sketch
                .ship(REQUIRED + 2 * row, 3306.0 - row as f64)
                .ship(REQUIRED + 2 * row + 1, row as f64 + 1.0);
        }
        trained("six demands, ids falling", sketch)
    },
    || {
        let sketch = wanting(3300, 5.0)
            .ship(REQUIRED + 2, 3301.0)
            .ship(REQUIRED + 3, 2.0)
            .ship(REQUIRED + 4, 3300.0)
            .ship(REQUIRED + 5, 2.0);
        trained("one skill demanded twice, high then low", sketch)
    },
    || {
        let sketch = wanting(3300, 2.0)
            .ship(REQUIRED + 2, 3301.0)
            .ship(REQUIRED + 3, 2.0)
            .ship(REQUIRED + 4, 3300.0)
            .ship(REQUIRED + 5, 5.0)
            .skill(3300, 1);
        trained("one skill demanded twice, low then high", sketch)
    },
    || {
        let sketch = wanting(4, 2.0)
            .base(4, REQUIRED, 3.0)
            .base(4, REQUIRED + 1, 1.0)
            .base(3, REQUIRED, 2.0)
            .base(3, REQUIRED + 1, 0.0)
            .base(2, REQUIRED, 1.0)
            .base(2, REQUIRED + 1, 4.0)
            .skill(1, 2);
        trained("a chain of four, one of them at level 0", sketch)
    },
    || {
        let sketch = wanting(1, 3.0)
            .base(1, REQUIRED, 2.0)
            .base(1, REQUIRED + 1, 1.0)
            .base(2, REQUIRED, 1.0)
            .base(2, REQUIRED + 1, 4.0);
        trained("two skills that demand each other", sketch)
    },
    || trained("a level from 254 to 255", wanting(7, 255.0).skill(7, 254)),
    || trained("a level from 253 to 255", wanting(7, 300.0).skill(7, 253)),
    || trained("a level from 0 to 255", wanting(7, 1e9)),
    || {
        let sketch = wanting(7, 255.0)
            .base(7, REQUIRED, 8.0)
            .base(7, REQUIRED + 1, 255.0)
            .skill(8, 3);
        trained("507 levels are missing", sketch)
    },
    || everyone(0),
    || everyone(1),
    || everyone(2),
    || everyone(3),
    || everyone(4),
    || everyone(u32::MAX),
    || {
        let sketch = Sketch::of(30, 25, CATEGORY_MODULE);
        let sketch = sketch.ship(REQUIRED, 7.0).ship(REQUIRED + 1, 2.0);
        trained("training on no hull", sketch)
    },
    || {
        let sketch = wanting(7, 2.0)
            .known(7, 1, CATEGORY_MODULE)
            .known(8, 1, CATEGORY_SKILL)
            .base(7, REQUIRED, 8.0)
            .base(7, REQUIRED + 1, 1.0);
        trained("a gun among the demands, and a skill", sketch)
    },
    bytes_of_every_kind,
    || full(1_023, &[7], &[]),
    || full(1_024, &[7], &[]),
    || full(1_022, &[7, 8], &[]),
    || full(1_022, &[7, 8, 9], &[]),
    || full(1_020, &[7, 8, 9, 10, 11, 12], &[]),
    || full(1_024, &[], &[(20_000, 0)]),
    || full(1_024, &[], &[(20_000, 3), (20_001, 0), (20_002, 1)]),
    || full(1_023, &[7], &[(20_000, 0), (20_001, 3)]),
    || full(1_022, &[7, 8, 9], &[(20_000, 1)]),
    || full(0, &[7, 8, 9], &[]),
    || {
        // A skill wanted at level 0 is not added.
        let mut case = full(1_023, &[7], &[]);
        let extra = (id(REQUIRED + 2), 9f64.to_bits());
        case.fits[0].ship.attributes.push(extra);
        case.fits[0].ship.attributes.sort_by_key(|row| row.0);
        for name in [REQUIRED + 2, REQUIRED + 3] {
            name_it(&mut case, name);
        }
        case
    },
    || {
        // The character's demands are none of the ship's.
        let mut case = full(1_023, &[7], &[]);
        case.fits[0].character = case.fits[0].ship.clone();
        case.fits[0].character.attributes[0].1 = 8f64.to_bits();
        case
    },
    || trained_case(chain(40, 2.0)),
    || few(chain(512, 1.0)),
    || few(chain(512, 0.0)),
    || few(chain(513, 1.0)),
];

/// A ship that demands a skill at a level.
fn wanting(skill: i32, level: f64) -> Sketch {
    Sketch::hull()
        .ship(REQUIRED, skill.into())
        .ship(REQUIRED + 1, level)
}

/// So many other skills, trained to levels of their own.
fn listing(sketch: Sketch, ids: &[i32]) -> Sketch {
    let levels = ids.iter().zip(1..);
    levels.fold(sketch, |sketch, (id, level)| sketch.skill(*id, level))
}

fn added_id(id: i32) -> Case {
    let listed: &[i32] = match id {
        i32::MIN => &[i32::MIN + 1, 5, i32::MAX],
        i32::MAX => &[i32::MIN, 5, i32::MAX - 1],
        _ => &[i32::MIN, -2, 1, i32::MAX],
    };
    trained(
        "an id at an end, or beside 0",
        listing(wanting(id, 2.0), listed),
    )
}

/// Ship, character, one pair and one result without an item all demand.
fn everyone(result: u32) -> Case {
    let sketch = Sketch::hull()
        .ship(REQUIRED, 1.0)
        .ship(REQUIRED + 1, 1.0)
        .character(REQUIRED, 2.0)
        .character(REQUIRED + 1, 2.0)
        .item(5, HIGH, 0)
        .with(REQUIRED, 3.0)
        .with(REQUIRED + 1, 3.0)
        .result()
        .with(REQUIRED, 4.0)
        .with(REQUIRED + 1, 4.0)
        .skill(3, 1);
    asked(sketch.case("every result demands", &[]), result)
}

/// NaN of every kind, -0 and infinities among the values, items without results.
fn bytes_of_every_kind() -> Case {
    let mut sketch = wanting(7, 2.0)
        .mode(1_000)
        .item(5, BOOSTER, 65_535)
        .quantity(u32::MAX)
        .state(OVERLOAD)
        .unpaired(-6, CARGO, 0)
        .unpaired(7, RIG, 255);
    let values = (-3..).zip(ODD_VALUES);
    sketch.fit.results[0].attributes.extend(values.clone());
    sketch.fit.ship.attributes.extend(values);
    trained("bytes of every kind behind the skills", sketch)
}

/// So many listed skills from 10,000 on, of which some stand at other levels, and
/// a ship that demands some that are not listed and then some that are, at 4.
fn full(count: usize, added: &[i32], listed: &[(i32, u8)]) -> Case {
    let listed_ids = listed.iter().map(|skill| &skill.0);
    let demands = added.iter().chain(listed_ids);
    let mut sketch = Sketch::hull();
    for (row, skill) in demands.enumerate() {
        sketch = sketch
            .ship(REQUIRED + 2 * row, f64::from(*skill))
            .ship(REQUIRED + 2 * row + 1, 4.0);
    }
    let more = (10_000..).take(count - listed.len());
    sketch.fit.skills = more.map(|id| Skill { id, level: 1 }).collect();
    let own = |(id, level): &(i32, u8)| Skill {
        id: *id,
        level: *level,
    };
    sketch.fit.skills.extend(listed.iter().map(own));
    trained("about 1,024 listed skills", sketch)
}

/// Gives a name its id in a case that is made already.
fn name_it(case: &mut Case, name: usize) {
    let named = Sketch::hull().name(name).catalogue.names;
    case.catalogue.names.extend(named);
    case.catalogue.names.sort_by_key(|row| row.number);
}

fn trained(title: &str, sketch: Sketch) -> Case {
    asked(sketch.case(title, &[]), 0)
}

fn trained_case(case: Case) -> Case {
    asked(case, 0)
}

/// Steps around what is missing, and such as are few in 8, 16, 24 or 31 bits.
const STEPS: [Steps; 13] = [
    Steps::Of(0),
    Steps::Of(1),
    Steps::Of(2),
    Steps::Of(3),
    Steps::OneLess,
    Steps::All,
    Steps::OneMore,
    Steps::Of(256),
    Steps::Of(65_536),
    Steps::Of(1 << 24),
    Steps::Of(1 << 31),
    Steps::Of(u32::MAX - 1),
    Steps::Of(u32::MAX),
];

/// Every number of steps, buffers of every kind, and what is promised.
fn asked(mut case: Case, result: u32) -> Case {
    let old = case.fits[0].image().len();
    let steps = STEPS.map(|steps| Ask::Train(result, steps, Room::Longer(40)));
    let rooms = [Room::Empty, Room::OneShort, Room::Exact, Room::Of(old)];
    case.asks = steps.to_vec();
    for steps in [Steps::Of(0), Steps::Of(1), Steps::All] {
        case.asks
            .extend(rooms.map(|room| Ask::Train(result, steps, room)));
    }
    case.asks
        .extend(STEPS.map(|steps| Ask::Trained(result, steps)));
    case
}

/// Some of these, where a walk is long.
fn few(mut case: Case) -> Case {
    case.asks = vec![
        Ask::Train(0, Steps::Of(0), Room::Exact),
        Ask::Train(0, Steps::Of(300), Room::Longer(7)),
        Ask::Train(0, Steps::OneLess, Room::OneShort),
        Ask::Train(0, Steps::All, Room::Exact),
        Ask::Train(0, Steps::Of(u32::MAX), Room::Longer(40)),
        Ask::Trained(0, Steps::OneLess),
        Ask::Trained(0, Steps::All),
    ];
    case
}
