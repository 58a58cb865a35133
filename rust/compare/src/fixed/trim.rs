//! Trimmed catalogues at their corners: who names an id and what stands under it,
//! how far walks lead, bytes that no number holds, and what little is left.

use super::{Make, ODD_VALUES};
use crate::case::{Ask, Case, Room};
use crate::model::{Base, Catalogue, Fit, Name};
use crate::names::*;
use crate::page::Limits;
use crate::profile::League;
use crate::reader::Reader;
use crate::sketch::*;

pub const CASES: &[Make] = &[
    || trimmed("something of everything", everything()),
    || trimmed("more items than results", everything().unpaired(8, LOW, 1)),
    || trimmed("more results than items", wanting(everything().result(), 8)),
    // Whose an id is.
    || trimmed("the ship's own", under(strangers(), SHIP)),
    || trimmed("the mode's", under(strangers(), 33).mode(33)),
    || {
        trimmed(
            "a missing mode's",
            under(strangers(), 33).mode(33).untyped(33),
        )
    },
    || trimmed("a listed skill's", under(strangers(), 33).skill(33, 1)),
    || {
        let sketch = under(strangers(), 33).skill(33, 1);
        trimmed(
            "a listed gun's",
            sketch.known(34, 1, CATEGORY_MODULE).skill(34, 0),
        )
    },
    || trimmed("an item's", under(strangers(), 33).item(33, HIGH, 0)),
    || trimmed("cargo's", under(strangers(), 33).item(33, CARGO, 0)),
    || {
        let sketch = under(strangers(), 33).unpaired(33, RIG, 0);
        trimmed("an item's that has no result", sketch)
    },
    || {
        let sketch = under(strangers(), 33).unpaired(33, CARGO, 0).quantity(0);
        trimmed("an item's that has neither result nor quantity", sketch)
    },
    || {
        let sketch = under(strangers(), 33).item(33, HIGH, 0).quantity(0);
        trimmed("an item's that has no quantity", sketch)
    },
    || {
        let sketch = under(Sketch::of(30, 25, CATEGORY_MODULE), 33);
        let sketch = sketch.known(31, 1, 7).unpaired(33, HIGH, 0);
        trimmed("an item's that has no result, on no hull", sketch)
    },
    || {
        let sketch = under(strangers(), 33);
        trimmed(
            "the ship wants it",
            sketch.ship(REQUIRED, 33.0).name(REQUIRED + 1),
        )
    },
    || {
        let sketch = under(strangers(), 33).character(REQUIRED, 33.0);
        trimmed("the character wants it", sketch.name(REQUIRED + 1))
    },
    || {
        let sketch = under(strangers(), 33).item(SHIP, HIGH, 0);
        trimmed("an item wants it", wanting(sketch, 33))
    },
    || {
        let sketch = under(strangers(), 33).result();
        trimmed("a result without an item wants it", wanting(sketch, 33))
    },
    // What stands under it.
    || trimmed("a type alone", strangers().known(33, 1, 7).skill(33, 1)),
    || {
        trimmed(
            "links alone",
            strangers().mark(33, 1).link(33, 5).skill(33, 1),
        )
    },
    || {
        let sketch = strangers().base(33, VOLUME, 1.0).base(33, RIG_SIZE, 2.0);
        trimmed("base values alone", sketch.skill(33, 1))
    },
    || {
        let sketch = strangers().mark(33, 1).base(33, VOLUME, 1.0);
        trimmed("links and base values", sketch.skill(33, 1))
    },
    || {
        let sketch = strangers().known(33, 1, 7).mark(33, 1);
        trimmed("a type and links", sketch.item(33, HIGH, 0))
    },
    || {
        let sketch = strangers().known(33, 1, 7).base(33, VOLUME, 1.0);
        trimmed("a type and base values", sketch.item(33, HIGH, 0))
    },
    || trimmed("nothing", strangers().item(33, HIGH, 0).skill(-33, 1)),
    || {
        let sketch = strangers()
            .mark(33, 1)
            .base(33, REQUIRED, 34.0)
            .base(34, VOLUME, 1.0);
        let sketch = sketch.ship(REQUIRED, 33.0).ship(REQUIRED + 1, 2.0);
        trimmed("a wanted id without a type, which wants another", sketch)
    },
    // How it is wanted.
    || {
        let sketch = demanded(strangers().ship(REQUIRED, 40.0).ship(REQUIRED + 1, 0.0));
        trimmed("wanted at level 0", sketch)
    },
    || {
        let sketch = strangers()
            .base(41, REQUIRED, 42.0)
            .base(42, REQUIRED, 40.0);
        let sketch = sketch.ship(REQUIRED, 41.0).name(REQUIRED + 1);
        trimmed("wanted by a skill that a skill wants", demanded(sketch))
    },
    || {
        let sketch = strangers()
            .base(41, REQUIRED, 42.0)
            .base(42, REQUIRED, 41.0);
        let sketch = sketch.base(42, REQUIRED + 2, 42.0).name(REQUIRED + 3);
        let sketch = sketch.ship(REQUIRED, 41.0).name(REQUIRED + 1);
        trimmed("skills that want each other and themselves", sketch)
    },
    || {
        let sketch = strangers().ship(REQUIRED, 40.0).ship(REQUIRED + 1, 1.0);
        let sketch = sketch
            .character(REQUIRED, 40.0)
            .character(REQUIRED + 1, 3.0);
        trimmed("wanted twice, and listed", demanded(sketch).skill(40, 5))
    },
    || {
        let sketch = demanded(strangers().ship(REQUIRED, 40.0)).nameless(REQUIRED + 1);
        trimmed("a demand whose level has no id", sketch)
    },
    || {
        let sketch = strangers()
            .ship(REQUIRED, 40.7)
            .ship(REQUIRED + 1, f64::NAN);
        trimmed("a demand that is cast", demanded(sketch))
    },
    // How it is not: base values of these types demand it, and no result.
    || {
        let sketch = demanding(strangers(), SHIP);
        trimmed("what the ship's type demands", sketch)
    },
    || {
        let sketch = demanding(under(strangers(), 33).mode(33), 33);
        trimmed("what the mode's type demands", sketch)
    },
    || {
        let sketch = demanding(under(strangers(), 33).skill(33, 5), 33);
        trimmed("what a listed skill demands", sketch)
    },
    || {
        let sketch = demanding(under(strangers(), 33).item(33, HIGH, 0), 33);
        trimmed("what an item's type demands", sketch)
    },
    || {
        let sketch = under(under(strangers(), 33), 41).item(33, HIGH, 0);
        let sketch = demanding(wanting(sketch, 41), 33);
        trimmed(
            "what an item's type demands, and its result another",
            sketch,
        )
    },
    || {
        let sketch = demanding(under(strangers(), 33).unpaired(33, RIG, 0), 33);
        trimmed("what the type of an item without a result demands", sketch)
    },
    || {
        let sketch = under(strangers(), 33).unpaired(33, CARGO, 0).quantity(0);
        trimmed("the same of quantity 0", demanding(sketch, 33))
    },
    // How many are wanted.
    || walking(512, 0),
    || walking(513, 0),
    || walking(512, 1),
    || walking(513, 1),
    || walking(512, 2),
    || walking(513, 2),
    || walking(512, 3),
    || walking(513, 3),
    || walking(600, 3),
    // How many all results want together.
    || together(300, 300, 0),
    || together(256, 256, 0),
    || together(256, 257, 0),
    || together(300, 212, 100),
    || together(300, 213, 100),
    || direct(512),
    || direct(513),
    || crowded(512, 0),
    || crowded(513, 0),
    || crowded(512, 1),
    || crowded(513, 1),
    || crowded(512, 2),
    || crowded(513, 2),
    || crowded(512, 3),
    || crowded(513, 3),
    // The mode's flag.
    || trimmed("type 0 and no mode", under(strangers(), 0)),
    || trimmed("type 0 and mode 0", under(strangers(), 0).mode(0)),
    || trimmed("type 0 and another mode", under(strangers(), 0).mode(33)),
    // Ids at both ends, and beside 0.
    || ids(i32::MIN),
    || ids(-1),
    || ids(0),
    || ids(i32::MAX),
    // Bytes and orders.
    bytes_of_every_kind,
    || {
        let sketch = strangers()
            .link(SHIP, 9)
            .link(SHIP, 4)
            .link(SHIP, 4)
            .link(SHIP, 7);
        trimmed("links alike, and links that fall", sketch)
    },
    || {
        let sketch = strangers()
            .base(SHIP, RIG_SIZE, 2.0)
            .base(SHIP, CAPACITY, 1.0);
        let sketch = sketch.base(SHIP, RIG_SIZE, 3.0).base(SHIP, RIG_SIZE, 3.0);
        trimmed("base values alike, and ones that fall", sketch)
    },
    // How much is left.
    || trimmed("the hull alone", Sketch::hull()),
    || {
        trimmed(
            "nothing goes",
            under(Sketch::hull().name(VOLUME).mark(SHIP, 3), SHIP),
        )
    },
    || trimmed("names and effects alone", front_alone()),
    || trimmed("no names and no effects", nameless()),
    || {
        let mut sketch = nameless();
        sketch.fit.ship_type = -5;
        trimmed("the sizes alone", sketch)
    },
    || {
        trimmed(
            "of nothing nothing",
            Sketch {
                catalogue: Catalogue::default(),
                fit: Fit::default(),
            },
        )
    },
    || {
        let sketch = Sketch::of(30, 25, CATEGORY_MODULE).known(31, 1, 7);
        let sketch = [30, 33, 34, 35].into_iter().fold(sketch, under);
        let sketch = sketch.mode(33).skill(34, 1);
        trimmed("on no hull", sketch.item(35, HIGH, 0))
    },
    || {
        let mut broken = trimmed("a broken fit", everything());
        broken.fits[0].character.state = 4;
        broken
    },
    // The calls under both.
    || profiled(League::of(&[(1, 5), (25, 9)], 3)),
    || {
        let mut cut = profiled(League::of(&[(1, 5)], 0));
        let profile = cut.league.profile.as_mut();
        profile.expect("it is brought").damage.cut = 1;
        cut
    },
    || profiled(League::of(&[(5, 1), (1, 5)], 0)),
    || limited(Limits::of(0, 512)),
    || limited(Limits::of(256, 1)),
    || read_by(Reader::GUEST),
    || read_by(Reader::PILOT),
    || read_by(Reader(3)),
];

/// A hull, and types, links and base values that are nobody's around it.
fn strangers() -> Sketch {
    let sketch = Sketch::hull().name(MAX_ACTIVE_DRONES);
    [-70, 36, 700].into_iter().fold(sketch, under)
}

/// A type with links and base values.
fn under(sketch: Sketch, id: i32) -> Sketch {
    let known = sketch.catalogue.types.iter().any(|row| row.id == id);
    let sketch = match known {
        true => sketch,
        false => sketch.known(id, 1, CATEGORY_MODULE),
    };
    sketch
        .mark(id, 2)
        .link(id, 77)
        .base(id, CAPACITY, id as f32)
        .base(id, RIG_SIZE, 1.5)
}

/// How many cases have everybody's ids with and without something.
pub const STANDING: usize = 16;

/// Everybody's ids, each with a type or none, links or none, base values or none: the
/// ship's, the mode's, a listed skill's, an item's, and what the ship, the character
/// and that item want; with them those of items without a result, of which one has no
/// quantity, or what a result without an item wants.
pub fn standing(number: usize) -> Case {
    let [types, links, bases, lone] = [8, 4, 2, 1].map(|bit| number & bit != 0);
    let sketch = under(Sketch::hull(), 31).mode(33).skill(34, 0);
    let sketch = sketch.ship(REQUIRED, 40.0).ship(REQUIRED + 1, 1.0);
    let sketch = sketch.character(REQUIRED, 41.0).item(35, HIGH, 0);
    let sketch = wanting(sketch, 42);
    let sketch = match lone {
        true => sketch.unpaired(36, RIG, 0).unpaired(37, CARGO, 0),
        false => wanting(sketch.result(), 43),
    };
    let sketch = sketch.quantity(u32::from(!lone)).untyped(SHIP);
    let ids = [SHIP, 33, 34, 35, 36, 37, 40, 41, 42, 43].into_iter();
    let sketch = ids.fold(sketch, |sketch, id| {
        stand(sketch, id, [types, links, bases])
    });
    let has = |what: &str, holds: bool| match holds {
        true => what.to_string(),
        false => format!("no {what}"),
    };
    let title = format!(
        "everybody's ids, with {}, {} and {}",
        has("types", types),
        has("links", links),
        has("base values", bases)
    );
    trimmed(&title, sketch)
}

/// A type, a link and a base value under an id, where they are to stand there.
fn stand(sketch: Sketch, id: i32, [types, links, bases]: [bool; 3]) -> Sketch {
    let mut sketch = sketch.name(VOLUME);
    if types && id == SHIP {
        sketch = sketch.known(SHIP, SHIP_GROUP, CATEGORY_SHIP);
    } else if types {
        sketch = sketch.known(id, 1, CATEGORY_MODULE);
    }
    if links {
        sketch = sketch.mark(id, 2);
    }
    if bases {
        sketch = sketch.base(id, VOLUME, 1.0);
    }
    sketch
}

/// Skill 40 is demanded by base values under an id, and something stands under it.
fn demanding(sketch: Sketch, id: i32) -> Sketch {
    let sketch = sketch.base(id, REQUIRED, 40.0);
    demanded(sketch.base(id, REQUIRED + 1, 1.0))
}

/// Skill 40, of which something stands in the catalogue.
fn demanded(sketch: Sketch) -> Sketch {
    under(sketch, 40)
}

/// Has the last result want a skill.
fn wanting(sketch: Sketch, skill: i32) -> Sketch {
    sketch.with(REQUIRED, skill.into()).with(REQUIRED + 1, 1.0)
}

impl Sketch {
    /// Takes a type away; what stands under its id stays.
    fn untyped(mut self, id: i32) -> Sketch {
        self.catalogue.types.retain(|row| row.id != id);
        self
    }
}

/// Ship, mode, skill, pairs, an item and a result without the other, each wanting.
fn everything() -> Sketch {
    let ids = [33, 8, 9, 10, 11, 21, 22, 23];
    let sketch = ids.into_iter().fold(strangers(), under);
    let sketch = sketch
        .mode(33)
        .skill(9, 2)
        .ship(REQUIRED, 21.0)
        .ship(REQUIRED + 1, 4.0)
        .base(21, REQUIRED, 22.0)
        .base(21, REQUIRED + 1, 0.0)
        .item(10, MEDIUM, 0)
        .item(11, CARGO, 0);
    wanting(sketch, 23)
}

/// A result that wants so many skills, the ship's, the character's, that of the one
/// item or one that has no item.
fn walking(length: i32, result: usize) -> Case {
    let sketch = chain_of(four().name(REQUIRED + 1), result, 1_000, length);
    at_limit("a walk at its limit", sketch, length)
}

/// The same, where another result wants 200 others, so that no walk has room for
/// all of them.
fn crowded(length: i32, result: usize) -> Case {
    let sketch = chain_of(four().name(REQUIRED + 1), result, 1_000, length);
    let sketch = chain_of(sketch, (result + 1) % 4, 2_000, 200);
    at_limit("a walk at its limit, and another one", sketch, length)
}

/// Trims where no walk is longer than 512, and refused ones where one is.
fn at_limit(title: &str, sketch: Sketch, length: i32) -> Case {
    let mut case = sketch.case(title, &[]);
    case.asks = ROOMS.map(Ask::Trim).to_vec();
    if length == 512 {
        case.asks.push(Ask::Trimmed);
    }
    case
}

/// Ship, character, an item with a result, and a result without an item.
fn four() -> Sketch {
    strangers().item(SHIP, CARGO, 0).result()
}

/// Has a result want a chain of skills from an id on.
fn chain_of(mut sketch: Sketch, result: usize, first: i32, length: i32) -> Sketch {
    let outcome = match result {
        0 => &mut sketch.fit.ship,
        1 => &mut sketch.fit.character,
        _ => &mut sketch.fit.results[result - 2],
    };
    let demand = (id(REQUIRED), f64::from(first).to_bits());
    outcome.attributes.push(demand);
    chained(sketch, first, length)
}

/// Skills from an id on, each demanding the next; every one has a base value.
fn chained(mut sketch: Sketch, first: i32, length: i32) -> Sketch {
    sketch = sketch.name(REQUIRED);
    for skill in first..first + length - 1 {
        let next = (skill + 1) as f32;
        let demand = Base::single(skill, id(REQUIRED), next);
        sketch.catalogue.bases.push(demand);
    }
    sketch.base(first + length - 1, VOLUME, 1.0)
}

/// So many skills of the ship and so many others of the character, the last of which
/// demands one of the ship's, which leads to the end of those: no walk is too long.
fn together(ship: i32, character: i32, shared: i32) -> Case {
    let sketch = chain_of(strangers(), 0, 1_000, ship);
    let mut sketch = chain_of(sketch, 1, 2_000, character).name(REQUIRED + 1);
    if shared > 0 {
        let last = 2_000 + character - 1;
        sketch = sketch.base(last, REQUIRED, (1_000 + ship - shared) as f32);
    }
    let title = format!("{} skills of two results", ship + character);
    trimmed(&title, sketch)
}

/// So many skills that results demand themselves, up to six each.
fn direct(length: i32) -> Case {
    let mut sketch = strangers();
    for number in 0..length {
        let row = 2 * (number % 6) as usize;
        if row == 0 {
            sketch = sketch.result();
        }
        sketch = sketch.with(REQUIRED + row, f64::from(1_000 + number));
        sketch = sketch.name(REQUIRED + row + 1);
        sketch = sketch.base(1_000 + number, VOLUME, 1.0);
    }
    trimmed(&format!("{length} skills that results demand"), sketch)
}

/// An id that is listed, with what stands beside it.
fn ids(id: i32) -> Case {
    let beside = [id.saturating_sub(1), id, id.saturating_add(1)];
    let mut beside = beside.to_vec();
    beside.dedup();
    let sketch = beside.into_iter().fold(Sketch::hull(), under);
    trimmed("an id at an end, or beside 0", sketch.skill(id, 1))
}

/// NaN of every kind, -0, numbers that are no f32, and volume bits under flag 0.
fn bytes_of_every_kind() -> Case {
    let mut sketch = everything();
    let volumes = [
        0xDEAD_BEEF,
        0x7F80_0001,
        0xFFC0_0000,
        0x8000_0000,
        1,
        0x7FFF_FFFF,
    ];
    for (row, volume) in sketch
        .catalogue
        .types
        .iter_mut()
        .zip(volumes.into_iter().cycle())
    {
        (row.flag, row.volume) = (row.id as u32 % 2, volume);
    }
    // And one that is no f32.
    let values = [&ODD_VALUES[..], &[0x3FB9_9999_9999_999A]].concat();
    // Attributes that no rule reads.
    for (number, value) in values.into_iter().enumerate() {
        for type_id in [SHIP, 10, 36] {
            sketch.catalogue.bases.push(Base {
                type_id,
                attribute: 5_000 - number as i32,
                value,
            });
        }
    }
    trimmed("bytes of every kind", sketch)
}

/// A ship of which the catalogue knows nothing.
fn front_alone() -> Sketch {
    let mut sketch = strangers();
    sketch.fit.ship_type = 5;
    sketch
}

fn nameless() -> Sketch {
    let mut sketch = strangers();
    let attribute = id(VOLUME);
    sketch
        .catalogue
        .names
        .retain(|row: &Name| row.attribute == attribute);
    sketch.catalogue.effects.clear();
    sketch
}

/// List and skills with a profile under both catalogues.
fn profiled(league: League) -> Case {
    let mut case = trimmed("a league under both catalogues", everything());
    case.league = league;
    case
}

fn limited(limits: Limits) -> Case {
    let mut case = trimmed("a page under both catalogues", everything());
    case.limits = limits;
    case
}

fn read_by(reader: Reader) -> Case {
    let mut case = trimmed("a reader under both catalogues", everything());
    case.reader = reader;
    case
}

/// Buffers of every kind, one as long as the whole catalogue, and what is promised.
fn trimmed(title: &str, sketch: Sketch) -> Case {
    let mut case = sketch.case(title, &ROOMS.map(Ask::Trim));
    let whole = case.catalogue.image().len();
    case.asks.push(Ask::Trim(Room::Of(whole)));
    case.asks.push(Ask::Trimmed);
    case
}
