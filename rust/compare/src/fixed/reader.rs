//! Readers at their corners: every number that a call may name, what a guest's
//! list omits and keeps, the buffers that hold one list and not the other, and
//! fits whose training alone differs.

use crate::case::{Ask, Case, Growth, Room};
use crate::checker::{Checker, ENTRY, Terms};
use crate::generate::growth;
use crate::model::{Item, Outcome, Skill};
use crate::names::{CAPACITY, MAX_ACTIVE_DRONES, REQUIRED};
use crate::page::Limits;
use crate::profile::{BANNED, League};
use crate::reader::Reader;
use crate::reference::Original;
use crate::sketch::*;

/// The cases that are made by number: a call for each reader, a guest beside
/// other training, and the others.
pub fn count() -> usize {
    named().len() + TRAININGS.len() + OTHERS.len()
}

pub fn case(mut number: usize) -> Case {
    if let Some(reader) = named().get(number) {
        return for_reader(*reader);
    }
    number -= named().len();
    match TRAININGS.get(number) {
        Some(training) => retrained(private(), &training()),
        None => OTHERS[number - TRAININGS.len()](),
    }
}

fn named() -> Vec<Reader> {
    [&Reader::ALL[..], &Reader::ABOVE].concat()
}

/// A gun, a missing type and a skill are trained; beside them stands something of
/// every part of a list, and the ship and an item lack the skill.
fn private() -> Sketch {
    Sketch::hull()
        .known(GUN, 60, CATEGORY_MODULE)
        .known(DRONE, 100, CATEGORY_DRONE)
        .known(SKILL, 255, CATEGORY_SKILL)
        .mode(GUN)
        .skill(GUN, 5)
        .skill(MISSING, 1)
        .skill(SKILL, 2)
        .ship(CAPACITY, -1.0)
        .ship(REQUIRED, SKILL.into())
        .ship(REQUIRED + 1, 5.0)
        .character(MAX_ACTIVE_DRONES, 1.0)
        .item(GUN, HIGH, 0)
        .with(REQUIRED, SKILL.into())
        .with(REQUIRED + 1, 3.0)
        .item(MISSING, HIGH, 0)
        .item(DRONE, DRONE_BAY, 0)
        .quantity(2)
        .state(ACTIVE)
}

const GUN: i32 = 5;
const DRONE: i32 = 9;
const MISSING: i32 = 77;
const SKILL: i32 = 3300;

/// A hull whose listed skills alone are wrong.
fn trained(ids: impl IntoIterator<Item = i32>) -> Sketch {
    let hull = Sketch::hull().known(GUN, 60, CATEGORY_MODULE);
    ids.into_iter().fold(hull, |sketch, id| sketch.skill(id, 4))
}

/// Lists and skills for a reader, with every kind of buffer.
fn for_reader(reader: Reader) -> Case {
    let results = private().fit.results.len() as u32;
    let mut case = private().list(&format!("calls for {reader}"));
    case.reader = reader;
    case.asks.extend(ROOMS.map(|room| Ask::Skill(0, room)));
    for result in [1, 2, results + 1, results + 2] {
        case.asks.push(Ask::Skill(result, Room::Longer(24)));
    }
    case
}

/// A guest's list with buffers around its own size and around the full one's.
fn beside(sketch: Sketch, title: &str) -> Case {
    around(Case {
        reader: Reader::GUEST,
        ..sketch.list(title)
    })
}

/// The same of a case that brings more.
fn around(mut case: Case) -> Case {
    let (guests, full) = (
        written(&case, Reader::GUEST),
        written(&case, Reader::OFFICER),
    );
    for bytes in [guests, full] {
        for length in [bytes.saturating_sub(1), bytes, bytes + 1] {
            case.asks.push(Ask::List(Room::Of(length)));
        }
    }
    case
}

/// How many bytes of list a reader gets.
fn written(case: &Case, reader: Reader) -> usize {
    let terms = Terms {
        reader,
        profile: &case.league.image(),
        allowance: case.league.allowance,
        limits: case.limits,
    };
    let mut out = vec![0; 24 * 2_000];
    let word = Original.list(
        &case.catalogue.image(),
        &case.fits[0].image(),
        terms,
        &mut out,
    );
    assert_eq!(word >> 32, 0, "the fixed case is answered");
    ENTRY * word as usize
}

const OTHERS: &[fn() -> Case] = &[
    || beside(private(), "a guest's list"),
    || beside(trained([GUN]), "one trained type that is no skill"),
    || beside(trained([GUN, MISSING]), "two, one of them missing"),
    || beside(trained(-512..512), "1,024 trained types that are no skills"),
    || beside(trained([]), "nothing is trained"),
    || beside(trained([]).mode(GUN), "a mode that is none, and no skills"),
    || beside(trained([GUN]).mode(GUN), "mode and skill are none"),
    || beside(trained([GUN]).item(GUN, CARGO, 0), "a gun in the hold"),
    || {
        let hold = trained([GUN, MISSING]).ship(CAPACITY, -1.0);
        beside(hold, "an empty sum behind what is omitted")
    },
    || {
        let sketch = Sketch::of(30, 25, CATEGORY_MODULE);
        let sketch = sketch.skill(30, 1).skill(MISSING, 1).mode(30);
        beside(sketch, "no hull, and skills that are none")
    },
    || {
        let mut case = private().list("a league that a guest reads");
        case.league = League::of(&[(0, BANNED), (60, 47)], 46);
        case.reader = Reader::GUEST;
        around(case)
    },
    || {
        let mut case = private().list("a guest on a smaller page");
        case.limits = Limits::of(3, 1);
        case.reader = Reader::GUEST;
        around(case)
    },
    || {
        let mut case = private().list("a guest, and a pair too many");
        case.limits = Limits::of(2, 1);
        case.reader = Reader::GUEST;
        case
    },
    || {
        let mut case = trained([GUN]).list("a guest with 65 pairs");
        case.fits[0].items = vec![cargo(1); 65];
        case.fits[0].results = vec![Outcome::default(); 65];
        case.reader = Reader::GUEST;
        case
    },
    || {
        let mut case = private().list("a guest brings a broken profile");
        case.league = League::of(&[(60, 47), (60, 47)], 46);
        case.reader = Reader::GUEST;
        case
    },
    || skills_of(wanting(), "a guest asks for skills"),
    || skills_of(wanting().skill(SKILL, 5), "of which none is lacking"),
    || skills_of(Sketch::hull().item(GUN, HIGH, 0), "that nothing wants"),
    || trained([MISSING]).case("a hall, and a trained type that is no skill", &[Ask::Hall]),
    || grown(Reader::GUEST),
    || grown(Reader::PILOT),
    || grown(Reader(3)),
    || refused(|case| case.catalogue.damage.cut = 1),
    || refused(|case| case.catalogue.types.reverse()),
    || refused(|case| case.catalogue.types[0].flag = 2),
    || refused(|case| case.limits.pairs = 2),
    || refused(|case| case.league = damaged()),
    || refused(|case| case.league = League::of(&[(60, 47), (60, 47)], 0)),
    || {
        let mut case = retrained(trained([GUN, MISSING]), &[skill(GUN, 1), skill(SKILL, 1)]);
        case.limits = Limits::of(0, 0);
        case
    },
    || retrained(trained(-512..512), &[]),
    || {
        retrained(
            trained([]),
            &(0..1_024).map(|id| skill(id, 5)).collect::<Vec<_>>(),
        )
    },
];

/// What another pilot may have trained in the place of [`private`]'s skills.
const TRAININGS: &[fn() -> Vec<Skill>] = &[
    Vec::new,
    || vec![skill(GUN, 4), skill(MISSING, 0), skill(SKILL, 5)],
    || vec![skill(GUN, 5), skill(MISSING, 1)],
    || vec![skill(SKILL, 2)],
    || vec![skill(SKILL, 5)],
    || {
        vec![
            skill(GUN, 5),
            skill(MISSING, 1),
            skill(SKILL, 2),
            skill(3301, 2),
        ]
    },
    || vec![skill(-7, 1), skill(DRONE, 5), skill(587, 255)],
    || (-900..124).map(|id| skill(id, 1)).collect(),
];

fn skill(id: i32, level: u8) -> Skill {
    Skill { id, level }
}

/// A guest's calls on a fit and on the one with other training.
fn retrained(sketch: Sketch, training: &[Skill]) -> Case {
    let results = sketch.fit.results.len() as u32;
    let mut asks = ROOMS.map(Ask::RetrainedList).to_vec();
    let lengths = [1, 24, 47, 48, 71, 72, 24 * 1_030];
    asks.extend(lengths.map(|length| Ask::RetrainedList(Room::Of(length))));
    for result in [0, 1, 2, results + 2] {
        asks.push(Ask::RetrainedSkill(result, Room::Longer(24)));
    }
    Case {
        training: training.to_vec(),
        ..sketch.case("a guest reads two pilots' fits", &asks)
    }
}

/// The same where every call is refused.
fn refused(change: impl Fn(&mut Case)) -> Case {
    let mut case = retrained(private(), &TRAININGS[2]());
    change(&mut case);
    case
}

/// A profile that is cut off.
fn damaged() -> League {
    let mut league = League::of(&[(60, 47)], 0);
    let profile = league.profile.as_mut().expect("a profile");
    profile.damage.cut = 1;
    league
}

/// Ship, character and item each want a skill.
fn wanting() -> Sketch {
    Sketch::hull()
        .known(SKILL, 255, CATEGORY_SKILL)
        .ship(REQUIRED, SKILL.into())
        .ship(REQUIRED + 1, 5.0)
        .character(REQUIRED, SKILL.into())
        .character(REQUIRED + 1, 4.0)
        .known(GUN, 60, CATEGORY_MODULE)
        .item(GUN, IMPLANT, 0)
        .with(REQUIRED, SKILL.into())
        .with(REQUIRED + 1, 3.0)
}

/// The skill calls of every result and of none, for a guest.
fn skills_of(sketch: Sketch, title: &str) -> Case {
    let mut asks = Vec::new();
    for result in 0..sketch.fit.results.len() as u32 + 3 {
        asks.push(Ask::Skill(result, Room::Empty));
        asks.push(Ask::Skill(result, Room::Longer(24)));
    }
    Case {
        reader: Reader::GUEST,
        ..sketch.case(title, &asks)
    }
}

fn cargo(quantity: u32) -> Item {
    Item {
        type_id: GUN,
        quantity,
        kind: CARGO,
        ..Item::default()
    }
}

/// Two more pairs, and levels that fall.
fn grown(reader: Reader) -> Case {
    let sketch = private().finish();
    let growth = Growth {
        items: vec![cargo(3); 2],
        results: vec![Outcome::default(); 2],
        lowered: vec![1, 0, 2],
        ..Growth::default()
    };
    let grown = growth::grown(
        "two fits, for each reader",
        sketch.catalogue,
        sketch.fit,
        growth,
    );
    Case { reader, ..grown }
}
