//! Looks through an answered call's inputs for the edges that they meet.

use original::{Info, ItemResult, Slot};

use super::Tally;
use super::edge::{CapitalEdge, Edge, Hangar, Shape, Spot};
use super::point::{Call, Point};
use super::wide;
use super::widened::Fine;
use crate::names::*;
use crate::numbers::{Width, limit};
use crate::reference::{Catalogue, Fit};

/// What a list call's inputs meet.
pub fn fit(tally: &mut Tally, catalogue: &Catalogue, fit: &Fit) {
    wide::sizes(tally, fit);
    let Some(ship) = catalogue.get_type(fit.fit.ship.type_id) else {
        return;
    };
    let is_hull =
        matches!(ship.category_id(), 6 | 65) || [12, 340, 448, 649].contains(&ship.group_id());
    if !is_hull {
        return;
    }
    names(tally, catalogue);
    wide::list(tally, catalogue, fit);
    loads(tally, catalogue, fit);
    hangar(tally, catalogue, fit);
    for row in 0..8 {
        if let Some(value) = value(catalogue, &fit.calculation.ship, RACKS + row) {
            tally.meet(Point::Cast(Width::U32, Spot::of(value, Width::U32)));
        }
    }
    for (item, result) in fit.pairs() {
        tally.meet(Point::Kind(kind(item.slot)));
        if is_highest(item.slot) {
            tally.meet(Point::HighestIndex(kind(item.slot)));
        }
        tally.meet(Point::State(result.state as u8));
        types(tally, catalogue, item.type_id);
        casts(tally, catalogue, fit, item.slot, result);
    }
    if fit.fit.items.len() > fit.calculation.items.len() {
        tally.meet(Point::Shape(Shape::MoreItems));
    }
    if fit.fit.items.len() < fit.calculation.items.len() {
        tally.meet(Point::Shape(Shape::MoreResults));
    }
}

/// What a skill call's inputs meet.
pub fn skill(tally: &mut Tally, catalogue: &Catalogue, fit: &Fit, result: u32) {
    let Some(outcome) = fit.result(result) else {
        return;
    };
    wide::named(tally, Call::Skill, catalogue, (result, outcome), fit);
    wide::skill(tally, catalogue, fit, outcome);
    for row in 0..6 {
        let (skill, level) = (REQUIRED + 2 * row, REQUIRED + 2 * row + 1);
        let Some(wanted) = value(catalogue, outcome, skill) else {
            continue;
        };
        if catalogue.name(level).is_none() {
            continue;
        }
        tally.meet(Point::Cast(Width::I32, Spot::of(wanted, Width::I32)));
        let level = value(catalogue, outcome, level).unwrap_or(0.0);
        tally.meet(Point::Cast(Width::U8, Spot::of(level, Width::U8)));
        bases(tally, catalogue, wanted as i32, skill);
    }
    if catalogue.is_fine() {
        fine(tally, catalogue, fit, outcome);
    }
}

/// What the base values of the skills that are walked decide, where no f32 is
/// the same number.
fn fine(tally: &mut Tally, catalogue: &Catalogue, fit: &Fit, outcome: &ItemResult) {
    let mut read = false;
    for (skill, _) in fit.wanted_skills(catalogue, outcome) {
        for row in 0..6 {
            let name = |name: usize| catalogue.base(skill, catalogue.name(name)?);
            let (id, level) = (name(REQUIRED + 2 * row), name(REQUIRED + 2 * row + 1));
            let Some(id) = id else {
                continue;
            };
            if id as i32 != id as f32 as i32 {
                read = true;
                tally.meet(Point::Fine(Fine::Id));
            }
            if level.is_some_and(|level| level as u8 != level as f32 as u8) {
                read = true;
                tally.meet(Point::Fine(Fine::Level));
            }
        }
    }
    if !read {
        tally.meet(Point::Fine(Fine::Unread));
    }
}

pub fn value(catalogue: &Catalogue, result: &ItemResult, name: usize) -> Option<f64> {
    let id = catalogue.name(name)?;
    result.attributes.get(&id).map(|attribute| attribute.value)
}

pub fn kind(slot: Slot) -> u8 {
    match slot {
        Slot::High(_) => 0,
        Slot::Medium(_) => 1,
        Slot::Low(_) => 2,
        Slot::Rig(_) => 3,
        Slot::Subsystem(_) => 4,
        Slot::Service(_) => 5,
        Slot::FighterTube(_) => 6,
        Slot::FighterBay => 7,
        Slot::Implant(_) => 8,
        Slot::Booster(_) => 9,
        Slot::DroneBay => 10,
        Slot::Cargo => 11,
    }
}

fn is_highest(slot: Slot) -> bool {
    match slot {
        Slot::High(index)
        | Slot::Medium(index)
        | Slot::Low(index)
        | Slot::Rig(index)
        | Slot::Subsystem(index)
        | Slot::Service(index)
        | Slot::FighterTube(index)
        | Slot::Implant(index) => index == 255,
        Slot::Booster(index) => index == 65_535,
        Slot::FighterBay | Slot::DroneBay | Slot::Cargo => false,
    }
}

fn names(tally: &mut Tally, catalogue: &Catalogue) {
    let ids: Vec<Option<i32>> = (0..COUNT).map(|number| catalogue.name(number)).collect();
    // A catalogue without any name says little about each of them.
    if ids.iter().flatten().count() >= COUNT / 2 {
        for (number, id) in ids.iter().enumerate() {
            if id.is_none() {
                tally.meet(Point::NameMissing(number as u8));
            }
        }
    }
    let mut known: Vec<i32> = ids.into_iter().flatten().collect();
    if known.iter().any(|id| *id < 0) {
        tally.meet(Point::Shape(Shape::NegativeAttribute));
    }
    let count = known.len();
    known.sort();
    known.dedup();
    if known.len() < count {
        tally.meet(Point::Shape(Shape::SharedAttribute));
    }
}

fn loads(tally: &mut Tally, catalogue: &Catalogue, fit: &Fit) {
    for row in 0..10 {
        let (load, output) = (LOADS + 2 * row, LOADS + 2 * row + 1);
        if catalogue.name(load).is_none() || catalogue.name(output).is_none() {
            continue;
        }
        let ship = &fit.calculation.ship;
        let used = value(catalogue, ship, load).unwrap_or(0.0);
        let available = value(catalogue, ship, output).unwrap_or(0.0);
        let limit = limit(available);
        let edges = [
            (used == limit, Edge::AtLimit),
            (used == limit.next_up(), Edge::StepOver),
            (used == limit.next_down(), Edge::StepUnder),
            (used > available && used <= limit, Edge::InSlack),
            (used.is_nan(), Edge::UsedNan),
            (available.is_nan(), Edge::AvailableNan),
            (available == f64::INFINITY, Edge::AvailableInfinite),
            (available == f64::NEG_INFINITY, Edge::AvailableMinusInfinite),
            (available < 0.0, Edge::AvailableNegative),
            (available.is_subnormal(), Edge::AvailableSubnormal),
            (used == 0.0 && used.is_sign_negative(), Edge::UsedMinusZero),
        ];
        for (holds, edge) in edges {
            if holds {
                tally.meet(Point::Over(edge));
            }
        }
    }
}

fn hangar(tally: &mut Tally, catalogue: &Catalogue, fit: &Fit) {
    if fit.hangar(catalogue).is_none() {
        return;
    }
    let total = fit.launched_drones();
    let used = total as f64;
    let character = &fit.calculation.character;
    let available = value(catalogue, character, MAX_ACTIVE_DRONES).unwrap_or(0.0);
    let edges = [
        (total == 4_294_967_296, Hangar::First),
        (total == 1_099_511_627_520, Hangar::Most),
        (used > limit(available), Hangar::Over),
        (
            used > available && used <= limit(available),
            Hangar::InSlack,
        ),
        (
            available.is_finite() && used <= available,
            Hangar::LimitLarger,
        ),
        (available.is_nan(), Hangar::LimitNan),
        (available == f64::INFINITY, Hangar::LimitInfinite),
        (available == f64::NEG_INFINITY, Hangar::LimitMinusInfinite),
    ];
    for (holds, edge) in edges {
        if holds {
            tally.meet(Point::Hangar(edge));
        }
    }
}

fn types(tally: &mut Tally, catalogue: &Catalogue, type_id: i32) {
    if catalogue.get_type(type_id).is_none() {
        tally.meet(Point::Shape(Shape::UnknownType));
    }
    if type_id < 0 {
        tally.meet(Point::Shape(Shape::NegativeType));
    }
    let effects = catalogue.get_dogma_effects(type_id).into_iter().flatten();
    let marks: Vec<Option<u32>> = effects
        .map(|effect| catalogue.mark(effect.effect_id()))
        .collect();
    if marks.contains(&None) {
        tally.meet(Point::Shape(Shape::UnknownEffect));
    }
    let differ = |range: std::ops::RangeInclusive<u32>| {
        let mut found: Vec<u32> = marks.iter().flatten().copied().collect();
        found.retain(|mark| range.contains(mark));
        found.sort();
        found.dedup();
        found.len() > 1
    };
    if differ(1..=6) {
        tally.meet(Point::Shape(Shape::RackMarksDiffer));
    }
    if differ(7..=8) {
        tally.meet(Point::Shape(Shape::HardpointMarksDiffer));
    }
}

fn casts(tally: &mut Tally, catalogue: &Catalogue, fit: &Fit, slot: Slot, result: &ItemResult) {
    let mut cast = |width: Width, name: usize| {
        if let Some(value) = value(catalogue, result, name) {
            tally.meet(Point::Cast(width, Spot::of(value, width)));
        }
    };
    match slot {
        Slot::Rig(_) if value(catalogue, &fit.calculation.ship, RIG_SIZE).is_some() => {
            cast(Width::U8, RIG_SIZE);
        }
        Slot::Implant(_) => cast(Width::U16, IMPLANTNESS),
        Slot::Booster(_) => cast(Width::U16, BOOSTERNESS),
        _ => {}
    }
    if kind(slot) > 5 {
        return;
    }
    for name in SHIP_TYPES..VOLUME {
        cast(Width::I32, name);
    }
    for name in GROUP_LIMITS..=MAX_TYPE_FITTED {
        cast(Width::U32, name);
    }
    if kind(slot) != 3 {
        let volume = value(catalogue, result, VOLUME);
        let edges = [
            (3500.0, CapitalEdge::At),
            (3500.0_f64.next_up(), CapitalEdge::StepOver),
            (3500.5, CapitalEdge::HalfOver),
        ];
        for (edge, point) in edges {
            if volume == Some(edge) {
                tally.meet(Point::Volume(point));
            }
        }
    }
}

/// Two values for one demand, and a demand that leads back.
fn bases(tally: &mut Tally, catalogue: &Catalogue, skill: i32, name: usize) {
    let Some(id) = catalogue.name(name) else {
        return;
    };
    let demands = |skill: i32| -> Vec<f32> {
        let rows = catalogue.get_dogma_attributes(skill).into_iter().flatten();
        rows.filter(|row| row.attribute_id() == id)
            .map(|row| row.value())
            .collect()
    };
    let first = demands(skill);
    if first.len() > 1 && first[0] != first[1] {
        tally.meet(Point::Shape(Shape::BasesDiffer));
    }
    if let Some(next) = first.first()
        && demands(*next as i32)
            .first()
            .is_some_and(|back| *back as i32 == skill)
    {
        tally.meet(Point::Shape(Shape::SkillRing));
    }
}
