//! Looks through an answered call's inputs for the sizes, places and ids that
//! they meet.

use original::{Info, ItemResult};

use super::Tally;
use super::look::{kind, value};
use super::point::{Call, Point};
use super::size::{AMOUNTS, Block, Counting, Holder, IdOf, Part, Place, Region};
use crate::names::*;
use crate::reference::{Catalogue, Fit};

/// How much a fit holds.
pub fn sizes(tally: &mut Tally, fit: &Fit) {
    let attributes: usize = results(fit).map(|result| result.attributes.len()).sum();
    let held = [
        (Part::Skills, fit.fit.character.skills.len()),
        (Part::Items, fit.fit.items.len()),
        (Part::Results, fit.calculation.items.len()),
        (Part::Attributes, attributes),
    ];
    for (part, count) in held {
        tally.meet(Point::Held(part, count as u32));
    }
    if held.map(|(_, count)| count) == [1_024, 256, 256, 30_000] {
        tally.meet(Point::AllFull);
    }
}

fn results(fit: &Fit) -> impl Iterator<Item = &ItemResult> {
    let calculation = &fit.calculation;
    [&calculation.ship, &calculation.character]
        .into_iter()
        .chain(&calculation.items)
}

/// What a list call on a hull meets.
pub fn list(tally: &mut Tally, catalogue: &Catalogue, fit: &Fit) {
    for (number, result) in results(fit).enumerate() {
        named(tally, Call::List, catalogue, (number as u32, result), fit);
    }
    amounts(tally, catalogue, fit);
    if !is_full_size(catalogue) {
        return;
    }
    for (item, _) in fit.pairs() {
        if catalogue.get_type(item.type_id).is_some() {
            tally.meet(Point::Id(IdOf::Type, Region::of(item.type_id)));
        }
        let effects = catalogue.get_dogma_effects(item.type_id);
        for effect in effects.into_iter().flatten() {
            if catalogue.mark(effect.effect_id()).is_some() {
                let region = Region::of(effect.effect_id());
                tally.meet(Point::Id(IdOf::Effect, region));
            }
        }
    }
    for id in (0..REQUIRED).filter_map(|name| catalogue.name(name)) {
        if results(fit).any(|result| result.attributes.contains_key(&id)) {
            tally.meet(Point::Id(IdOf::Attribute, Region::of(id)));
        }
    }
}

fn is_full_size(catalogue: &Catalogue) -> bool {
    let types = Block::Types;
    catalogue.rows(types) >= types.full_size()
}

/// Where a result of 30,000 attributes has those that a call reads.
pub fn named(
    tally: &mut Tally,
    call: Call,
    catalogue: &Catalogue,
    (number, result): (u32, &ItemResult),
    fit: &Fit,
) {
    let holder = match number {
        0 => Holder::Ship,
        1 => Holder::Character,
        2 => Holder::FirstItem,
        257 => Holder::LastItem,
        _ => Holder::MiddleItem,
    };
    let count = result.attributes.len();
    let is_long = count == 30_000 && (number < 2 || fit.calculation.items.len() == 256);
    // Of the character the list call reads one value, of an item those that
    // follow the ship's.
    let read = match (call, holder) {
        (Call::Skill, _) => REQUIRED..COUNT,
        (_, Holder::Ship) => LOADS..IMPLANTNESS,
        (_, Holder::Character) => MAX_ACTIVE_DRONES..CAPACITY,
        _ => RIG_SIZE..REQUIRED,
    };
    for id in read
        .filter(|_| is_long)
        .filter_map(|name| catalogue.name(name))
    {
        let place = result.attributes.keys().position(|key| *key == id);
        if let Some(place) = place.and_then(|place| Place::of(place, count)) {
            tally.meet(Point::Named(call, holder, place));
        }
    }
}

/// 256 pairs in one rack, of one group or of one type, beside an amount.
fn amounts(tally: &mut Tally, catalogue: &Catalogue, fit: &Fit) {
    let Some((first, result)) = fit.pairs().next() else {
        return;
    };
    if fit.pairs().count() != 256 || fit.pairs().any(|(item, _)| kind(item.slot) > 5) {
        return;
    }
    let group = |type_id: i32| catalogue.get_type(type_id).map(|row| row.group_id());
    let rack = kind(first.slot);
    let all = |same: &dyn Fn(&original::FitItem) -> bool| fit.pairs().all(|(item, _)| same(item));
    let ship = &fit.calculation.ship;
    let asked = [
        (
            Counting::Slots,
            all(&|item| kind(item.slot) == rack),
            value(catalogue, ship, RACKS + usize::from(rack)),
        ),
        (
            Counting::MaxGroup,
            all(&|item| group(item.type_id) == group(first.type_id)),
            value(catalogue, result, GROUP_LIMITS),
        ),
        (
            Counting::MaxType,
            all(&|item| item.type_id == first.type_id),
            value(catalogue, result, MAX_TYPE_FITTED),
        ),
    ];
    for (counting, holds, amount) in asked {
        let number = AMOUNTS.iter().position(|known| Some(*known) == amount);
        if let (true, Some(number)) = (holds, number) {
            tally.meet(Point::Amount(counting, number as u8));
        }
    }
}

/// What a skill call meets over a catalogue of full size.
pub fn skill(tally: &mut Tally, catalogue: &Catalogue, fit: &Fit, outcome: &ItemResult) {
    if !is_full_size(catalogue) {
        return;
    }
    for (wanted, _) in fit.wanted_skills(catalogue, outcome) {
        tally.meet(Point::Id(IdOf::Wanted, Region::of(wanted)));
        if fit.fit.character.skills.contains_key(&wanted) {
            tally.meet(Point::Id(IdOf::Trained, Region::of(wanted)));
        }
    }
}
