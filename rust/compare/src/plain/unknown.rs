//! Document 02's P5: rule 26 behind everything else, for each pair whose type
//! the search in the image does not find.

use super::context::{Context, Pair};
use super::entry::{Entries, Target};
use super::fault::Fault;
use super::fit::{BOOSTER, CARGO, DRONE_BAY, FIGHTER_BAY, FIGHTER_TUBE, IMPLANT, Item};
use super::{Flaw, Number, Rows};

const RULE: u8 = 26;
const POINTS: u8 = 25;

/// Where a list may have the entries; the last one is right.
#[derive(Clone, Copy, PartialEq)]
pub enum Place {
    Front,
    BeforeItems,
    BeforeLeague,
    End,
}

impl Place {
    fn of(flaw: Flaw) -> Place {
        match () {
            () if flaw.has(Fault::UnknownFirst) => Place::Front,
            () if flaw.has(Fault::UnknownBeforeItems) => Place::BeforeItems,
            () if flaw.has(Fault::UnknownBeforeBans) => Place::BeforeLeague,
            () => Place::End,
        }
    }
}

/// Rule 26 by pair, where the list has come to its place.
pub fn validate(context: &Context, place: Place, entries: &mut Entries) {
    let flaw = context.flaw;
    if place == Place::End {
        passed_over(context, entries);
    }
    if Place::of(flaw) != place || flaw.has(Fault::UnknownForgotten) {
        return;
    }
    let points = match entries.found.last() {
        Some(last) if last[1] == POINTS && flaw.has(Fault::UnknownBeforePoints) => {
            entries.found.pop()
        }
        _ => None,
    };
    beside_the_pairs(context, entries);
    for pair in listed(context) {
        add(context, &pair, entries);
    }
    if flaw.has(Fault::UnknownUnpaired) {
        for number in context.fit.pairs()..context.fit.items() {
            let item = context.fit.item(number);
            if context.catalogue.type_of(item.type_id).is_none() {
                entries.add(Target::Pair(number), RULE, 0, &[item.type_id as u32]);
            }
        }
    }
    entries.found.extend(points);
}

/// The pairs that get an entry, in its order.
fn listed(context: &Context) -> Vec<Pair> {
    let flaw = context.flaw;
    let mut found: Vec<Pair> = Vec::new();
    for pair in &context.pairs {
        let again = |earlier: &Pair| earlier.item.type_id == pair.item.type_id;
        let is_again = found.iter().any(again) && flaw.has(Fault::UnknownOncePerType);
        if is_missing(context, pair) && is_asked(pair, flaw) && !is_again {
            found.push(*pair);
        }
    }
    match () {
        () if flaw.has(Fault::UnknownByType) => found.sort_by_key(|pair| pair.item.type_id),
        () if flaw.has(Fault::UnknownBackwards) => found.reverse(),
        () if flaw.has(Fault::UnknownFirstAlone) => found.truncate(1),
        () if flaw.has(Fault::UnknownLastAlone) => found = found.split_off(found.len().max(1) - 1),
        () => found.truncate(flaw.rows(Rows::Unknown, found.len())),
    }
    found
}

/// Whether the catalogue lacks the pair's type.
fn is_missing(context: &Context, pair: &Pair) -> bool {
    let flaw = context.flaw;
    let Item { type_id, .. } = pair.item;
    let catalogue = context.catalogue;
    match () {
        () if flaw.has(Fault::UnknownByGroup) => pair.group == 0,
        () if flaw.has(Fault::UnknownByCategory) => pair.category == 0,
        () if flaw.has(Fault::UnknownByVolume) => {
            let row = catalogue.type_of(type_id);
            row.and_then(|row| row.volume).is_none()
        }
        () if flaw.has(Fault::UnknownLinked) => !pair.is_known && !catalogue.has_links(type_id),
        () if flaw.has(Fault::UnknownBased) => !pair.is_known && !catalogue.has_bases(type_id),
        () if flaw.has(Fault::UnknownNegativeFree) => !pair.is_known && type_id >= 0,
        () if flaw.has(Fault::UnknownZeroFree) => !pair.is_known && type_id != 0,
        () => !pair.is_known,
    }
}

/// Whether a pair is asked at all: every one is.
fn is_asked(pair: &Pair, flaw: Flaw) -> bool {
    let kind = pair.item.kind;
    match () {
        () if flaw.has(Fault::UnknownFittedAlone) => pair.is_fitted,
        () if flaw.has(Fault::UnknownUnfittedAlone) => !pair.is_fitted,
        () if flaw.has(Fault::UnknownCargoAlone) => kind == CARGO,
        () if flaw.has(Fault::UnknownNoCargo) => kind != CARGO,
        () if flaw.has(Fault::UnknownNoDrones) => kind != DRONE_BAY,
        () if flaw.has(Fault::UnknownNoFighterBay) => kind != FIGHTER_BAY,
        () if flaw.has(Fault::UnknownNoTubes) => kind != FIGHTER_TUBE,
        () if flaw.has(Fault::UnknownNoImplants) => kind != IMPLANT,
        () if flaw.has(Fault::UnknownNoBoosters) => kind != BOOSTER,
        () if flaw.has(Fault::UnknownEmptyFree) => pair.item.quantity != 0,
        () if flaw.has(Fault::UnknownOfflineFree) => pair.state > 0,
        () => true,
    }
}

/// The entry of a pair.
fn add(context: &Context, pair: &Pair, entries: &mut Entries) {
    let flaw = context.flaw;
    let next = context.pairs.get(pair.number + 1).unwrap_or(pair);
    let rule = match flaw.has(Fault::UnknownNumbered) {
        true => 22,
        false => RULE,
    };
    let target = match flaw.has(Fault::UnknownOnShip) {
        true => Target::Ship,
        false => pair.target(),
    };
    let sub = match () {
        () if flaw.has(Fault::UnknownSubIsOne) => 1,
        () if flaw.has(Fault::UnknownSubIsKind) => pair.item.kind,
        () => 0,
    };
    let id = flaw.id(Number::UnknownId, pair.item.type_id) as u32;
    match () {
        () if flaw.has(Fault::UnknownOfNext) => {
            entries.add(target, rule, sub, &[next.item.type_id as u32]);
        }
        () if flaw.has(Fault::UnknownShowsGroup) => {
            entries.add(target, rule, sub, &[pair.group as u32]);
        }
        () if flaw.has(Fault::UnknownShowsNothing) => entries.add(target, rule, sub, &[]),
        () if flaw.has(Fault::UnknownShowsQuantity) => {
            entries.add(target, rule, sub, &[id, pair.item.quantity]);
        }
        () => entries.add(target, rule, sub, &[id]),
    }
}

/// The ship's mode and the listed skills, which have rules of their own.
fn beside_the_pairs(context: &Context, entries: &mut Entries) {
    let Context {
        catalogue,
        fit,
        flaw,
        ..
    } = *context;
    let is_missing = |id: &i32| catalogue.type_of(*id).is_none();
    if flaw.has(Fault::UnknownMode) && fit.mode_flag() == 1 && is_missing(&fit.mode()) {
        entries.add(Target::Ship, RULE, 0, &[fit.mode() as u32]);
    }
    if flaw.has(Fault::UnknownSkills) {
        let ids = (0..fit.skills()).map(|number| fit.skill_id(number));
        for id in ids.filter(is_missing) {
            entries.add(Target::Ship, RULE, 0, &[id as u32]);
        }
    }
}

/// What the list had before, for the wrong turns that take some of it away
/// where a type is missing.
fn passed_over(context: &Context, entries: &mut Entries) {
    let flaw = context.flaw;
    let is_missing = |entry: &[u8; 24]| {
        let index = u32::from_le_bytes([entry[4], entry[5], entry[6], entry[7]]) as usize;
        let pair = context.pairs.get(index);
        entry[0] == 1 && pair.is_some_and(|pair| !pair.is_known)
    };
    entries.found.retain(|entry| match () {
        () if flaw.has(Fault::UnknownReplaces) => !is_missing(entry),
        () if flaw.has(Fault::MissingBelongs) => {
            !(is_missing(entry) && (4..=7).contains(&entry[1]))
        }
        () => true,
    });
}
