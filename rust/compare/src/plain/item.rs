//! Six rules on what is fitted, in their order.

use super::Number;
use super::bytes::{to_i32, to_i32_wrapping, to_u8, to_u32};
use super::context::{CATEGORY_STRUCTURE, Context, Pair};
use super::entry::Entries;
use super::fault::Fault;
use super::fit::{FIGHTER_BAY, FIGHTER_TUBE, RIG};

const RIG_SIZE: usize = 33;
const SHIP_TYPES: std::ops::Range<usize> = 34..47;
const SHIP_GROUPS: std::ops::Range<usize> = 47..67;
const VOLUME: usize = 67;
const IS_CAPITAL_SIZE: usize = 68;
const STANDUP_FIGHTERS: std::ops::Range<usize> = 69..72;
const GROUP_LIMITS: usize = 72;
const MAX_TYPE_FITTED: usize = 75;

const CATEGORY_STRUCTURE_MODULE: i32 = 66;
const CAPITAL_VOLUME: f64 = 3500.0;

const SHIP: usize = 0;

const RULES: [fn(&Context, &mut Entries); 6] = [
    rig_size,
    ship_restricted,
    capital_item,
    standup,
    group_limits,
    type_limit,
];

pub fn validate(context: &Context, entries: &mut Entries) {
    let mut rules = RULES;
    if context.flaw.has(Fault::StandupBeforeCapital) {
        rules.swap(2, 3);
    }
    if context.flaw.has(Fault::TypeBeforeGroup) {
        rules.swap(4, 5);
    }
    for rule in rules {
        rule(context, entries);
    }
}

fn rig_size(context: &Context, entries: &mut Entries) {
    let flaw = context.flaw;
    let Some(id) = context.id(RIG_SIZE) else {
        return;
    };
    let ship = match context.value(SHIP, id) {
        Some(ship) => ship,
        None if flaw.has(Fault::RigSizeShipZero) => 0.0,
        None => return,
    };
    for pair in &context.pairs {
        let size = match context.value(pair.result(), id) {
            Some(size) => size,
            None if flaw.has(Fault::RigSizeItemZero) => 0.0,
            None => continue,
        };
        let is_asked = pair.item.kind == RIG || (pair.is_fitted && flaw.has(Fault::RigSizeAnyRack));
        let differs = match flaw.has(Fault::RigSizeTruncated) {
            true => to_u8(size) != to_u8(ship),
            false => size != ship,
        };
        if is_asked && differs {
            let shown = |size: f64| match flaw.has(Fault::RigSizeWraps) {
                true => (size as u64 as u8).into(),
                false => to_u8(size).into(),
            };
            let (ship, size) = (shown(ship), shown(size));
            match flaw.has(Fault::RigSizeSwapped) {
                true => entries.add(pair.target(), 12, 0, &[size, ship]),
                false => entries.add(pair.target(), 12, 0, &[ship, size]),
            }
        }
    }
}

fn ship_restricted(context: &Context, entries: &mut Entries) {
    let flaw = context.flaw;
    let left_out = |name: usize| {
        (name == 46 && flaw.has(Fault::LastShipType))
            || (name == 66 && flaw.has(Fault::LastShipGroup))
    };
    let missing = flaw.has(Fault::RestrictedMissingIsZero).then_some(0.0);
    let listed = |pair: &Pair, names: std::ops::Range<usize>| -> Vec<i32> {
        names
            .filter(|name| !left_out(*name))
            .filter_map(|name| context.id(name))
            .filter_map(|id| context.value(pair.result(), id).or(missing))
            .map(|value| match () {
                () if flaw.has(Fault::RestrictedRounded) => to_i32(value.round()),
                () if flaw.has(Fault::RestrictedWraps) => to_i32_wrapping(value),
                () => to_i32(value),
            })
            .collect()
    };
    for pair in &context.pairs {
        if !pair.is_fitted && !flaw.has(Fault::RestrictedUnfitted) {
            continue;
        }
        let types = listed(pair, SHIP_TYPES);
        let groups = match flaw.has(Fault::RestrictedTypesOnly) {
            true => Vec::new(),
            false => listed(pair, SHIP_GROUPS),
        };
        if types.is_empty() && groups.is_empty() {
            continue;
        }
        let by_type = types.contains(&context.fit.ship_type());
        let by_group = groups.contains(&context.ship_group());
        let accepted = match flaw.has(Fault::RestrictedBoth) {
            true => by_type && by_group,
            false => by_type || by_group,
        };
        if !accepted {
            entries.add(pair.target(), 13, 0, &[]);
        }
    }
}

fn capital_item(context: &Context, entries: &mut Entries) {
    let flaw = context.flaw;
    let Some(volume) = context.id(VOLUME) else {
        return;
    };
    let capital = match context.id(IS_CAPITAL_SIZE) {
        Some(capital) => context.amount(SHIP, capital),
        None if flaw.has(Fault::CapitalNameless) => 0.0,
        None => return,
    };
    let passed_over = (capital.is_nan() && flaw.has(Fault::CapitalNan))
        || (capital < 0.0 && flaw.has(Fault::CapitalPositive));
    if capital != 0.0 && !passed_over {
        return;
    }
    if context.ship_category() == CATEGORY_STRUCTURE && !flaw.has(Fault::CapitalStructure) {
        return;
    }
    for pair in &context.pairs {
        if !pair.is_fitted || (pair.item.kind == RIG && !flaw.has(Fault::CapitalRigs)) {
            continue;
        }
        let size = context.amount(pair.result(), volume);
        if size > CAPITAL_VOLUME || (size == CAPITAL_VOLUME && flaw.has(Fault::CapitalAtLimit)) {
            entries.add(pair.target(), 14, 0, &[]);
        }
    }
}

fn standup(context: &Context, entries: &mut Entries) {
    let flaw = context.flaw;
    let ids: Vec<i32> = STANDUP_FIGHTERS
        .filter(|name| *name != 71 || !flaw.has(Fault::StandupLast))
        .filter_map(|name| context.id(name))
        .collect();
    if ids.is_empty() && flaw.has(Fault::StandupNameless) {
        return;
    }
    let structure = context.ship_category() == CATEGORY_STRUCTURE;
    for pair in &context.pairs {
        let is_on_hull = pair.is_fitted
            || pair.item.kind == FIGHTER_TUBE
            || (pair.item.kind == FIGHTER_BAY && !flaw.has(Fault::StandupNoBay));
        if !is_on_hull {
            continue;
        }
        let marked = ids.iter().any(|id| {
            let mark = context.amount(pair.result(), *id);
            match () {
                () if flaw.has(Fault::StandupPositive) => mark > 0.0,
                () if flaw.has(Fault::StandupNan) => mark != 0.0 && !mark.is_nan(),
                () => mark != 0.0,
            }
        });
        let standup = pair.category == CATEGORY_STRUCTURE_MODULE || marked;
        match (structure, standup) {
            (false, true) => entries.add(pair.target(), 15, 0, &[]),
            (true, false) if flaw.has(Fault::ShipItemForgotten) => {}
            (true, false) => entries.add(pair.target(), 16, 0, &[]),
            _ => {}
        }
    }
}

fn group_limits(context: &Context, entries: &mut Entries) {
    if context.flaw.has(Fault::GroupPairFirst) {
        for pair in &context.pairs {
            for limit in 0..3 {
                group_limit(context, entries, limit, pair);
            }
        }
    } else {
        for limit in 0..3 {
            for pair in &context.pairs {
                group_limit(context, entries, limit, pair);
            }
        }
    }
}

fn group_limit(context: &Context, entries: &mut Entries, limit: u8, pair: &Pair) {
    let flaw = context.flaw;
    let Some(id) = context.id(GROUP_LIMITS + usize::from(limit)) else {
        return;
    };
    let holder = match flaw.has(Fault::GroupFirst) {
        true => context
            .pairs
            .iter()
            .find(|other| other.is_fitted && other.group == pair.group)
            .unwrap_or(pair),
        false => pair,
    };
    let allowed = match context.value(holder.result(), id) {
        Some(allowed) => allowed,
        None if flaw.has(Fault::GroupMissingIsZero) => 0.0,
        None => return,
    };
    let is_counted = |pair: &Pair| pair.is_known || !flaw.has(Fault::MissingUncounted);
    if !pair.is_fitted || !is_counted(pair) {
        return;
    }
    // Limit 0 counts every state, 1 Online and above, 2 Active and above.
    let least = match limit {
        1 if flaw.has(Fault::GroupOnlineAll) => 0,
        2 if flaw.has(Fault::GroupActiveOnline) => 1,
        _ => limit,
    };
    let counts_alone = match limit {
        1 => flaw.has(Fault::GroupOnlineOnly),
        2 => flaw.has(Fault::GroupActiveOnly),
        _ => false,
    };
    let used = context
        .pairs
        .iter()
        .filter(|other| other.is_fitted || flaw.has(Fault::GroupUnfitted))
        .filter(|other| other.group == pair.group && other.state >= least)
        .filter(|other| is_counted(other))
        .filter(|other| other.state == least || !counts_alone)
        .count();
    let used = flaw.number(Number::GroupUsed, used) as u32;
    let allowed = match () {
        () if flaw.has(Fault::GroupRounded) => to_u32(allowed.round()),
        () if flaw.has(Fault::GroupU8) => to_u8(allowed).into(),
        () if flaw.has(Fault::GroupWraps) && allowed < 0.0 => allowed as i64 as u32,
        () => flaw.amount(Number::GroupAllowed, allowed, to_u32(allowed)),
    };
    if used > allowed || (used == allowed && flaw.has(Fault::GroupAtLimit)) {
        entries.add(
            pair.target(),
            17,
            limit,
            &[pair.group as u32, used, allowed],
        );
    }
}

fn type_limit(context: &Context, entries: &mut Entries) {
    let flaw = context.flaw;
    let Some(id) = context.id(MAX_TYPE_FITTED) else {
        return;
    };
    for pair in &context.pairs {
        let allowed = match context.value(pair.result(), id) {
            Some(allowed) => allowed,
            None if flaw.has(Fault::TypeMissingIsZero) => 0.0,
            None => continue,
        };
        if !pair.is_fitted {
            continue;
        }
        let same = context
            .pairs
            .iter()
            .filter(|other| other.is_fitted || flaw.has(Fault::TypeUnfitted))
            .filter(|other| other.item.type_id == pair.item.type_id);
        let used = match flaw.has(Fault::TypeQuantity) {
            true => same.fold(0u32, |sum, other| sum.wrapping_add(other.item.quantity)),
            false => flaw.number(Number::TypeUsed, same.count()) as u32,
        };
        let allowed = match () {
            () if flaw.has(Fault::TypeRounded) => to_u32(allowed.round()),
            () if flaw.has(Fault::TypeU8) => to_u8(allowed).into(),
            () if flaw.has(Fault::TypeWraps) && allowed < 0.0 => allowed as i64 as u32,
            () => flaw.amount(Number::TypeAllowed, allowed, to_u32(allowed)),
        };
        if used > allowed || (used == allowed && flaw.has(Fault::TypeAtLimit)) {
            let words = [pair.item.type_id as u32, used, allowed];
            entries.add(pair.target(), 18, 0, &words);
        }
    }
}
