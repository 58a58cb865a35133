//! The pairs of a fit with what the catalogue says of them, and the rules on
//! hull, mode and skills.

use super::catalogue::Catalogue;
use super::entry::{Entries, Target};
use super::fault::Fault;
use super::fit::{CARGO, FIGHTER_TUBE, Fit, HIGH_TO_SERVICE, Item, SERVICE};
use super::{Flaw, Rows};

pub const CATEGORY_SHIP: i32 = 6;
const CATEGORY_SKILL: i32 = 16;
pub const CATEGORY_STRUCTURE: i32 = 65;
const GROUP_CONTAINERS: [i32; 4] = [12, 340, 448, 649];
const GROUP_SHIP_MODIFIERS: i32 = 1306;

pub struct Context<'a> {
    pub catalogue: &'a Catalogue<'a>,
    pub fit: &'a Fit<'a>,
    pub pairs: Vec<Pair>,
    pub flaw: Flaw,
}

/// An item that has a result.
#[derive(Clone, Copy)]
pub struct Pair {
    pub number: usize,
    pub item: Item,
    pub is_fitted: bool,
    pub state: u8,
    /// Whether the catalogue has its type.
    pub is_known: bool,
    pub group: i32,
    pub category: i32,
    pub rack: Option<u8>,
    pub hardpoint: Option<u8>,
}

impl Pair {
    /// Its result's number.
    pub fn result(&self) -> usize {
        self.number + 2
    }

    pub fn target(&self) -> Target {
        Target::Pair(self.number)
    }
}

impl<'a> Context<'a> {
    pub fn new(catalogue: &'a Catalogue<'a>, fit: &'a Fit<'a>, flaw: Flaw) -> Context<'a> {
        let missing = |fault: Fault, wrong: i32| if flaw.has(fault) { wrong } else { 0 };
        let pairs = (0..flaw.rows(Rows::Pairs, fit.pairs()))
            .map(|number| {
                let item = fit.item(number);
                let row = catalogue.type_of(item.type_id);
                let (rack, hardpoint) = match row {
                    None if flaw.has(Fault::MissingLinksLost) => (None, None),
                    _ => catalogue.slots_of(item.type_id),
                };
                Pair {
                    number,
                    item,
                    is_fitted: is_fitted(item.kind, flaw),
                    state: fit.state(number + 2),
                    is_known: row.is_some(),
                    group: row.map_or(missing(Fault::MissingGroup1, 1), |row| row.group),
                    category: row.map_or(missing(Fault::MissingCategory7, 7), |row| row.category),
                    rack,
                    hardpoint,
                }
            })
            .collect();
        Context {
            catalogue,
            fit,
            pairs,
            flaw,
        }
    }

    /// A name's attribute id.
    pub fn id(&self, name: usize) -> Option<i32> {
        self.catalogue.name(name)
    }

    pub fn value(&self, result: usize, id: i32) -> Option<f64> {
        self.fit.value(result, id, self.flaw)
    }

    /// A missing value reads as 0 for an amount.
    pub fn amount(&self, result: usize, id: i32) -> f64 {
        self.value(result, id).unwrap_or(self.missing_amount())
    }

    pub fn missing_amount(&self) -> f64 {
        if self.flaw.has(Fault::AmountMissingIsOne) {
            1.0
        } else {
            0.0
        }
    }

    pub fn ship_group(&self) -> i32 {
        let row = self.catalogue.type_of(self.fit.ship_type());
        row.map_or(0, |row| row.group)
    }

    pub fn ship_category(&self) -> i32 {
        let row = self.catalogue.type_of(self.fit.ship_type());
        row.map_or(0, |row| row.category)
    }
}

fn is_fitted(kind: u8, flaw: Flaw) -> bool {
    match kind {
        SERVICE => !flaw.has(Fault::FittedNoService),
        FIGHTER_TUBE => flaw.has(Fault::FittedInTubes),
        CARGO => flaw.has(Fault::CargoFitted),
        _ => HIGH_TO_SERVICE.contains(&kind),
    }
}

pub fn is_hull(catalogue: &Catalogue, fit: &Fit, flaw: Flaw) -> bool {
    let Some(row) = catalogue.type_of(fit.ship_type()) else {
        return flaw.has(Fault::HullMissing);
    };
    row.category == CATEGORY_SHIP
        || (row.category == CATEGORY_STRUCTURE && !flaw.has(Fault::HullShipsOnly))
        || (GROUP_CONTAINERS.contains(&row.group) && !flaw.has(Fault::HullNoContainers))
}

/// The mode, then the listed skills by ascending id.
pub fn kind(context: &Context, entries: &mut Entries) {
    if context.flaw.has(Fault::SkillsBeforeMode) {
        not_a_skill(context, entries);
        not_a_mode(context, entries);
    } else {
        not_a_mode(context, entries);
        not_a_skill(context, entries);
    }
}

fn not_a_mode(context: &Context, entries: &mut Entries) {
    let Context {
        catalogue,
        fit,
        flaw,
        ..
    } = *context;
    if fit.mode_flag() == 1 && !flaw.has(Fault::ModeForgotten) {
        let is_mode = match catalogue.type_of(fit.mode()) {
            Some(row) => row.group == GROUP_SHIP_MODIFIERS,
            None => flaw.has(Fault::ModeMissing),
        };
        if !is_mode {
            entries.add(Target::Ship, 20, 0, &[]);
        }
    }
}

fn not_a_skill(context: &Context, entries: &mut Entries) {
    let Context {
        catalogue,
        fit,
        flaw,
        ..
    } = *context;
    let mut ids: Vec<i32> = (0..flaw.rows(Rows::Listed, fit.skills()))
        .map(|number| fit.skill_id(number))
        .collect();
    if flaw.has(Fault::NotASkillBackwards) {
        ids.reverse();
    }
    for id in ids {
        let is_skill = match catalogue.type_of(id) {
            Some(row) => row.category == CATEGORY_SKILL,
            None => flaw.has(Fault::NotASkillMissing),
        };
        if !is_skill {
            entries.add(Target::Ship, 21, 0, &[id as u32]);
        }
    }
}
