//! Launched drones that come to more than 32 bits. The original adds them up in
//! a u32, which panics in a debug build and wraps in a release build, so it is
//! never handed such a fit: it lists the fit with those stacks empty, and the
//! one entry that reads their number is worked out here, in plain code from
//! documents 01 and 02.

use original::{Resource, Rule, Run, Slot, State, Target, Violation};

use super::{Catalogue, Fit};
use crate::names::MAX_ACTIVE_DRONES;
use crate::numbers::limit;

/// What `validate` lists where it could add the drones up.
pub fn validate(catalogue: &Catalogue, fit: &Fit, max_active: i32) -> Vec<Violation> {
    let mut grounded = fit.fit.clone();
    for (item, result) in grounded.items.iter_mut().zip(&fit.calculation.items) {
        if is_launched(item, result) {
            item.quantity = 0;
        }
    }
    let run = Run {
        info: catalogue,
        fit: &grounded,
        calculation: &fit.calculation,
    };
    let mut found = run.validate();
    found.retain(|violation| resource(violation) != Some(Resource::LaunchedDrones));

    // 256 stacks of 4,294,967,295 are below 2^53.
    let used = fit.launched_drones() as f64;
    let character = &fit.calculation.character.attributes;
    let available = character.get(&max_active).map_or(0.0, |value| value.value);
    if used > limit(available) {
        let place = found.iter().take_while(|earlier| is_before(earlier));
        let place = place.count();
        let rule = Rule::Resource {
            resource: Resource::LaunchedDrones,
            used,
            available,
        };
        let target = Target::Ship;
        found.insert(place, Violation { target, rule });
    }
    found
}

/// Where a list stands before its launched drones: mode, skills and loads.
fn is_before(violation: &Violation) -> bool {
    match violation.rule {
        Rule::NotAMode | Rule::NotASkill { .. } => true,
        _ => resource(violation).is_some_and(|resource| resource != Resource::CargoBay),
    }
}

fn resource(violation: &Violation) -> Option<Resource> {
    match violation.rule {
        Rule::Resource { resource, .. } => Some(resource),
        _ => None,
    }
}

fn is_launched(item: &original::FitItem, result: &original::ItemResult) -> bool {
    item.slot == Slot::DroneBay && result.state >= State::Active
}

impl Fit {
    /// The drones in space, added up without loss.
    pub fn launched_drones(&self) -> u64 {
        self.pairs()
            .filter(|(item, result)| is_launched(item, result))
            .map(|(item, _)| u64::from(item.quantity))
            .sum()
    }

    /// The attribute that limits launched drones, where the original would add
    /// more of them up than 32 bits hold.
    pub fn hangar(&self, catalogue: &Catalogue) -> Option<i32> {
        let is_asked = self.run(catalogue).is_hull() && self.launched_drones() > u32::MAX.into();
        catalogue.name(MAX_ACTIVE_DRONES).filter(|_| is_asked)
    }
}
