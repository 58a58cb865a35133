//! The two images of what a site has that runs the original: its `Info`, a
//! `Fit`, and the `Calculation` of that fit.

use fitcheck::{
    BuildError, CatalogueBuilder, FitBuilder, FitItem, ItemResult, Slot, State, TypeData, TypeInfo,
};
use original::{Calculation, Fit, Info};

/// The original's type data, as far as the rules read it.
pub struct Data<'a, I>(pub &'a I);

impl<I: Info> TypeData for Data<'_, I> {
    fn attribute_id(&self, name: &str) -> Option<i32> {
        self.0.attribute_name_to_id(name)
    }

    fn type_info(&self, type_id: i32) -> Option<TypeInfo> {
        let found = self.0.get_type(type_id)?;
        Some(TypeInfo {
            group_id: found.group_id(),
            category_id: found.category_id(),
            volume: found.volume(),
        })
    }

    fn effects(&self, type_id: i32) -> impl Iterator<Item = i32> {
        let effects = self.0.get_dogma_effects(type_id).into_iter().flatten();
        effects.map(|effect| effect.effect_id())
    }

    fn effect_name(&self, effect_id: i32) -> Option<&str> {
        Some(self.0.get_dogma_effect(effect_id)?.name())
    }

    fn base_values(&self, type_id: i32) -> impl Iterator<Item = (i32, f64)> {
        let values = self.0.get_dogma_attributes(type_id).into_iter().flatten();
        values.map(|value| (value.attribute_id(), value.value().into()))
    }
}

/// The catalogue of these types: all of the game's, once, for every fit.
pub fn catalogue(
    info: &impl Info,
    type_ids: impl IntoIterator<Item = i32>,
) -> Result<Vec<u8>, BuildError> {
    CatalogueBuilder::from_type_data(&Data(info), type_ids).build()
}

/// The catalogue of what one fit asks for, where a list of all types is not at
/// hand: `Info` has none.
pub fn catalogue_of(info: &impl Info, fit: &FitBuilder) -> Result<Vec<u8>, BuildError> {
    let data = Data(info);
    let type_ids = fitcheck::type_ids_of(&data, fit);
    CatalogueBuilder::from_type_data(&data, type_ids).build()
}

/// The fit with what it calculated to; `build` gives its image.
pub fn fit(fit: &Fit, calculation: &Calculation) -> FitBuilder {
    let mut builder = FitBuilder::new(fit.ship.type_id);
    if let Some(mode) = fit.ship.mode {
        builder.mode(mode);
    }
    for (type_id, level) in &fit.character.skills {
        builder.skill(*type_id, *level);
    }
    builder
        .ship(result(&calculation.ship))
        .character(result(&calculation.character));
    // A calculation has as many items as its fit, in the same order. Should it
    // ever have fewer or more, none is dropped: the fit is then not clear.
    let mut outcomes = calculation.items.iter();
    for item in &fit.items {
        let fitted = FitItem::new(item.type_id, slot(item.slot)).quantity(item.quantity);
        match outcomes.next() {
            Some(outcome) => builder.item(fitted, result(outcome)),
            None => builder.item_without_result(fitted),
        };
    }
    for outcome in outcomes {
        builder.result_without_item(result(outcome));
    }
    builder
}

/// The state that was reached, not the one that was asked for, and every
/// attribute's value. Charges have no place in the image.
fn result(outcome: &original::ItemResult) -> ItemResult {
    let state = match outcome.state {
        original::State::Offline => State::Offline,
        original::State::Online => State::Online,
        original::State::Active => State::Active,
        original::State::Overload => State::Overload,
    };
    let mut result = ItemResult::new(state);
    for (attribute_id, attribute) in &outcome.attributes {
        result = result.with(*attribute_id, attribute.value);
    }
    result
}

fn slot(slot: original::Slot) -> Slot {
    match slot {
        original::Slot::High(index) => Slot::High(index),
        original::Slot::Medium(index) => Slot::Medium(index),
        original::Slot::Low(index) => Slot::Low(index),
        original::Slot::Rig(index) => Slot::Rig(index),
        original::Slot::Subsystem(index) => Slot::Subsystem(index),
        original::Slot::Service(index) => Slot::Service(index),
        original::Slot::FighterTube(index) => Slot::FighterTube(index),
        original::Slot::FighterBay => Slot::FighterBay,
        original::Slot::Implant(index) => Slot::Implant(index),
        original::Slot::Booster(index) => Slot::Booster(index),
        original::Slot::DroneBay => Slot::DroneBay,
        original::Slot::Cargo => Slot::Cargo,
    }
}
