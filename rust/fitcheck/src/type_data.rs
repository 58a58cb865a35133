//! A catalogue from a site's own type data.

use std::collections::BTreeSet;

use crate::{Attribute, CatalogueBuilder, FitBuilder, Mark};

/// The type data, as far as the rules read it: what they look up of the
/// original's `Info`. `docs/CALLING.md` has it written for that.
pub trait TypeData {
    /// The id of the attribute with exactly this name, like `"cpuLoad"`.
    fn attribute_id(&self, name: &str) -> Option<i32>;
    /// A type by id.
    fn type_info(&self, type_id: i32) -> Option<TypeInfo>;
    /// The effects that a type has, by id, in the data's order.
    fn effects(&self, type_id: i32) -> impl Iterator<Item = i32>;
    /// An effect's name, like `"hiPower"`.
    fn effect_name(&self, effect_id: i32) -> Option<&str>;
    /// The attributes that a type starts with, by id, in the data's order.
    fn base_values(&self, type_id: i32) -> impl Iterator<Item = (i32, f64)>;
}

/// What the rules read of a type itself.
#[derive(Debug, Clone, Copy, PartialEq)]
pub struct TypeInfo {
    /// Its group.
    pub group_id: i32,
    /// Its category.
    pub category_id: i32,
    /// Its volume in m³, where the data gives one.
    pub volume: Option<f32>,
}

impl CatalogueBuilder {
    /// A catalogue of these types, of what the rules read: every name that has
    /// an id; each type with the effects that say something about slots; and
    /// of its base values those that name a skill or a level. An id that the
    /// data lacks stays out, and one that comes twice stands once.
    ///
    /// For all of the game, give every type id there is; the types that one fit
    /// asks for are [`type_ids_of`].
    pub fn from_type_data(
        data: &impl TypeData,
        type_ids: impl IntoIterator<Item = i32>,
    ) -> CatalogueBuilder {
        let mut builder = CatalogueBuilder::new();
        for attribute in Attribute::ALL {
            if let Some(attribute_id) = data.attribute_id(attribute.name()) {
                builder.name(*attribute, attribute_id);
            }
        }
        let required: BTreeSet<i32> = required(data).into_iter().flatten().collect();
        let mut effects = BTreeSet::new();
        for type_id in type_ids.into_iter().collect::<BTreeSet<i32>>() {
            if let Some(info) = data.type_info(type_id) {
                builder.type_info(type_id, info.group_id, info.category_id, info.volume);
            }
            for effect_id in data.effects(type_id) {
                let Some(mark) = data.effect_name(effect_id).and_then(Mark::of_effect) else {
                    continue;
                };
                builder.link(type_id, effect_id);
                if effects.insert(effect_id) {
                    builder.effect(effect_id, mark);
                }
            }
            for (attribute_id, value) in data.base_values(type_id) {
                if required.contains(&attribute_id) {
                    builder.base(type_id, attribute_id, value);
                }
            }
        }
        builder
    }
}

/// The types that the rules ask for where they judge this fit: its ship, mode,
/// listed skills and items, and every skill that one of its results wants,
/// however deep.
pub fn type_ids_of(data: &impl TypeData, fit: &FitBuilder) -> BTreeSet<i32> {
    let skills: Vec<i32> = required(data).into_iter().map(|pair| pair[0]).collect();
    let mut found: BTreeSet<i32> = fit.type_ids().collect();
    // Casts stop at the ends of the range, as the rules' do.
    let mut wanted: Vec<i32> = fit
        .values()
        .filter(|(attribute_id, _)| skills.contains(attribute_id))
        .map(|(_, value)| value as i32)
        .collect();
    let mut walked = BTreeSet::new();
    while let Some(type_id) = wanted.pop() {
        if walked.insert(type_id) {
            let bases = data.base_values(type_id);
            let more = bases.filter(|(attribute_id, _)| skills.contains(attribute_id));
            wanted.extend(more.map(|(_, value)| value as i32));
        }
    }
    found.extend(walked);
    found
}

/// The attribute ids that name a skill and its level, of the pairs that have
/// both.
fn required(data: &impl TypeData) -> Vec<[i32; 2]> {
    let id = |attribute: Attribute| data.attribute_id(attribute.name());
    Attribute::ALL[76..]
        .chunks(2)
        .filter_map(|pair| Some([id(pair[0])?, id(pair[1])?]))
        .collect()
}
