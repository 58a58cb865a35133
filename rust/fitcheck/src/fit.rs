//! Builds a fit: ship, skills, items and results in document 01's bytes.

use crate::{BuildError, FitPart, Slot, State};

/// A module, drone, fighter squadron, implant, booster or item in cargo.
#[derive(Debug, Clone, Copy, PartialEq, Eq)]
pub struct FitItem {
    /// The type id of the item.
    pub type_id: i32,
    /// Where the item is.
    pub slot: Slot,
    /// 1 for modules, the stack size for drones, fighters and cargo.
    pub quantity: u32,
}

impl FitItem {
    /// One item of a type.
    pub fn new(type_id: i32, slot: Slot) -> FitItem {
        FitItem {
            type_id,
            slot,
            quantity: 1,
        }
    }

    /// As many of them.
    pub fn quantity(mut self, quantity: u32) -> FitItem {
        self.quantity = quantity;
        self
    }

    fn put(&self, image: &mut Vec<u8>) {
        image.extend(self.type_id.to_le_bytes());
        image.extend(self.quantity.to_le_bytes());
        image.extend([self.slot.slot_type().number(), 0]);
        image.extend(self.slot.index().to_le_bytes());
    }
}

/// What the ship, the character or an item calculated to.
#[derive(Debug, Clone, PartialEq)]
pub struct ItemResult {
    /// The state that was reached.
    pub state: State,
    /// Attribute ids and their values, in any order.
    pub attributes: Vec<(i32, f64)>,
}

impl ItemResult {
    /// A result without attributes.
    pub fn new(state: State) -> ItemResult {
        ItemResult {
            state,
            attributes: Vec::new(),
        }
    }

    /// Gives an attribute its value.
    pub fn with(mut self, attribute_id: i32, value: f64) -> ItemResult {
        self.attributes.push((attribute_id, value));
        self
    }
}

/// A result of state [`State::Offline`] without attributes.
impl Default for ItemResult {
    fn default() -> ItemResult {
        ItemResult::new(State::Offline)
    }
}

/// Builds a fit image that the calls accept: refusals 4 to 6 never come. 9,
/// which is about how many skills a result wants, still may.
///
/// Skills and each result's attributes may come in any order; items keep
/// theirs, and an entry's index is the item's place. An item comes with its
/// result: rules look at items that have one. More of one than of the other is
/// possible too, behind those; see [`Unpaired`](crate::Unpaired).
///
/// ```
/// use fitcheck::{BuildError, FitBuilder, FitItem, ItemResult, Slot, State};
///
/// let mut builder = FitBuilder::new(587);
/// builder
///     .skill(3329, 3)
///     .ship(ItemResult::new(State::Online).with(48, 130.0))
///     .item(
///         FitItem::new(484, Slot::High(0)),
///         ItemResult::new(State::Active).with(50, 4.0),
///     )
///     .item(
///         FitItem::new(2203, Slot::DroneBay).quantity(5),
///         ItemResult::new(State::Offline),
///     );
/// let image = builder.build()?;
/// assert_eq!(image.len(), 36 + 5 + 2 * 12 + 2 * 4 + 2 * 12);
///
/// builder.skill(3329, 4);
/// assert_eq!(builder.build(), Err(BuildError::DuplicateSkill { type_id: 3329 }));
/// # Ok::<(), BuildError>(())
/// ```
#[derive(Debug, Clone)]
pub struct FitBuilder {
    ship_type: i32,
    mode: Option<i32>,
    skills: Vec<(i32, u8)>,
    ship: ItemResult,
    character: ItemResult,
    pairs: Vec<(FitItem, ItemResult)>,
    items: Vec<FitItem>,
    results: Vec<ItemResult>,
}

impl FitBuilder {
    /// A ship of a type, with nothing on it.
    pub fn new(ship_type: i32) -> FitBuilder {
        FitBuilder {
            ship_type,
            mode: None,
            skills: Vec::new(),
            ship: ItemResult::default(),
            character: ItemResult::default(),
            pairs: Vec::new(),
            items: Vec::new(),
            results: Vec::new(),
        }
    }

    /// Sets the type id of the active mode, for ships that have modes.
    pub fn mode(&mut self, type_id: i32) -> &mut Self {
        self.mode = Some(type_id);
        self
    }

    /// Lists a skill that is trained to a level.
    pub fn skill(&mut self, type_id: i32, level: u8) -> &mut Self {
        self.skills.push((type_id, level));
        self
    }

    /// Sets what the ship calculated to.
    pub fn ship(&mut self, result: ItemResult) -> &mut Self {
        self.ship = result;
        self
    }

    /// Sets what the character calculated to.
    pub fn character(&mut self, result: ItemResult) -> &mut Self {
        self.character = result;
        self
    }

    /// Adds an item with what it calculated to.
    pub fn item(&mut self, item: FitItem, result: ItemResult) -> &mut Self {
        self.pairs.push((item, result));
        self
    }

    /// Adds an item without a result, behind all that have one. No rule looks
    /// at it, so the fit is not clear.
    pub fn item_without_result(&mut self, item: FitItem) -> &mut Self {
        self.items.push(item);
        self
    }

    /// Adds a result without an item, behind all that have one. Its skills can
    /// be asked for; no rule looks at it, so the fit is not clear.
    pub fn result_without_item(&mut self, result: ItemResult) -> &mut Self {
        self.results.push(result);
        self
    }

    /// The types that the fit names: ship, mode, skills and items.
    pub(crate) fn type_ids(&self) -> impl Iterator<Item = i32> {
        let own = [self.ship_type].into_iter().chain(self.mode);
        let skills = self.skills.iter().map(|skill| skill.0);
        own.chain(skills)
            .chain(self.all_items().map(|item| item.type_id))
    }

    /// Attribute ids and values of all results.
    pub(crate) fn values(&self) -> impl Iterator<Item = (i32, f64)> {
        self.all_results()
            .flat_map(|result| result.attributes.iter().copied())
    }

    /// The image.
    ///
    /// # Errors
    ///
    /// [`BuildError::TooMany`], [`BuildError::Unpaired`],
    /// [`BuildError::DuplicateSkill`] or [`BuildError::DuplicateAttribute`].
    pub fn build(&self) -> Result<Vec<u8>, BuildError> {
        let sizes = self.sizes();
        for (part, count) in sizes {
            if count > part.most() {
                return Err(BuildError::TooMany { part, count });
            }
        }
        if !self.items.is_empty() && !self.results.is_empty() {
            return Err(BuildError::Unpaired {
                items: self.items.len(),
                results: self.results.len(),
            });
        }
        let skills =
            ascending(&self.skills).map_err(|type_id| BuildError::DuplicateSkill { type_id })?;
        let values = self.values_in_order()?;

        let mut image = Vec::new();
        for (_, count) in sizes {
            // The limits are far below 32 bits.
            image.extend((count as u32).to_le_bytes());
        }
        image.extend(self.ship_type.to_le_bytes());
        image.extend(u32::from(self.mode.is_some()).to_le_bytes());
        image.extend(self.mode.unwrap_or(0).to_le_bytes());
        image.extend(skills.iter().flat_map(|skill| skill.0.to_le_bytes()));
        image.extend(skills.iter().map(|skill| skill.1));
        self.all_items().for_each(|item| item.put(&mut image));
        for result in self.all_results() {
            image.extend([result.state.number(), 0]);
            // All counts together are at most 30,000.
            image.extend((result.attributes.len() as u16).to_le_bytes());
        }
        image.extend(values.iter().flat_map(|value| value.0.to_le_bytes()));
        image.extend(values.iter().flat_map(|value| value.1.to_le_bytes()));
        Ok(image)
    }

    /// How many rows each part has, in the image's order.
    fn sizes(&self) -> [(FitPart, usize); 4] {
        let attributes = self.all_results().map(|result| result.attributes.len());
        [
            (FitPart::Skills, self.skills.len()),
            (FitPart::Items, self.all_items().count()),
            (FitPart::Results, self.all_results().count() - 2),
            (FitPart::Attributes, attributes.sum()),
        ]
    }

    /// The items, those that have a result first.
    fn all_items(&self) -> impl Iterator<Item = &FitItem> {
        self.pairs.iter().map(|pair| &pair.0).chain(&self.items)
    }

    /// The results: ship, character, then items.
    fn all_results(&self) -> impl Iterator<Item = &ItemResult> {
        let own = [&self.ship, &self.character].into_iter();
        let pairs = self.pairs.iter().map(|pair| &pair.1);
        own.chain(pairs).chain(&self.results)
    }

    /// The attributes of all results, ids ascending within each.
    fn values_in_order(&self) -> Result<Vec<(i32, f64)>, BuildError> {
        let mut values = Vec::new();
        for (number, result) in self.all_results().enumerate() {
            let sorted = ascending(&result.attributes).map_err(|attribute_id| {
                BuildError::DuplicateAttribute {
                    result: number,
                    attribute_id,
                }
            })?;
            values.extend(sorted);
        }
        Ok(values)
    }
}

/// The rows by ascending id, or an id that stands twice.
fn ascending<V: Copy>(rows: &[(i32, V)]) -> Result<Vec<(i32, V)>, i32> {
    let mut rows = rows.to_vec();
    rows.sort_by_key(|row| row.0);
    match rows.windows(2).find(|pair| pair[0].0 == pair[1].0) {
        Some(pair) => Err(pair[0].0),
        None => Ok(rows),
    }
}
