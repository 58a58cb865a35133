//! Builds a catalogue: the type data in document 01's bytes.

use crate::missing::{Missing, lacking};
use crate::{Attribute, BuildError, CATALOGUE_BYTES, Mark};

/// Builds a catalogue image that every call accepts.
///
/// Rows may come in any order. Names, effects and types are sorted and stand
/// once each; links and bases of one type keep the order in which they came,
/// as it counts: the last slot effect of a type and the first of several base
/// values win.
///
/// ```
/// use fitcheck::{Attribute, BuildError, CatalogueBuilder, Mark};
///
/// let mut builder = CatalogueBuilder::new();
/// builder
///     .name(Attribute::HiSlots, 14)
///     .effect(12, Mark::HiPower)
///     .type_info(587, 25, 6, Some(27_289.0))
///     .type_info(484, 55, 7, Some(5.0))
///     .link(484, 12)
///     .base(587, 14, 4.0);
/// let image = builder.build()?;
/// assert_eq!(image.len(), 20 + 8 + 8 + 2 * 20 + 8 + 16);
///
/// builder.type_info(587, 26, 6, None);
/// assert_eq!(builder.build(), Err(BuildError::DuplicateType { type_id: 587 }));
/// # Ok::<(), BuildError>(())
/// ```
#[derive(Debug, Clone, Default)]
pub struct CatalogueBuilder {
    names: Vec<(Attribute, i32)>,
    effects: Vec<(i32, Mark)>,
    types: Vec<(i32, TypeInfo)>,
    links: Vec<(i32, i32)>,
    bases: Vec<(i32, (i32, f64))>,
}

#[derive(Debug, Clone, Copy)]
struct TypeInfo {
    group_id: i32,
    category_id: i32,
    volume: Option<f32>,
}

impl CatalogueBuilder {
    /// A catalogue without any rows.
    pub fn new() -> CatalogueBuilder {
        CatalogueBuilder::default()
    }

    /// Says which attribute id a name has. Rules whose names have none fall
    /// away.
    pub fn name(&mut self, attribute: Attribute, attribute_id: i32) -> &mut Self {
        self.names.push((attribute, attribute_id));
        self
    }

    /// Says what an effect means for slots.
    pub fn effect(&mut self, effect_id: i32, mark: Mark) -> &mut Self {
        self.effects.push((effect_id, mark));
        self
    }

    /// Adds a type with its group, category and volume in m³.
    pub fn type_info(
        &mut self,
        type_id: i32,
        group_id: i32,
        category_id: i32,
        volume: Option<f32>,
    ) -> &mut Self {
        let info = TypeInfo {
            group_id,
            category_id,
            volume,
        };
        self.types.push((type_id, info));
        self
    }

    /// Gives a type an effect, behind those it has.
    pub fn link(&mut self, type_id: i32, effect_id: i32) -> &mut Self {
        self.links.push((type_id, effect_id));
        self
    }

    /// Gives a type a base value, behind those it has.
    ///
    /// The image stores the f64 as it is, and every NaN as one: no call tells
    /// them apart. Data that was f32 to begin with, as the game's, is given by
    /// `f64::from(value)`.
    ///
    /// ```
    /// use fitcheck::CatalogueBuilder;
    ///
    /// let image = CatalogueBuilder::new().base(3302, 182, 16_777_217.0).build()?;
    /// assert_eq!(image[image.len() - 8..], 16_777_217f64.to_le_bytes());
    /// # Ok::<(), fitcheck::BuildError>(())
    /// ```
    pub fn base(&mut self, type_id: i32, attribute_id: i32, value: f64) -> &mut Self {
        self.bases.push((type_id, (attribute_id, value)));
        self
    }

    /// What the rows so far leave unchecked: see [`Missing`].
    ///
    /// ```
    /// use fitcheck::{Attribute, CatalogueBuilder};
    ///
    /// let mut builder = CatalogueBuilder::new();
    /// builder.name(Attribute::CpuLoad, 49);
    /// assert_eq!(builder.missing_names().len(), 87);
    /// assert_eq!(builder.missing().names, builder.missing_names());
    /// ```
    pub fn missing(&self) -> Missing {
        Missing {
            names: self.missing_names(),
            marks: lacking(&Mark::ALL[1..], self.effects.iter().map(|row| row.1)),
        }
    }

    /// The attribute names that have no id so far; rules that ask for them
    /// list nothing.
    pub fn missing_names(&self) -> Vec<Attribute> {
        lacking(Attribute::ALL, self.names.iter().map(|row| row.0))
    }

    /// How long the image is.
    fn length(&self) -> usize {
        20 + 8 * self.names.len()
            + 8 * self.effects.len()
            + 20 * self.types.len()
            + 8 * self.links.len()
            + 16 * self.bases.len()
    }

    /// The image.
    ///
    /// # Errors
    ///
    /// [`BuildError::DuplicateName`], [`BuildError::DuplicateEffect`],
    /// [`BuildError::DuplicateType`], or [`BuildError::CatalogueTooLong`] beyond
    /// [`CATALOGUE_BYTES`].
    pub fn build(&self) -> Result<Vec<u8>, BuildError> {
        let bytes = self.length();
        if bytes > CATALOGUE_BYTES {
            return Err(BuildError::CatalogueTooLong { bytes });
        }
        let rows = CatalogueBuilder {
            names: sorted(&self.names),
            effects: sorted(&self.effects),
            types: sorted(&self.types),
            links: sorted(&self.links),
            bases: sorted(&self.bases),
        };
        if let Some(attribute) = twice(&rows.names) {
            return Err(BuildError::DuplicateName { attribute });
        }
        if let Some(effect_id) = twice(&rows.effects) {
            return Err(BuildError::DuplicateEffect { effect_id });
        }
        if let Some(type_id) = twice(&rows.types) {
            return Err(BuildError::DuplicateType { type_id });
        }
        Ok(rows.laid_out())
    }

    /// The image of rows that are in order: sizes, then the five blocks, each
    /// all keys and then all values.
    fn laid_out(&self) -> Vec<u8> {
        let mut image = Vec::with_capacity(self.length());
        for rows in [
            self.names.len(),
            self.effects.len(),
            self.types.len(),
            self.links.len(),
            self.bases.len(),
        ] {
            // The length allows far fewer rows than 32 bits count.
            image.extend((rows as u32).to_le_bytes());
        }
        let number = |row: &(Attribute, i32)| u32::from(row.0.number()).to_le_bytes();
        image.extend(self.names.iter().flat_map(number));
        image.extend(self.names.iter().flat_map(|row| row.1.to_le_bytes()));
        keys(&mut image, &self.effects);
        let mark = |row: &(i32, Mark)| u32::from(row.1.number()).to_le_bytes();
        image.extend(self.effects.iter().flat_map(mark));
        keys(&mut image, &self.types);
        self.types.iter().for_each(|row| row.1.put(&mut image));
        keys(&mut image, &self.links);
        image.extend(self.links.iter().flat_map(|row| row.1.to_le_bytes()));
        keys(&mut image, &self.bases);
        for (_, (attribute_id, value)) in &self.bases {
            image.extend(attribute_id.to_le_bytes());
            let bits = if value.is_nan() { NAN } else { value.to_bits() };
            image.extend(bits.to_le_bytes());
        }
        image
    }
}

impl TypeInfo {
    fn put(&self, image: &mut Vec<u8>) {
        image.extend(self.group_id.to_le_bytes());
        image.extend(self.category_id.to_le_bytes());
        image.extend(u32::from(self.volume.is_some()).to_le_bytes());
        image.extend(self.volume.unwrap_or(0.0).to_le_bytes());
    }
}

/// The one NaN that is stored, as the library writes it.
const NAN: u64 = 0x7FF8_0000_0000_0000;

/// The rows by key; those of equal key stay in their order.
fn sorted<K: Ord + Copy, V: Copy>(rows: &[(K, V)]) -> Vec<(K, V)> {
    let mut rows = rows.to_vec();
    rows.sort_by_key(|row| row.0);
    rows
}

/// The first key of sorted rows that stands twice.
fn twice<K: Eq + Copy, V>(rows: &[(K, V)]) -> Option<K> {
    rows.windows(2)
        .find(|pair| pair[0].0 == pair[1].0)
        .map(|pair| pair[0].0)
}

/// A block's keys, which stand before its values.
fn keys<V>(image: &mut Vec<u8>, rows: &[(i32, V)]) {
    rows.iter()
        .for_each(|row| image.extend(row.0.to_le_bytes()));
}
