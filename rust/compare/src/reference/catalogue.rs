//! Document 01's catalogue, with document 02's base values: decoded, refused by
//! 1 to 3, asked by the original. The form before, with values of f32, too.

use std::ops::Range;

use original::{Info, Vector, eve};

use super::Refusal;
use super::words::Reader;
use crate::names;
use crate::numbers::is_fine;
use crate::tally::size::Block;

/// The most bytes that a catalogue may have.
pub const LIMIT: usize = 16_777_216;

/// A decoded catalogue.
pub struct Catalogue {
    names: Vec<(u32, i32)>,
    effects: Vec<(i32, u32)>,
    types: Vec<(i32, TypeRow)>,
    links: ByType<eve::TypeDogmaEffect>,
    bases: ByType<eve::TypeDogmaAttribute>,
    /// The values of the bases; the original gets the nearest f32 of each.
    values: Vec<f64>,
    is_fine: bool,
}

/// Which form an image has.
#[derive(Clone, Copy, PartialEq)]
enum Form {
    /// A base value is an f64.
    New,
    /// A base value is an f32.
    Old,
}

#[derive(Clone, Copy)]
struct TypeRow {
    group: i32,
    category: i32,
    flag: u32,
    volume: f32,
}

/// Rows that belong to types, in stored order: all keys, then all values.
struct ByType<T> {
    keys: Vec<i32>,
    rows: Vec<T>,
}

impl<T> ByType<T> {
    /// Where the rows of one type stand; the keys never descend.
    fn places(&self, type_id: i32) -> Range<usize> {
        let first = self.keys.partition_point(|key| *key < type_id);
        let end = self.keys.partition_point(|key| *key <= type_id);
        first..end
    }

    fn of(&self, type_id: i32) -> Option<Vector<'_, T>> {
        let places = self.places(type_id);
        (!places.is_empty()).then(|| Vector::new(&self.rows[places]))
    }
}

impl Catalogue {
    /// What the image holds, or the first refusal of 1 to 3 that it deserves.
    pub fn decode(image: &[u8]) -> Result<Catalogue, Refusal> {
        Catalogue::decode_as(image, Form::New)
    }

    /// The same for an image of the form before document 02.
    pub fn decode_old(image: &[u8]) -> Result<Catalogue, Refusal> {
        Catalogue::decode_as(image, Form::Old)
    }

    fn decode_as(image: &[u8], form: Form) -> Result<Catalogue, Refusal> {
        if image.len() > LIMIT {
            return Err(1);
        }
        let catalogue = Catalogue::laid_out(image, form).ok_or(1)?;
        if !catalogue.is_ordered() {
            return Err(2);
        }
        if !catalogue.is_in_range() {
            return Err(3);
        }
        Ok(catalogue)
    }

    /// The blocks, where the length is what the sizes make it.
    fn laid_out(image: &[u8], form: Form) -> Option<Catalogue> {
        let mut reader = Reader::new(image);
        let sizes = reader.many(5, Reader::u32)?;
        let base = if form == Form::New { 16 } else { 12 };
        let widths = [8, 8, 20, 8, base];
        let total: u64 = sizes
            .iter()
            .zip(widths)
            .map(|(size, width)| u64::from(*size) * width)
            .sum();
        if 20 + total != image.len() as u64 {
            return None;
        }

        let [n, e, t, l, b] = [0, 1, 2, 3, 4].map(|block| sizes[block] as usize);
        let name_keys = reader.many(n, Reader::u32)?;
        let name_values = reader.many(n, Reader::i32)?;
        let effect_keys = reader.many(e, Reader::i32)?;
        let effect_values = reader.many(e, Reader::u32)?;
        let type_keys = reader.many(t, Reader::i32)?;
        let type_values = reader.many(t, |row| {
            Some(TypeRow {
                group: row.i32()?,
                category: row.i32()?,
                flag: row.u32()?,
                volume: row.f32()?,
            })
        })?;
        let links = ByType {
            keys: reader.many(l, Reader::i32)?,
            rows: reader.many(l, |row| Some(eve::TypeDogmaEffect::new(row.i32()?)))?,
        };
        let base_keys = reader.many(b, Reader::i32)?;
        let base_values = reader.many(b, |row| {
            let attribute = row.i32()?;
            let value = match form {
                Form::New => row.f64()?,
                Form::Old => f64::from(row.f32()?),
            };
            Some((attribute, value))
        })?;
        let nearest = |row: &(i32, f64)| eve::TypeDogmaAttribute::new(row.0, row.1 as f32);
        let bases = ByType {
            keys: base_keys,
            rows: base_values.iter().map(nearest).collect(),
        };
        let values: Vec<f64> = base_values.into_iter().map(|row| row.1).collect();
        Some(Catalogue {
            names: name_keys.into_iter().zip(name_values).collect(),
            effects: effect_keys.into_iter().zip(effect_values).collect(),
            types: type_keys.into_iter().zip(type_values).collect(),
            links,
            bases,
            is_fine: values.iter().any(|value| is_fine(*value)),
            values,
        })
    }

    /// Names, effects and types ascend strictly; links and bases never descend.
    fn is_ordered(&self) -> bool {
        self.names.is_sorted_by(|a, b| a.0 < b.0)
            && self.effects.is_sorted_by(|a, b| a.0 < b.0)
            && self.types.is_sorted_by(|a, b| a.0 < b.0)
            && self.links.keys.is_sorted()
            && self.bases.keys.is_sorted()
    }

    fn is_in_range(&self) -> bool {
        self.names.iter().all(|(number, _)| *number <= 87)
            && self.effects.iter().all(|(_, mark)| *mark <= 8)
            && self.types.iter().all(|(_, row)| row.flag <= 1)
    }

    /// The attribute id of a name number.
    pub fn name(&self, number: usize) -> Option<i32> {
        let at = self
            .names
            .binary_search_by_key(&(number as u32), |(key, _)| *key);
        at.ok().map(|at| self.names[at].1)
    }

    /// How many rows a block has.
    pub fn rows(&self, block: Block) -> usize {
        match block {
            Block::Effects => self.effects.len(),
            Block::Types => self.types.len(),
            Block::Links => self.links.keys.len(),
            Block::Bases => self.bases.keys.len(),
        }
    }

    /// Whether some base value is no f32, so that the original cannot have it.
    pub fn is_fine(&self) -> bool {
        self.is_fine
    }

    /// What an attribute starts at on a type: the first in stored order.
    pub fn base(&self, type_id: i32, attribute: i32) -> Option<f64> {
        let rows = &self.bases.rows;
        let mut places = self.bases.places(type_id);
        let place = places.find(|place| rows[*place].attribute_id() == attribute)?;
        Some(self.values[place])
    }

    /// Whether a type is among the catalogue's, whatever its group.
    pub fn has_type(&self, type_id: i32) -> bool {
        self.types.iter().any(|(id, _)| *id == type_id)
    }

    /// The first and the last type.
    pub fn type_ends(&self) -> Option<(i32, i32)> {
        Some((self.types.first()?.0, self.types.last()?.0))
    }

    /// The volume of a type that is there and has one.
    pub fn volume(&self, type_id: i32) -> Option<f32> {
        self.get_type(type_id)?.volume()
    }

    /// The mark of an effect that is there.
    pub fn mark(&self, effect_id: i32) -> Option<u32> {
        let at = self
            .effects
            .binary_search_by_key(&effect_id, |(key, _)| *key);
        at.ok().map(|at| self.effects[at].1)
    }
}

impl Info for Catalogue {
    fn get_dogma_attributes(&self, type_id: i32) -> Option<Vector<'_, eve::TypeDogmaAttribute>> {
        self.bases.of(type_id)
    }

    fn get_dogma_attribute(&self, _attribute_id: i32) -> Option<eve::DogmaAttribute<'_>> {
        unreachable!("no fitting rule asks for an attribute by id")
    }

    fn get_dogma_effects(&self, type_id: i32) -> Option<Vector<'_, eve::TypeDogmaEffect>> {
        self.links.of(type_id)
    }

    fn get_dogma_effect(&self, effect_id: i32) -> Option<eve::DogmaEffect<'_>> {
        let mark = self.mark(effect_id)?;
        Some(eve::DogmaEffect::new(names::MARKS[mark as usize]))
    }

    fn get_type(&self, type_id: i32) -> Option<eve::Type<'_>> {
        let at = self.types.binary_search_by_key(&type_id, |(key, _)| *key);
        let row = self.types[at.ok()?].1;
        let volume = (row.flag == 1).then_some(row.volume);
        Some(eve::Type::new(row.group, row.category, volume))
    }

    fn get_dbuff_collection(&self, _buff_id: i32) -> Option<eve::DbuffCollection<'_>> {
        unreachable!("no fitting rule asks for a buff")
    }

    fn attribute_name_to_id(&self, name: &str) -> Option<i32> {
        let number = names::NAMES.iter().position(|known| *known == name)?;
        self.name(number)
    }
}
