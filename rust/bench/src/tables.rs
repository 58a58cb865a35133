//! Type data as the original's data crate answers from it: a lookup table for
//! each question of `Info`. What the real one does over `sde.dat` is not
//! published here, so there are two: hashed, and sorted with binary searches.

use std::collections::HashMap;

use compare::model::Catalogue;
use compare::names;
use compare::numbers::narrowed;
use original::{Info, Vector, eve};

/// A table's way to the value of a key.
pub trait Table<V> {
    fn new(rows: Vec<(i32, V)>) -> Self;
    fn find(&self, key: i32) -> Option<&V>;
}

/// The same for keys that are names.
pub trait NameTable {
    fn new(rows: Vec<(&'static str, i32)>) -> Self;
    fn find(&self, name: &str) -> Option<i32>;
}

/// `HashMap`s of the standard library, with its own hash.
pub struct Hashed<K, V>(HashMap<K, V>);

/// Rows in the order of their keys, as keyed flatbuffer tables have them.
pub struct Sorted<K, V>(Vec<(K, V)>);

impl<V> Table<V> for Hashed<i32, V> {
    fn new(rows: Vec<(i32, V)>) -> Self {
        Hashed(rows.into_iter().collect())
    }

    fn find(&self, key: i32) -> Option<&V> {
        self.0.get(&key)
    }
}

impl<V> Table<V> for Sorted<i32, V> {
    fn new(rows: Vec<(i32, V)>) -> Self {
        assert!(rows.is_sorted_by_key(|row| row.0));
        Sorted(rows)
    }

    fn find(&self, key: i32) -> Option<&V> {
        let at = self.0.binary_search_by_key(&key, |row| row.0).ok()?;
        Some(&self.0[at].1)
    }
}

impl NameTable for Hashed<&'static str, i32> {
    fn new(rows: Vec<(&'static str, i32)>) -> Self {
        Hashed(rows.into_iter().collect())
    }

    fn find(&self, name: &str) -> Option<i32> {
        self.0.get(name).copied()
    }
}

impl NameTable for Sorted<&'static str, i32> {
    fn new(mut rows: Vec<(&'static str, i32)>) -> Self {
        rows.sort();
        Sorted(rows)
    }

    fn find(&self, name: &str) -> Option<i32> {
        let at = self.0.binary_search_by(|row| row.0.cmp(name)).ok()?;
        Some(self.0[at].1)
    }
}

#[derive(Clone, Copy)]
pub struct TypeRow {
    group: i32,
    category: i32,
    volume: Option<f32>,
}

/// The tables behind `Info`.
pub struct Tables<N, E, T, L, B> {
    names: N,
    effects: E,
    types: T,
    links: L,
    bases: B,
}

type Effects = Vec<eve::TypeDogmaEffect>;
type Attributes = Vec<eve::TypeDogmaAttribute>;

pub type HashedTables = Tables<
    Hashed<&'static str, i32>,
    Hashed<i32, &'static str>,
    Hashed<i32, TypeRow>,
    Hashed<i32, Effects>,
    Hashed<i32, Attributes>,
>;

pub type SortedTables = Tables<
    Sorted<&'static str, i32>,
    Sorted<i32, &'static str>,
    Sorted<i32, TypeRow>,
    Sorted<i32, Effects>,
    Sorted<i32, Attributes>,
>;

impl<N, E, T, L, B> Tables<N, E, T, L, B>
where
    N: NameTable,
    E: Table<&'static str>,
    T: Table<TypeRow>,
    L: Table<Effects>,
    B: Table<Attributes>,
{
    /// The tables of a catalogue, of whose names those below a number.
    pub fn new(catalogue: &Catalogue, names_below: usize) -> Self {
        let named = catalogue.names.iter().map(|row| (row.number as usize, row));
        let names = named
            .filter(|(number, _)| *number < names_below)
            .map(|(number, row)| (names::NAMES[number], row.attribute));
        let effects = catalogue.effects.iter();
        let types = catalogue.types.iter().map(|row| {
            let volume = (row.flag == 1).then_some(f32::from_bits(row.volume));
            let (group, category) = (row.group, row.category);
            let value = TypeRow {
                group,
                category,
                volume,
            };
            (row.id, value)
        });
        let links = catalogue.links.chunk_by(|a, b| a.type_id == b.type_id);
        let links = links.map(|rows| {
            let effects = rows.iter().map(|row| eve::TypeDogmaEffect::new(row.effect));
            (rows[0].type_id, effects.collect())
        });
        let bases = catalogue.bases.chunk_by(|a, b| a.type_id == b.type_id);
        let bases = bases.map(|rows| {
            let values = rows
                .iter()
                .map(|row| (row.attribute, f32::from_bits(narrowed(row.value))))
                .map(|(attribute, value)| eve::TypeDogmaAttribute::new(attribute, value));
            (rows[0].type_id, values.collect())
        });
        Tables {
            names: N::new(names.collect()),
            effects: E::new(
                effects
                    .map(|row| (row.id, names::MARKS[row.mark as usize]))
                    .collect(),
            ),
            types: T::new(types.collect()),
            links: L::new(links.collect()),
            bases: B::new(bases.collect()),
        }
    }
}

impl<N, E, T, L, B> Info for Tables<N, E, T, L, B>
where
    N: NameTable,
    E: Table<&'static str>,
    T: Table<TypeRow>,
    L: Table<Effects>,
    B: Table<Attributes>,
{
    fn get_dogma_attributes(&self, type_id: i32) -> Option<Vector<'_, eve::TypeDogmaAttribute>> {
        self.bases.find(type_id).map(|rows| Vector::new(rows))
    }

    fn get_dogma_attribute(&self, _attribute_id: i32) -> Option<eve::DogmaAttribute<'_>> {
        unreachable!("no fitting rule asks for an attribute by id")
    }

    fn get_dogma_effects(&self, type_id: i32) -> Option<Vector<'_, eve::TypeDogmaEffect>> {
        self.links.find(type_id).map(|rows| Vector::new(rows))
    }

    fn get_dogma_effect(&self, effect_id: i32) -> Option<eve::DogmaEffect<'_>> {
        self.effects
            .find(effect_id)
            .map(|name| eve::DogmaEffect::new(name))
    }

    fn get_type(&self, type_id: i32) -> Option<eve::Type<'_>> {
        let row = self.types.find(type_id)?;
        Some(eve::Type::new(row.group, row.category, row.volume))
    }

    fn get_dbuff_collection(&self, _buff_id: i32) -> Option<eve::DbuffCollection<'_>> {
        unreachable!("no fitting rule asks for a buff")
    }

    fn attribute_name_to_id(&self, name: &str) -> Option<i32> {
        self.names.find(name)
    }
}
