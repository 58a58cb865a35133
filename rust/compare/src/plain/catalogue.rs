//! The catalogue where it stands: refusals 1 to 3, then lookups in the image.

use std::cell::RefCell;
use std::collections::BTreeMap;
use std::ops::Range;

use super::bytes::{f32_at, f64_at, i32_at, u32_at};
use super::fault::Fault;
use super::{Flaw, Measure, Number, Rows};

/// A catalogue that is not refused.
pub struct Catalogue<'a> {
    image: &'a [u8],
    flaw: Flaw,
    names: Block,
    effects: Block,
    types: Block,
    links: Block,
    bases: Block,
    /// The attribute id of each name.
    ids: Vec<Option<i32>>,
    /// Where ids stood, for the fault that trusts it.
    hints: RefCell<BTreeMap<i32, usize>>,
}

/// Where one block's keys and values stand.
#[derive(Clone, Copy)]
struct Block {
    start: usize,
    rows: usize,
    width: usize,
    /// Each key beside its value, which is wrong.
    is_mixed: bool,
}

impl Block {
    fn key(self, row: usize) -> usize {
        match self.is_mixed {
            true => self.start + (4 + self.width) * row,
            false => self.start + 4 * row,
        }
    }

    fn value(self, row: usize) -> usize {
        match self.is_mixed {
            true => self.key(row) + 4,
            false => self.start + 4 * self.rows + self.width * row,
        }
    }

    fn end(self) -> usize {
        self.value(self.rows)
    }
}

/// A record of a block: its key, and the bytes of its value.
pub type Record<'a> = (i32, &'a [u8]);

/// A type's row.
#[derive(Clone, Copy)]
pub struct Type {
    pub group: i32,
    pub category: i32,
    pub volume: Option<f32>,
}

/// Bytes of a base's value: its attribute id, and an f64, or an f32 in the form
/// before document 02.
const NEW: usize = 12;
pub const OLD: usize = 8;

impl<'a> Catalogue<'a> {
    pub fn open(image: &'a [u8], flaw: Flaw) -> Result<Catalogue<'a>, u8> {
        let width = match flaw.has(Fault::BaseLengthOld) {
            true => OLD,
            false => NEW,
        };
        Catalogue::open_as(image, width, flaw)
    }

    /// With values of bases of so many bytes.
    pub fn open_as(image: &'a [u8], width: usize, flaw: Flaw) -> Result<Catalogue<'a>, u8> {
        if !length_is_right(image, width, flaw) {
            return Err(1);
        }
        let mut catalogue = Catalogue::blocks(image, width, flaw);
        if flaw.has(Fault::RangeBeforeOrder) && !catalogue.is_in_range() {
            return Err(3);
        }
        if !catalogue.is_ordered() {
            return Err(2);
        }
        if !catalogue.is_in_range() {
            return Err(3);
        }
        catalogue.ids = (0..NAMES).map(|number| catalogue.id_of(number)).collect();
        Ok(catalogue)
    }

    /// Where the blocks are, as the sizes say.
    fn blocks(image: &'a [u8], width: usize, flaw: Flaw) -> Catalogue<'a> {
        let block = |start: usize, number: usize, width: usize| Block {
            start,
            rows: u32_at(image, 4 * number) as usize,
            width,
            is_mixed: number == 4 && width == NEW && flaw.has(Fault::BaseKeysMixed),
        };
        let names = block(20, 0, 4);
        let effects = block(names.end(), 1, 4);
        let types = block(effects.end(), 2, 16);
        let links = block(types.end(), 3, 4);
        let bases = block(links.end(), 4, width);
        Catalogue {
            image,
            flaw,
            names,
            effects,
            types,
            links,
            bases,
            ids: Vec::new(),
            hints: RefCell::default(),
        }
    }

    /// An old catalogue of which keys and fields are not judged.
    pub fn unjudged(image: &'a [u8], flaw: Flaw) -> Catalogue<'a> {
        Catalogue::blocks(image, OLD, flaw)
    }

    fn is_ordered(&self) -> bool {
        let flaw = self.flaw;
        let ascends = |block: Block, is_signed: bool, strict: bool| {
            if block.is_mixed {
                let keys = (0..block.rows).map(|row| i32_at(self.image, block.key(row)));
                return keys.is_sorted();
            }
            let keys = &self.image[block.start..block.key(block.rows)];
            ascend(keys, is_signed, strict)
        };
        (flaw.has(Fault::NamesUnordered)
            || ascends(
                self.names,
                flaw.has(Fault::NamesSigned),
                !flaw.has(Fault::NamesMayRepeat),
            ))
            && ascends(
                self.effects,
                !flaw.has(Fault::EffectsUnsigned),
                !flaw.has(Fault::EffectsMayRepeat),
            )
            && ascends(
                self.types,
                !flaw.has(Fault::TypesUnsigned),
                !flaw.has(Fault::TypesMayRepeat),
            )
            && (flaw.has(Fault::LinksUnordered)
                || ascends(self.links, true, flaw.has(Fault::LinksStrict)))
            && (flaw.has(Fault::BasesUnordered)
                || ascends(self.bases, true, flaw.has(Fault::BasesStrict)))
    }

    fn is_in_range(&self) -> bool {
        let flaw = self.flaw;
        let last = |last: u32, more: Fault, less: Fault| match () {
            () if flaw.has(more) => last + 1,
            () if flaw.has(less) => last - 1,
            () => last,
        };
        let last_name = last(87, Fault::Name88, Fault::Name87Refused);
        let last_mark = last(8, Fault::Mark9, Fault::Mark8Refused);
        let last_flag = last(1, Fault::VolumeFlag2, Fault::VolumeFlag1Refused);
        let names = self.names;
        let effects = self.effects;
        let types = self.types;
        (0..names.rows).all(|row| u32_at(self.image, names.key(row)) <= last_name)
            && (0..effects.rows).all(|row| u32_at(self.image, effects.value(row)) <= last_mark)
            && (0..types.rows).all(|row| u32_at(self.image, types.value(row) + 8) <= last_flag)
    }

    /// The attribute id of a name number.
    pub fn name(&self, number: usize) -> Option<i32> {
        self.ids[number]
    }

    fn id_of(&self, number: usize) -> Option<i32> {
        let number = match self.flaw {
            Flaw::NameLost(lost) if number == lost => return None,
            Flaw::NamesSwapped(first) if number == first => first + 1,
            Flaw::NamesSwapped(first) if number == first + 1 => first,
            _ => number,
        };
        let names = self.names;
        (0..names.rows)
            .find(|row| u32_at(self.image, names.key(*row)) as usize == number)
            .map(|row| i32_at(self.image, names.value(row)))
    }

    pub fn type_of(&self, id: i32) -> Option<Type> {
        if id < 0 && self.flaw.has(Fault::TypesNegativeLost) {
            return None;
        }
        let id = self.flaw.id(Number::TypeId, id);
        let row = self.hinted(id).or_else(|| self.found(TYPES, id))?;
        let at = self.value_at(TYPES, row);
        let given = u32_at(self.image, at + 8) == 1 || self.flaw.has(Fault::CargoFlagIgnored);
        Some(Type {
            group: i32_at(self.image, at),
            category: i32_at(self.image, at + 4),
            volume: given.then(|| f32_at(self.image, at + 12)),
        })
    }

    /// Where a type with the same hint stood, whichever type that was.
    fn hinted(&self, id: i32) -> Option<usize> {
        let hints = match () {
            () if self.flaw.has(Fault::HintsTrusted64) => 64,
            () if self.flaw.has(Fault::HintsTrusted8192) => 8_192,
            () => return None,
        };
        let mut held = self.hints.borrow_mut();
        let place = (id >> 7).rem_euclid(hints);
        if let Some(row) = held.get(&place) {
            return Some(*row);
        }
        let row = self.found(TYPES, id)?;
        held.insert(place, row);
        Some(row)
    }

    /// The rack and the hardpoint that a type's marks name, each from 0.
    pub fn slots_of(&self, type_id: i32) -> (Option<u8>, Option<u8>) {
        let (mut rack, mut hardpoint) = (None, None);
        let most = self.flaw.rows(Rows::LinksOfOne, self.links.rows);
        for row in self.rows_of(LINKS, type_id).take(most) {
            let effect = i32_at(self.image, self.value_at(LINKS, row));
            let Some(mark) = self.mark(effect) else {
                if self.flaw.has(Fault::UnknownEffectEnds) {
                    break;
                }
                continue;
            };
            let mark = match self.flaw {
                Flaw::MarksSwapped(first) if mark == first => first + 1,
                Flaw::MarksSwapped(first) if mark == first + 1 => first,
                _ => mark,
            };
            match mark {
                1..=6 if rack.is_some() && self.flaw.has(Fault::FirstRackMark) => {}
                1..=6 => rack = Some(mark as u8 - 1),
                7..=8 if hardpoint.is_some() && self.flaw.has(Fault::FirstHardpointMark) => {}
                7..=8 => {
                    hardpoint = Some(mark as u8 - 7);
                    if self.flaw.has(Fault::HardpointClearsRack) {
                        rack = None;
                    }
                }
                _ => {}
            }
        }
        (rack, hardpoint)
    }

    fn mark(&self, effect: i32) -> Option<u32> {
        if effect < 0 && self.flaw.has(Fault::EffectsNegativeLost) {
            return None;
        }
        let effect = self.flaw.id(Number::EffectId, effect);
        let row = self.found(EFFECTS, effect)?;
        Some(u32_at(self.image, self.value_at(EFFECTS, row)))
    }

    /// Where the values of the bases begin, and how many there are.
    pub fn base_values(&self) -> (usize, usize) {
        (self.bases.value(0), self.bases.rows)
    }

    /// Where the values of the types begin, and how many there are.
    pub fn type_values(&self) -> (usize, usize) {
        (self.types.value(0), self.types.rows)
    }

    /// A type's base value: the first in stored order.
    pub fn base(&self, type_id: i32, attribute: i32) -> Option<f64> {
        if type_id < 0 && self.flaw.has(Fault::BasesNegativeLost) {
            return None;
        }
        if self.flaw.has(Fault::MissingBasesLost) && self.found(TYPES, type_id).is_none() {
            return None;
        }
        let most = self.flaw.rows(Rows::BasesOfOne, self.bases.rows);
        let (id, value) = match self.flaw.has(Fault::BaseAttributeLast) {
            true => (8, 0),
            false => (0, 4),
        };
        let mut matching = self
            .rows_of(BASES, type_id)
            .take(most)
            .map(|row| match self.flaw.has(Fault::BaseStrideOld) {
                true => self.bases.value(0) + OLD * row,
                false => self.value_at(BASES, row),
            })
            .filter(|at| i32_at(self.image, *at + id) == attribute);
        let at = match self.flaw.has(Fault::BaseLast) {
            true => matching.last(),
            false => matching.next(),
        };
        let value = f64_at(self.image, at? + value);
        Some(match () {
            () if self.flaw.has(Fault::BaseNarrowed) => f64::from(value as f32),
            () if self.flaw.has(Fault::BaseUpperHalf) => {
                f64::from_bits(value.to_bits() & !0xFFFF_FFFF)
            }
            () if self.flaw.has(Fault::BaseOneStepOff) => value.next_up(),
            () => value,
        })
    }

    /// The five sizes.
    pub fn sizes(&self) -> &'a [u8] {
        &self.image[..20]
    }

    /// The records of a block, 0 the names and 4 the bases.
    pub fn records(&self, number: usize) -> Vec<Record<'a>> {
        let block = [self.names, self.effects, self.types, self.links, self.bases][number];
        let record = |row: usize| {
            let value = block.value(row);
            let key = i32_at(self.image, block.key(row));
            (key, &self.image[value..value + block.width])
        };
        (0..block.rows).map(record).collect()
    }

    /// The rows under a type's id, in block 2, the types, 3 or 4.
    pub fn run_of(&self, number: usize, type_id: i32) -> Range<usize> {
        let table = [TYPES, LINKS, BASES][number - 2];
        let first = self.first(table, type_id);
        first..first + self.rows_of(table, type_id).count()
    }

    /// Whether links stand under a type's id.
    pub fn has_links(&self, type_id: i32) -> bool {
        self.rows_of(LINKS, type_id).next().is_some()
    }

    /// Whether base values stand under a type's id.
    pub fn has_bases(&self, type_id: i32) -> bool {
        self.rows_of(BASES, type_id).next().is_some()
    }

    /// The rows with one key, of keys that never descend.
    fn rows_of(&self, table: Table, key: i32) -> impl Iterator<Item = usize> {
        (self.first(table, key)..self.rows(table))
            .take_while(move |row| self.key_at(table, *row) == key)
    }

    /// The row of a key that stands once, if it is there.
    fn found(&self, table: Table, key: i32) -> Option<usize> {
        let row = self.first(table, key);
        (row < self.rows(table) && self.key_at(table, row) == key).then_some(row)
    }

    /// The first row whose key is not below the one asked for.
    fn first(&self, table: Table, key: i32) -> usize {
        let (mut low, mut high) = (0, self.rows(table));
        let is_below = |row: usize| match self.flaw.has(table.by_difference) {
            true => self.key_at(table, row).wrapping_sub(key) < 0,
            false => self.key_at(table, row) < key,
        };
        while low < high {
            let middle = (low + high) / 2;
            if is_below(middle) {
                low = middle + 1;
            } else {
                high = middle;
            }
        }
        low
    }

    fn block(&self, table: Table) -> Block {
        match table.rows {
            Rows::Effects => self.effects,
            Rows::Types => self.types,
            Rows::Links => self.links,
            _ => self.bases,
        }
    }

    fn rows(&self, table: Table) -> usize {
        self.flaw.rows(table.rows, self.block(table).rows)
    }

    fn key_at(&self, table: Table, row: usize) -> i32 {
        let row = self.flaw.number(table.row, row);
        let place = self.block(table).key(row);
        i32_at(self.image, self.flaw.number(Number::CataloguePlace, place))
    }

    fn value_at(&self, table: Table, row: usize) -> usize {
        let row = self.flaw.number(table.row, row);
        let place = self.block(table).value(row);
        self.flaw.number(Number::CataloguePlace, place)
    }
}

/// A block that is searched, and what may be wrong with the search.
#[derive(Clone, Copy)]
struct Table {
    rows: Rows,
    row: Number,
    by_difference: Fault,
}

const EFFECTS: Table = Table {
    rows: Rows::Effects,
    row: Number::EffectRow,
    by_difference: Fault::EffectsByDifference,
};
const TYPES: Table = Table {
    rows: Rows::Types,
    row: Number::TypeRow,
    by_difference: Fault::TypesByDifference,
};
const LINKS: Table = Table {
    rows: Rows::Links,
    row: Number::LinkRow,
    by_difference: Fault::LinksByDifference,
};
const BASES: Table = Table {
    rows: Rows::Bases,
    row: Number::BaseRow,
    by_difference: Fault::BasesByDifference,
};

/// How many names there are.
const NAMES: usize = 88;

/// Whether keys ascend, as signed numbers or as unsigned ones.
fn ascend(keys: &[u8], is_signed: bool, strict: bool) -> bool {
    let words = || keys.chunks_exact(4).map(|key| u32_at(key, 0));
    match (is_signed, strict) {
        (true, true) => words().map(|key| key as i32).is_sorted_by(|a, b| a < b),
        (true, false) => words().map(|key| key as i32).is_sorted(),
        (false, true) => words().is_sorted_by(|a, b| a < b),
        (false, false) => words().is_sorted(),
    }
}

fn length_is_right(image: &[u8], width: usize, flaw: Flaw) -> bool {
    let limit = match () {
        () if flaw.has(Fault::CatalogueUnlimited) => usize::MAX,
        () if flaw.has(Fault::CatalogueLimitRefused) => 16_777_215,
        () => 16_777_216,
    };
    if image.len() > limit || image.len() < 20 || flaw.refuses(Measure::CatalogueBytes, image.len())
    {
        return false;
    }
    let size = |number: usize| u64::from(u32_at(image, 4 * number));
    let base = 4 + width as u64;
    let mut expected = 20 + 8 * size(0) + 8 * size(1) + 20 * size(2) + 8 * size(3) + base * size(4);
    if flaw.has(Fault::CatalogueLengthWraps) {
        expected %= 1 << 32;
    }
    let length = image.len() as u64;
    length == expected
        || (length > expected && flaw.has(Fault::CatalogueMayBeLonger))
        || (length + 1 == expected && flaw.has(Fault::CatalogueMayBeShorter))
}
