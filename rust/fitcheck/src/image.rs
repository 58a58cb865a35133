//! What the images hold, as far as a sentence about them needs it.

use crate::missing::{Missing, lacking};
use crate::{Attribute, CATALOGUE_BYTES, FitItem, FitPart, Mark, Slot, SlotType, Unpaired};

/// Reads which names have an id in a catalogue image, and which marks its
/// effects have.
///
/// It judges the length alone: whether the catalogue is refused is for the
/// calls to say.
///
/// ```
/// use fitcheck::{Attribute, CatalogueBuilder, CatalogueImage};
///
/// let image = CatalogueBuilder::new().name(Attribute::CpuLoad, 49).build()?;
/// let catalogue = CatalogueImage::new(&image).unwrap();
/// assert_eq!(catalogue.missing_names().len(), 87);
/// assert!(!catalogue.missing_names().contains(&Attribute::CpuLoad));
/// # Ok::<(), fitcheck::BuildError>(())
/// ```
#[derive(Debug, Clone, Copy)]
pub struct CatalogueImage<'a> {
    names: &'a [[u8; 4]],
    marks: &'a [[u8; 4]],
    /// The ids of the types, and behind them four words a type.
    type_words: &'a [[u8; 4]],
    types: usize,
    links: usize,
    bases: usize,
}

impl<'a> CatalogueImage<'a> {
    /// The catalogue of an image, where it is not too long and its length is
    /// what its sizes make it.
    pub fn new(image: &'a [u8]) -> Option<CatalogueImage<'a>> {
        let mut length = 20;
        for (block, width) in [8, 8, 20, 8, 16].into_iter().enumerate() {
            // Five products of 32 bits with less than 6 are far below 64.
            length += u64::from(word(image, 4 * block)?) * width;
        }
        if length != image.len() as u64 || image.len() > CATALOGUE_BYTES {
            return None;
        }
        let names = word(image, 0)? as usize;
        let effects = word(image, 4)? as usize;
        let (words, _) = image.as_chunks();
        Some(CatalogueImage {
            names: words.get(5..5 + names)?,
            marks: words.get(5 + 2 * names + effects..5 + 2 * names + 2 * effects)?,
            type_words: words.get(5 + 2 * names + 2 * effects..)?,
            types: word(image, 8)? as usize,
            links: word(image, 12)? as usize,
            bases: word(image, 16)? as usize,
        })
    }

    /// How many types there are.
    pub fn types(&self) -> usize {
        self.types
    }

    /// The volume of a type, where it is there and has one. Types ascend in a catalogue
    /// that is not refused.
    pub(crate) fn volume(&self, type_id: i32) -> Option<f32> {
        let (ids, values) = self.type_words.split_at_checked(self.types)?;
        let id = |word: &[u8; 4]| i32::from_le_bytes(*word);
        let row = ids.binary_search_by_key(&type_id, id).ok()?;
        let [_, _, flag, volume] = values.get(4 * row..)?.first_chunk()?;
        let volume = f32::from_bits(u32::from_le_bytes(*volume));
        (u32::from_le_bytes(*flag) == 1).then_some(volume)
    }

    /// How many links there are, of types to their effects.
    pub fn links(&self) -> usize {
        self.links
    }

    /// How many base values there are.
    pub fn bases(&self) -> usize {
        self.bases
    }

    /// What the catalogue leaves unchecked: see [`Missing`].
    pub fn missing(&self) -> Missing {
        Missing {
            names: self.missing_names(),
            marks: lacking(&Mark::ALL[1..], numbered(self.marks, Mark::from_number)),
        }
    }

    /// The attribute names that have no id; rules that ask for them list
    /// nothing.
    pub fn missing_names(&self) -> Vec<Attribute> {
        lacking(Attribute::ALL, numbered(self.names, Attribute::from_number))
    }
}

/// The cases whose numbers the words are.
fn numbered<T>(words: &[[u8; 4]], case: impl Fn(u8) -> Option<T>) -> impl Iterator<Item = T> {
    words.iter().filter_map(move |word| {
        let number = u32::from_le_bytes(*word);
        case(u8::try_from(number).ok()?)
    })
}

/// Reads the ship, mode, skills and items of a fit image, and how many results it
/// has.
///
/// It judges the length alone: whether the fit is refused is for the calls to
/// say. On any bytes it reads what is there and never panics.
///
/// ```
/// use fitcheck::{FitBuilder, FitImage, FitItem, ItemResult, Slot, State};
///
/// let image = FitBuilder::new(587)
///     .item(FitItem::new(2048, Slot::Low(0)), ItemResult::new(State::Online))
///     .build()?;
/// let fit = FitImage::new(&image).unwrap();
/// assert_eq!(fit.ship_type(), 587);
/// assert_eq!(fit.mode(), None);
/// assert_eq!(fit.item(0).unwrap().slot, Slot::Low(0));
/// assert_eq!(fit.item(1), None);
/// # Ok::<(), fitcheck::BuildError>(())
/// ```
#[derive(Debug, Clone, Copy)]
pub struct FitImage<'a> {
    image: &'a [u8],
    skills: usize,
    items: usize,
    results: usize,
}

impl<'a> FitImage<'a> {
    /// The fit of an image, where its limits are kept and its length is what
    /// its sizes make it.
    pub fn new(image: &'a [u8]) -> Option<FitImage<'a>> {
        let size = |number: usize, part: FitPart| {
            let size = word(image, 4 * number)? as usize;
            (size <= part.most()).then_some(size)
        };
        let skills = size(0, FitPart::Skills)?;
        let items = size(1, FitPart::Items)?;
        let results = size(2, FitPart::Results)?;
        let attributes = size(3, FitPart::Attributes)?;
        let length = 36 + 5 * skills + 12 * items + 4 * results + 12 * attributes;
        (image.len() == length).then_some(FitImage {
            image,
            skills,
            items,
            results,
        })
    }

    /// The type id of the ship.
    pub fn ship_type(&self) -> i32 {
        self.id(16)
    }

    /// The type id of the mode, if one is set.
    pub fn mode(&self) -> Option<i32> {
        (word(self.image, 20) != Some(0)).then(|| self.id(24))
    }

    /// How many skills are listed.
    pub fn skills(&self) -> usize {
        self.skills
    }

    /// The trained level of a skill, if the fit lists it.
    ///
    /// ```
    /// use fitcheck::{FitBuilder, FitImage};
    ///
    /// let image = FitBuilder::new(587).skill(3300, 4).skill(3301, 0).build()?;
    /// let fit = FitImage::new(&image).unwrap();
    /// assert_eq!(fit.skills(), 2);
    /// assert_eq!(fit.level(3300), Some(4));
    /// assert_eq!(fit.level(3301), Some(0));
    /// assert_eq!(fit.level(3302), None);
    /// # Ok::<(), fitcheck::BuildError>(())
    /// ```
    pub fn level(&self, type_id: i32) -> Option<u8> {
        let mut ids = (0..self.skills).map(|number| self.id(28 + 4 * number));
        let place = ids.position(|id| id == type_id)?;
        self.image.get(28 + 4 * self.skills + place).copied()
    }

    /// How many items there are.
    pub fn items(&self) -> usize {
        self.items
    }

    /// How many results items have; the ship's and the character's are not
    /// counted. The numbers for [`skills`](crate::skills) go from 0 to this
    /// plus 1.
    pub fn results(&self) -> usize {
        self.results
    }

    /// How many items have a result: rules look at these alone.
    pub fn pairs(&self) -> usize {
        self.items.min(self.results)
    }

    /// The items without a result or the results without an item, if there are
    /// any: a fit that has some is not clear.
    pub fn unpaired(&self) -> Option<Unpaired> {
        Unpaired::of(self.items, self.results)
    }

    /// The item at a place from 0; none where there is no such item or its
    /// slot has no meaning.
    pub fn item(&self, index: usize) -> Option<FitItem> {
        if index >= self.items {
            return None;
        }
        let at = 28 + 5 * self.skills + 12 * index;
        let place = word(self.image, at + 8)?.to_le_bytes();
        let slot = SlotType::from_number(place[0])?;
        let slot = Slot::new(slot, u16::from_le_bytes([place[2], place[3]])).ok()?;
        Some(FitItem {
            type_id: self.id(at),
            slot,
            quantity: word(self.image, at + 4)?,
        })
    }

    fn id(&self, at: usize) -> i32 {
        word(self.image, at).unwrap_or(0).cast_signed()
    }
}

/// The u32 at a place.
fn word(image: &[u8], at: usize) -> Option<u32> {
    let bytes = image.get(at..)?.first_chunk()?;
    Some(u32::from_le_bytes(*bytes))
}
