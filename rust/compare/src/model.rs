//! Both images as rows that can be read, changed and dropped one by one.
//!
//! A model may be malformed on purpose: nothing here sorts, limits or checks.
//! [`Damage`] breaks the bytes of an image after it is laid out.

use crate::numbers::{narrowed, widened};

/// A catalogue's five blocks, each as rows.
#[derive(Clone, Debug, Default, PartialEq)]
pub struct Catalogue {
    pub names: Vec<Name>,
    pub effects: Vec<Effect>,
    pub types: Vec<Type>,
    pub links: Vec<Link>,
    pub bases: Vec<Base>,
    pub damage: Damage,
}

#[derive(Clone, Copy, Debug, PartialEq)]
pub struct Name {
    pub number: u32,
    pub attribute: i32,
}

#[derive(Clone, Copy, Debug, PartialEq)]
pub struct Effect {
    pub id: i32,
    pub mark: u32,
}

#[derive(Clone, Copy, Debug, PartialEq)]
pub struct Type {
    pub id: i32,
    pub group: i32,
    pub category: i32,
    pub flag: u32,
    /// Bits of the f32, so that a NaN keeps its pattern.
    pub volume: u32,
}

#[derive(Clone, Copy, Debug, PartialEq)]
pub struct Link {
    pub type_id: i32,
    pub effect: i32,
}

#[derive(Clone, Copy, Debug, PartialEq)]
pub struct Base {
    pub type_id: i32,
    pub attribute: i32,
    /// Bits of the f64.
    pub value: u64,
}

impl Base {
    /// A value that an f32 is.
    pub fn single(type_id: i32, attribute: i32, value: f32) -> Base {
        Base {
            type_id,
            attribute,
            value: widened(value.to_bits()),
        }
    }
}

/// A fit: its ship, skills and items, and what it calculated to.
#[derive(Clone, Debug, Default, PartialEq)]
pub struct Fit {
    pub ship_type: i32,
    pub mode_flag: u32,
    pub mode: i32,
    pub skills: Vec<Skill>,
    pub items: Vec<Item>,
    pub ship: Outcome,
    pub character: Outcome,
    pub results: Vec<Outcome>,
    pub damage: Damage,
}

#[derive(Clone, Copy, Debug, PartialEq)]
pub struct Skill {
    pub id: i32,
    pub level: u8,
}

#[derive(Clone, Copy, Debug, Default, PartialEq)]
pub struct Item {
    pub type_id: i32,
    pub quantity: u32,
    pub kind: u8,
    pub zero: u8,
    pub index: u16,
}

/// One result: the state reached and the attributes.
#[derive(Clone, Debug, Default, PartialEq)]
pub struct Outcome {
    pub state: u8,
    pub zero: u8,
    /// The count written, where it is not the number of attributes.
    pub count: Option<u16>,
    /// Attribute id and the bits of its f64.
    pub attributes: Vec<(i32, u64)>,
}

/// What is done to an image's bytes after it is laid out, in this order.
#[derive(Clone, Debug, Default, PartialEq)]
pub struct Damage {
    /// Sizes written instead of the true ones: which one from 0, number. One
    /// that the image lacks is passed over.
    pub sizes: Vec<(usize, u32)>,
    /// How many bytes are cut off the end.
    pub cut: usize,
    /// Bytes put behind the end.
    pub extra: Vec<u8>,
    /// Single bytes overwritten; a place beyond the end is passed over.
    pub patches: Vec<(usize, u8)>,
}

impl Damage {
    pub(crate) fn apply(&self, image: &mut Vec<u8>) {
        for (position, size) in &self.sizes {
            let at = 4 * position;
            if let Some(bytes) = image.get_mut(at..at + 4) {
                bytes.copy_from_slice(&size.to_le_bytes());
            }
        }
        image.truncate(image.len().saturating_sub(self.cut));
        image.extend_from_slice(&self.extra);
        for (place, value) in &self.patches {
            if let Some(byte) = image.get_mut(*place) {
                *byte = *value;
            }
        }
    }
}

fn put(image: &mut Vec<u8>, number: u32) {
    image.extend_from_slice(&number.to_le_bytes());
}

fn put_signed(image: &mut Vec<u8>, number: i32) {
    image.extend_from_slice(&number.to_le_bytes());
}

impl Catalogue {
    /// The image: sizes, then five blocks of all keys and all values.
    pub fn image(&self) -> Vec<u8> {
        self.laid_out(|image, bits| image.extend(bits.to_le_bytes()))
    }

    /// The image in the form that document 02 widens, where a base value is an
    /// f32.
    pub fn old_image(&self) -> Vec<u8> {
        self.laid_out(|image, bits| put(image, narrowed(bits)))
    }

    fn laid_out(&self, put_value: impl Fn(&mut Vec<u8>, u64)) -> Vec<u8> {
        let rows = [
            self.names.len(),
            self.effects.len(),
            self.types.len(),
            self.links.len(),
            self.bases.len(),
        ];
        let mut image = Vec::new();
        for size in rows {
            put(&mut image, size as u32);
        }
        for row in &self.names {
            put(&mut image, row.number);
        }
        for row in &self.names {
            put_signed(&mut image, row.attribute);
        }
        for row in &self.effects {
            put_signed(&mut image, row.id);
        }
        for row in &self.effects {
            put(&mut image, row.mark);
        }
        for row in &self.types {
            put_signed(&mut image, row.id);
        }
        for row in &self.types {
            put_signed(&mut image, row.group);
            put_signed(&mut image, row.category);
            put(&mut image, row.flag);
            put(&mut image, row.volume);
        }
        for row in &self.links {
            put_signed(&mut image, row.type_id);
        }
        for row in &self.links {
            put_signed(&mut image, row.effect);
        }
        for row in &self.bases {
            put_signed(&mut image, row.type_id);
        }
        for row in &self.bases {
            put_signed(&mut image, row.attribute);
            put_value(&mut image, row.value);
        }
        self.damage.apply(&mut image);
        image
    }
}

impl Fit {
    /// Ship, character, then items.
    pub fn outcomes(&self) -> impl Iterator<Item = &Outcome> {
        [&self.ship, &self.character]
            .into_iter()
            .chain(&self.results)
    }

    /// How many attributes all results have together.
    pub fn attribute_total(&self) -> usize {
        self.outcomes()
            .map(|outcome| outcome.attributes.len())
            .sum()
    }

    /// The image: sizes, ship, skills, items, results, attributes.
    pub fn image(&self) -> Vec<u8> {
        let sizes = [
            self.skills.len(),
            self.items.len(),
            self.results.len(),
            self.attribute_total(),
        ];
        let mut image = Vec::new();
        for size in sizes {
            put(&mut image, size as u32);
        }
        put_signed(&mut image, self.ship_type);
        put(&mut image, self.mode_flag);
        put_signed(&mut image, self.mode);
        for skill in &self.skills {
            put_signed(&mut image, skill.id);
        }
        for skill in &self.skills {
            image.push(skill.level);
        }
        for item in &self.items {
            put_signed(&mut image, item.type_id);
            put(&mut image, item.quantity);
            image.extend([item.kind, item.zero]);
            image.extend(item.index.to_le_bytes());
        }
        for outcome in self.outcomes() {
            let count = outcome.count.unwrap_or(outcome.attributes.len() as u16);
            image.extend([outcome.state, outcome.zero]);
            image.extend(count.to_le_bytes());
        }
        for outcome in self.outcomes() {
            for (id, _) in &outcome.attributes {
                put_signed(&mut image, *id);
            }
        }
        for outcome in self.outcomes() {
            for (_, bits) in &outcome.attributes {
                image.extend(bits.to_le_bytes());
            }
        }
        self.damage.apply(&mut image);
        image
    }
}

/// A hall input: the number of fits, their lengths, the fits end to end.
pub fn hall_image(fits: &[Fit], frame: &Damage) -> Vec<u8> {
    let images: Vec<Vec<u8>> = fits.iter().map(Fit::image).collect();
    let mut input = Vec::new();
    put(&mut input, images.len() as u32);
    for image in &images {
        put(&mut input, image.len() as u32);
    }
    for image in &images {
        input.extend_from_slice(image);
    }
    frame.apply(&mut input);
    input
}

#[cfg(test)]
mod tests {
    use super::*;

    #[test]
    fn an_empty_catalogue_is_20_zero_bytes_and_an_empty_fit_36() {
        assert_eq!(Catalogue::default().image(), [0; 20]);
        assert_eq!(Fit::default().image(), [0; 36]);
    }

    #[test]
    fn lengths_are_document_01s() {
        let catalogue = Catalogue {
            names: vec![Name {
                number: 20,
                attribute: 352,
            }],
            effects: vec![Effect { id: 12, mark: 1 }; 2],
            types: vec![
                Type {
                    id: 1,
                    group: 2,
                    category: 3,
                    flag: 1,
                    volume: 4
                };
                3
            ],
            links: vec![
                Link {
                    type_id: 1,
                    effect: 12
                };
                4
            ],
            bases: vec![
                Base {
                    type_id: 1,
                    attribute: 2,
                    value: 3
                };
                5
            ],
            damage: Damage::default(),
        };
        assert_eq!(
            catalogue.image().len(),
            20 + 8 + 8 * 2 + 20 * 3 + 8 * 4 + 16 * 5
        );
        assert_eq!(
            catalogue.old_image().len(),
            20 + 8 + 8 * 2 + 20 * 3 + 8 * 4 + 12 * 5
        );

        let outcome = Outcome {
            attributes: vec![(1, 0), (2, 0)],
            ..Outcome::default()
        };
        let fit = Fit {
            skills: vec![Skill { id: 1, level: 2 }; 3],
            items: vec![Item::default(); 4],
            ship: outcome.clone(),
            results: vec![outcome; 5],
            ..Fit::default()
        };
        assert_eq!(fit.image().len(), 36 + 5 * 3 + 12 * 4 + 4 * 5 + 12 * 12);
    }

    #[test]
    fn a_block_has_all_keys_and_then_all_values() {
        let catalogue = Catalogue {
            types: vec![
                Type {
                    id: 1,
                    group: 2,
                    category: 3,
                    flag: 1,
                    volume: 5,
                },
                Type {
                    id: 6,
                    group: 7,
                    category: 8,
                    flag: 0,
                    volume: 9,
                },
            ],
            ..Catalogue::default()
        };
        let words: Vec<u32> = catalogue.image()[20..]
            .chunks_exact(4)
            .map(|bytes| u32::from_le_bytes([bytes[0], bytes[1], bytes[2], bytes[3]]))
            .collect();
        assert_eq!(words, [1, 6, 2, 3, 1, 5, 7, 8, 0, 9]);
    }

    #[test]
    fn a_base_value_is_an_f64_and_was_an_f32() {
        let catalogue = Catalogue {
            bases: vec![Base::single(7, 9, 1.5)],
            ..Catalogue::default()
        };
        let sizes = [0, 0, 0, 0, 0, 0, 0, 0, 0, 0, 0, 0, 0, 0, 0, 0, 1, 0, 0, 0];
        let ids = [7, 0, 0, 0, 9, 0, 0, 0];
        let new = [&sizes[..], &ids, &[0, 0, 0, 0, 0, 0, 0xF8, 0x3F]].concat();
        assert_eq!(catalogue.image(), new);
        let old = [&sizes[..], &ids, &[0, 0, 0xC0, 0x3F]].concat();
        assert_eq!(catalogue.old_image(), old);
    }
}
