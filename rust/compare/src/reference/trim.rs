//! Document 02's P1: the catalogue that one fit touches. It "keeps all names and
//! effects, the types that the fit names (ship, mode where its flag is 1, listed
//! skills, items), every skill wanted by any of its results, all links and bases
//! under those ids in their old order, and nothing else". What a result wants is
//! the original's to say; records are filtered one by one, as the bytes that they
//! are.

use std::collections::BTreeSet;

use super::words::Reader;
use super::{Catalogue, Fit, Refusal, page};
use crate::page::Limits;

/// The types that a fit names, whatever the catalogue has.
pub fn named(fit: &Fit) -> BTreeSet<i32> {
    let fit = &fit.fit;
    let mut ids = BTreeSet::from([fit.ship.type_id]);
    ids.extend(fit.ship.mode);
    ids.extend(fit.character.skills.keys());
    ids.extend(fit.items.iter().map(|item| item.type_id));
    ids
}

/// These, and the skills that its results want; or refusal 9.
pub fn touched(catalogue: &Catalogue, fit: &Fit) -> Result<BTreeSet<i32>, Refusal> {
    let mut ids = named(fit);
    for result in (0..).map_while(|number| fit.result(number)) {
        let wanted = fit.wanted_skills(catalogue, result);
        page::skills(wanted.len(), Limits::MAIN)?;
        ids.extend(wanted.into_iter().map(|skill| skill.0));
    }
    Ok(ids)
}

/// The trimmed catalogue, or the first refusal of 1 to 6 and 9.
pub fn trim(catalogue: &[u8], fit: &[u8]) -> Result<Vec<u8>, Refusal> {
    let decoded = Catalogue::decode(catalogue)?;
    let fit = Fit::decode(fit)?;
    Ok(trimmed(catalogue, &touched(&decoded, &fit)?))
}

/// What is left of a catalogue that is not refused, under some ids.
pub fn trimmed(catalogue: &[u8], ids: &BTreeSet<i32>) -> Vec<u8> {
    let blocks = Blocks::of(catalogue).expect("its length is judged");
    let kept = blocks.by_type.map(|mut block| {
        block.retain(|record| ids.contains(&record.type_id()));
        block
    });
    let mut image = blocks.front_sizes.to_vec();
    for block in &kept {
        image.extend((block.len() as u32).to_le_bytes());
    }
    image.extend(blocks.front);
    for block in &kept {
        image.extend(block.iter().flat_map(|record| record.key));
        image.extend(block.iter().flat_map(|record| record.value));
    }
    image
}

/// A record of a type, a link or a base, as it stands.
struct Record<'a> {
    key: &'a [u8],
    value: &'a [u8],
}

impl Record<'_> {
    fn type_id(&self) -> i32 {
        let key = self.key.try_into().expect("four bytes");
        i32::from_le_bytes(key)
    }
}

/// A catalogue taken apart.
struct Blocks<'a> {
    /// The sizes N and E, and the blocks of names and effects.
    front_sizes: &'a [u8],
    front: &'a [u8],
    /// The records of types, links and bases.
    by_type: [Vec<Record<'a>>; 3],
}

impl<'a> Blocks<'a> {
    fn of(image: &'a [u8]) -> Option<Blocks<'a>> {
        let mut reader = Reader::new(image);
        let front_sizes = Reader::new(image).take(8)?;
        let sizes = reader.many(5, Reader::u32)?;
        let [n, e, t, l, b] = [0, 1, 2, 3, 4].map(|block| sizes[block] as usize);
        Some(Blocks {
            front_sizes,
            front: reader.take(8 * n + 8 * e)?,
            by_type: [
                records(&mut reader, t, 16)?,
                records(&mut reader, l, 4)?,
                records(&mut reader, b, 12)?,
            ],
        })
    }
}

/// So many records: all keys, then all values of so many bytes.
fn records<'a>(reader: &mut Reader<'a>, count: usize, width: usize) -> Option<Vec<Record<'a>>> {
    let keys = reader.take(4 * count)?.chunks_exact(4);
    let values = reader.take(width * count)?.chunks_exact(width);
    let both = keys.zip(values);
    Some(both.map(|(key, value)| Record { key, value }).collect())
}

#[cfg(test)]
mod tests {
    use super::*;
    use crate::model::{Base, Link, Type};
    use crate::names::REQUIRED;
    use crate::sketch::{CARGO, CATEGORY_MODULE, HIGH, SHIP, Sketch, id};

    fn trimmed_of(sketch: &Sketch) -> Result<Vec<u8>, Refusal> {
        let Sketch { catalogue, fit } = sketch.clone().finish();
        trim(&catalogue.image(), &fit.image())
    }

    /// Item 5 wants skill 7, which wants skill 2; an item without a result is of
    /// type 6; types 3 and 8 and what stands under 4 are nobody's.
    fn sketch() -> Sketch {
        Sketch::hull()
            .known(3, 1, CATEGORY_MODULE)
            .known(6, 1, CATEGORY_MODULE)
            .known(8, 1, CATEGORY_MODULE)
            .mark(4, 1)
            .mark(6, 2)
            .link(7, 99)
            .base(4, REQUIRED, 3.0)
            .base(7, REQUIRED, 2.0)
            .base(2, REQUIRED + 1, 9.0)
            .item(5, HIGH, 0)
            .with(REQUIRED, 7.0)
            .with(REQUIRED + 1, 1.0)
            .unpaired(6, CARGO, 0)
    }

    #[test]
    fn what_the_fit_touches_is_kept() {
        let sketch = sketch().finish();
        let mut expected = sketch.catalogue.clone();
        expected.types.retain(|row| [6, SHIP].contains(&row.id));
        expected.links = vec![
            Link {
                type_id: 6,
                effect: 12,
            },
            Link {
                type_id: 7,
                effect: 99,
            },
        ];
        expected.bases = vec![
            Base::single(2, id(REQUIRED + 1), 9.0),
            Base::single(7, id(REQUIRED), 2.0),
        ];
        assert_eq!(trimmed_of(&sketch), Ok(expected.image()));
        assert_eq!(
            trim(&expected.image(), &sketch.fit.image()),
            Ok(expected.image())
        );
    }

    #[test]
    fn mode_0_is_an_id_under_flag_1_alone() {
        let with = |flag: u32| {
            let mut sketch = Sketch::hull().known(0, 9, 9).finish();
            sketch.fit.mode_flag = flag;
            let trimmed = trimmed_of(&sketch).unwrap();
            Catalogue::decode(&trimmed).unwrap().has_type(0)
        };
        assert!(!with(0));
        assert!(with(1));
    }

    /// A NaN's payload and bits under flag 0 are what no decoded number holds.
    #[test]
    fn bytes_are_copied() {
        let mut sketch = sketch();
        sketch.catalogue.types.retain(|row| row.id == SHIP);
        sketch.catalogue.types[0].volume = 0xDEAD_BEEF;
        sketch.catalogue.types.push(Type {
            id: 6,
            flag: 1,
            volume: 0xFFC0_1234,
            ..sketch.catalogue.types[0]
        });
        sketch.catalogue.links.retain(|row| row.type_id != 4);
        sketch.catalogue.bases.retain(|row| row.type_id != 4);
        // A level without a skill: nothing reads it.
        let last = sketch.catalogue.bases.last_mut();
        last.expect("skill 2's").value = 0x7FF0_0000_0000_0001;
        let sketch = sketch.finish();
        assert_eq!(trimmed_of(&sketch), Ok(sketch.catalogue.image()));
    }

    #[test]
    fn any_walk_over_512_is_9() {
        let walking = |length: i32| {
            let mut sketch = Sketch::hull()
                .result()
                .with(REQUIRED, 1.0)
                .name(REQUIRED + 1);
            for skill in 1..length {
                sketch = sketch.base(skill, REQUIRED, skill as f32 + 1.0);
            }
            trimmed_of(&sketch).map(|image| image.len())
        };
        assert!(walking(512).is_ok());
        assert_eq!(walking(513), Err(9));
    }
}
