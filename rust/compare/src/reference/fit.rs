//! Document 01's fit: decoded, refused by 4 to 6, handed to the original.

use std::collections::BTreeMap;

use original::{
    AttributeValue, Calculation, Character, Environment, FitItem, ItemResult, Projection, Ship,
    Slot, State,
};

use super::Refusal;
use super::words::Reader;

/// A decoded fit, as the original takes it.
pub struct Fit {
    pub fit: original::Fit,
    pub calculation: Calculation,
}

/// The fields as they stand, before anything but limits and lengths is judged.
struct Fields {
    ship_type: i32,
    mode_flag: u32,
    mode: i32,
    skill_ids: Vec<i32>,
    levels: Vec<u8>,
    items: Vec<ItemFields>,
    results: Vec<ResultFields>,
}

struct ItemFields {
    type_id: i32,
    quantity: u32,
    kind: u8,
    zero: u8,
    index: u16,
}

struct ResultFields {
    state: u8,
    zero: u8,
    attributes: Vec<(i32, f64)>,
}

impl Fit {
    /// What the image holds, or the first refusal of 4 to 6 that it deserves.
    pub fn decode(image: &[u8]) -> Result<Fit, Refusal> {
        let fields = Fields::laid_out(image).ok_or(4)?;
        if !fields.ids_ascend() {
            return Err(5);
        }
        fields.into_fit().ok_or(6)
    }

    /// Result 0 is the ship's, 1 the character's, 2 the first item's.
    pub fn result(&self, number: u32) -> Option<&ItemResult> {
        match number {
            0 => Some(&self.calculation.ship),
            1 => Some(&self.calculation.character),
            _ => self.calculation.items.get(number as usize - 2),
        }
    }

    /// The fit with some of its pairs alone, numbered anew; items and results that
    /// are in no pair fall away.
    pub fn part(&self, kept: &[bool]) -> Fit {
        let kept = self.pairs().zip(kept).filter(|(_, is_kept)| **is_kept);
        let (items, results) = kept
            .map(|((item, result), _)| (item.clone(), again(result)))
            .unzip();
        let of = &self.calculation;
        Fit {
            fit: original::Fit {
                items,
                ..self.fit.clone()
            },
            calculation: Calculation {
                ship: again(&of.ship),
                mode: None,
                items: results,
                character: again(&of.character),
                buffs: Vec::new(),
                outgoing: Projection::default(),
                violations: None,
            },
        }
    }
}

/// The same result once more.
fn again(result: &ItemResult) -> ItemResult {
    let value = |of: &AttributeValue| AttributeValue {
        base: of.base,
        value: of.value,
        sources: Vec::new(),
    };
    let attributes = result.attributes.iter();
    ItemResult {
        attributes: attributes.map(|(id, of)| (*id, value(of))).collect(),
        state: result.state,
        max_state: result.max_state,
        charge: None,
    }
}

impl Fields {
    /// The fields, where no limit is passed, the length is what the sizes make
    /// it and the counts add to A.
    fn laid_out(image: &[u8]) -> Option<Fields> {
        let mut reader = Reader::new(image);
        let [s, f, r, a] = [(); 4].map(|()| reader.u32());
        let [s, f, r, a] = [s?, f?, r?, a?].map(u64::from);
        if s > 1_024 || f > 256 || r > 256 || a > 30_000 {
            return None;
        }
        if 36 + 5 * s + 12 * f + 4 * r + 12 * a != image.len() as u64 {
            return None;
        }

        let ship_type = reader.i32()?;
        let mode_flag = reader.u32()?;
        let mode = reader.i32()?;
        let skill_ids = reader.many(s as usize, Reader::i32)?;
        let levels = reader.many(s as usize, Reader::u8)?;
        let items = reader.many(f as usize, |item| {
            Some(ItemFields {
                type_id: item.i32()?,
                quantity: item.u32()?,
                kind: item.u8()?,
                zero: item.u8()?,
                index: item.u16()?,
            })
        })?;
        let heads = reader.many(r as usize + 2, |result| {
            Some((result.u8()?, result.u8()?, result.u16()?))
        })?;
        if heads.iter().map(|head| u64::from(head.2)).sum::<u64>() != a {
            return None;
        }

        let mut ids = reader;
        let mut values = reader;
        values.take(4 * a as usize)?;
        let mut results = Vec::new();
        for (state, zero, count) in heads {
            let count = usize::from(count);
            let ids = ids.many(count, Reader::i32)?;
            let values = values.many(count, Reader::f64)?;
            results.push(ResultFields {
                state,
                zero,
                attributes: ids.into_iter().zip(values).collect(),
            });
        }
        Some(Fields {
            ship_type,
            mode_flag,
            mode,
            skill_ids,
            levels,
            items,
            results,
        })
    }

    fn ids_ascend(&self) -> bool {
        self.skill_ids.is_sorted_by(|a, b| a < b)
            && self
                .results
                .iter()
                .all(|result| result.attributes.is_sorted_by(|a, b| a.0 < b.0))
    }

    /// The original's structures, where every byte, index, state and mode
    /// field is as document 01 has it.
    fn into_fit(self) -> Option<Fit> {
        let mode = match (self.mode_flag, self.mode) {
            (0, 0) => None,
            (1, mode) => Some(mode),
            _ => return None,
        };
        let items: Option<Vec<FitItem>> = self.items.iter().map(ItemFields::item).collect();
        let results: Option<Vec<ItemResult>> =
            self.results.iter().map(ResultFields::result).collect();
        let mut results = results?.into_iter();
        let (ship, character) = (results.next()?, results.next()?);
        let skills: BTreeMap<i32, u8> = self.skill_ids.into_iter().zip(self.levels).collect();
        Some(Fit {
            fit: original::Fit {
                name: None,
                ship: Ship {
                    type_id: self.ship_type,
                    mode,
                },
                items: items?,
                character: Character {
                    skills,
                    security_status: 0.0,
                },
                environment: Environment::default(),
                incoming: Projection::default(),
            },
            calculation: Calculation {
                ship,
                mode: None,
                items: results.collect(),
                character,
                buffs: Vec::new(),
                outgoing: Projection::default(),
                violations: None,
            },
        })
    }
}

impl ItemFields {
    fn item(&self) -> Option<FitItem> {
        if self.zero != 0 {
            return None;
        }
        Some(FitItem {
            type_id: self.type_id,
            slot: self.slot()?,
            quantity: self.quantity,
            // The state asked for is not in the image and no rule reads it.
            state: State::Offline,
            charge: None,
            mutation: None,
            fighter_abilities: None,
            booster_side_effects: Default::default(),
            spool: None,
        })
    }

    fn slot(&self) -> Option<Slot> {
        let small = u8::try_from(self.index).ok();
        let none = |slot| (self.index == 0).then_some(slot);
        match self.kind {
            0 => small.map(Slot::High),
            1 => small.map(Slot::Medium),
            2 => small.map(Slot::Low),
            3 => small.map(Slot::Rig),
            4 => small.map(Slot::Subsystem),
            5 => small.map(Slot::Service),
            6 => small.map(Slot::FighterTube),
            7 => none(Slot::FighterBay),
            8 => small.map(Slot::Implant),
            9 => Some(Slot::Booster(self.index)),
            10 => none(Slot::DroneBay),
            11 => none(Slot::Cargo),
            _ => None,
        }
    }
}

impl ResultFields {
    fn result(&self) -> Option<ItemResult> {
        if self.zero != 0 {
            return None;
        }
        let state = match self.state {
            0 => State::Offline,
            1 => State::Online,
            2 => State::Active,
            3 => State::Overload,
            _ => return None,
        };
        let attributes = self
            .attributes
            .iter()
            .map(|(id, value)| {
                let value = AttributeValue {
                    base: *value,
                    value: *value,
                    sources: Vec::new(),
                };
                (*id, value)
            })
            .collect();
        Some(ItemResult {
            attributes,
            state,
            max_state: state,
            charge: None,
        })
    }
}
