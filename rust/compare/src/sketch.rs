//! Small cases by hand: a hull with nothing on it, and what is put on it.
//!
//! A name that is used gets into the catalogue by itself, at attribute id
//! 1000 + its number; rows are put in order when the sketch is finished.

use crate::case::{Ask, Case, Room};
use crate::model::{Base, Catalogue, Effect, Fit, Item, Link, Name, Outcome, Skill, Type};

/// The ship of every sketch: type 587, group 25, category 6.
pub const SHIP: i32 = 587;
pub const SHIP_GROUP: i32 = 25;

pub const CATEGORY_SHIP: i32 = 6;
pub const CATEGORY_MODULE: i32 = 7;
pub const CATEGORY_CHARGE: i32 = 8;
pub const CATEGORY_SKILL: i32 = 16;
pub const CATEGORY_DRONE: i32 = 18;
pub const CATEGORY_IMPLANT: i32 = 20;
pub const CATEGORY_SUBSYSTEM: i32 = 32;
pub const CATEGORY_STRUCTURE: i32 = 65;
pub const CATEGORY_STRUCTURE_MODULE: i32 = 66;
pub const CATEGORY_FIGHTER: i32 = 87;

pub const HIGH: u8 = 0;
pub const MEDIUM: u8 = 1;
pub const LOW: u8 = 2;
pub const RIG: u8 = 3;
pub const SUBSYSTEM: u8 = 4;
pub const SERVICE: u8 = 5;
pub const FIGHTER_TUBE: u8 = 6;
pub const FIGHTER_BAY: u8 = 7;
pub const IMPLANT: u8 = 8;
pub const BOOSTER: u8 = 9;
pub const DRONE_BAY: u8 = 10;
pub const CARGO: u8 = 11;

pub const OFFLINE: u8 = 0;
pub const ONLINE: u8 = 1;
pub const ACTIVE: u8 = 2;
pub const OVERLOAD: u8 = 3;

#[derive(Clone, Debug)]
pub struct Sketch {
    pub catalogue: Catalogue,
    pub fit: Fit,
}

/// The attribute id of a name in every sketch.
pub fn id(name: usize) -> i32 {
    1000 + name as i32
}

impl Sketch {
    /// A hull alone: its list is empty.
    pub fn hull() -> Sketch {
        Sketch::of(SHIP, SHIP_GROUP, CATEGORY_SHIP)
    }

    /// A ship of another group and category.
    pub fn of(ship: i32, group: i32, category: i32) -> Sketch {
        let sketch = Sketch {
            catalogue: Catalogue::default(),
            fit: Fit {
                ship_type: ship,
                ..Fit::default()
            },
        };
        sketch.known(ship, group, category)
    }

    /// Gives a name its id.
    pub fn name(mut self, name: usize) -> Sketch {
        let number = name as u32;
        if self.catalogue.names.iter().all(|row| row.number != number) {
            self.catalogue.names.push(Name {
                number,
                attribute: id(name),
            });
        }
        self
    }

    /// Takes a name's id away again; values under it stay.
    pub fn nameless(mut self, name: usize) -> Sketch {
        self.catalogue.names.retain(|row| row.number != name as u32);
        self
    }

    /// Puts a type into the catalogue, without volume.
    pub fn known(mut self, id: i32, group: i32, category: i32) -> Sketch {
        self.catalogue.types.push(Type {
            id,
            group,
            category,
            flag: 0,
            volume: 0,
        });
        self
    }

    /// Gives the last type a volume.
    pub fn volume(mut self, volume: f32) -> Sketch {
        let last = self.catalogue.types.last_mut().expect("a type");
        last.flag = 1;
        last.volume = volume.to_bits();
        self
    }

    /// Links a type to an effect of a mark; the effect's id is 10 + mark.
    pub fn mark(mut self, type_id: i32, mark: u32) -> Sketch {
        let effect = 10 + mark as i32;
        if self.catalogue.effects.iter().all(|row| row.id != effect) {
            self.catalogue.effects.push(Effect { id: effect, mark });
        }
        self.link(type_id, effect)
    }

    /// Links a type to an effect, known or not.
    pub fn link(mut self, type_id: i32, effect: i32) -> Sketch {
        self.catalogue.links.push(Link { type_id, effect });
        self
    }

    /// Gives a type a base value under a name.
    pub fn base(self, type_id: i32, name: usize, value: f32) -> Sketch {
        self.fine(type_id, name, f64::from(value))
    }

    /// A base value that may be finer than an f32.
    pub fn fine(mut self, type_id: i32, name: usize, value: f64) -> Sketch {
        self = self.name(name);
        self.catalogue.bases.push(Base {
            type_id,
            attribute: id(name),
            value: value.to_bits(),
        });
        self
    }

    /// Gives the ship's result a value under a name.
    pub fn ship(mut self, name: usize, value: f64) -> Sketch {
        self = self.name(name);
        self.fit.ship.attributes.push((id(name), value.to_bits()));
        self
    }

    /// Gives the character's result a value under a name.
    pub fn character(mut self, name: usize, value: f64) -> Sketch {
        self = self.name(name);
        let attributes = &mut self.fit.character.attributes;
        attributes.push((id(name), value.to_bits()));
        self
    }

    /// Lists a trained skill.
    pub fn skill(mut self, id: i32, level: u8) -> Sketch {
        self.fit.skills.push(Skill { id, level });
        self
    }

    /// Sets the mode.
    pub fn mode(mut self, mode: i32) -> Sketch {
        self.fit.mode_flag = 1;
        self.fit.mode = mode;
        self
    }

    /// An item of quantity 1 with an empty result, Offline.
    pub fn item(mut self, type_id: i32, kind: u8, index: u16) -> Sketch {
        self.fit.results.push(Outcome::default());
        self.unpaired(type_id, kind, index)
    }

    /// An item without a result of its own.
    pub fn unpaired(mut self, type_id: i32, kind: u8, index: u16) -> Sketch {
        self.fit.items.push(Item {
            type_id,
            quantity: 1,
            kind,
            zero: 0,
            index,
        });
        self
    }

    /// A result without an item.
    pub fn result(mut self) -> Sketch {
        self.fit.results.push(Outcome::default());
        self
    }

    /// Sets the last item's quantity.
    pub fn quantity(mut self, quantity: u32) -> Sketch {
        self.fit.items.last_mut().expect("an item").quantity = quantity;
        self
    }

    /// Sets the last result's state.
    pub fn state(mut self, state: u8) -> Sketch {
        self.fit.results.last_mut().expect("a result").state = state;
        self
    }

    /// Gives the last result a value under a name.
    pub fn with(mut self, name: usize, value: f64) -> Sketch {
        self = self.name(name);
        let last = self.fit.results.last_mut().expect("a result");
        last.attributes.push((id(name), value.to_bits()));
        self
    }

    /// Puts every row in the order that document 01 asks for.
    pub fn finish(mut self) -> Sketch {
        self.catalogue.names.sort_by_key(|row| row.number);
        self.catalogue.effects.sort_by_key(|row| row.id);
        self.catalogue.types.sort_by_key(|row| row.id);
        self.catalogue.links.sort_by_key(|row| row.type_id);
        self.catalogue.bases.sort_by_key(|row| row.type_id);
        self.fit.skills.sort_by_key(|skill| skill.id);
        self.fit.ship.attributes.sort_by_key(|row| row.0);
        self.fit.character.attributes.sort_by_key(|row| row.0);
        for result in &mut self.fit.results {
            result.attributes.sort_by_key(|row| row.0);
        }
        self
    }

    /// A case with these calls.
    pub fn case(self, title: &str, asks: &[Ask]) -> Case {
        let Sketch { catalogue, fit } = self.finish();
        Case {
            title: title.to_string(),
            catalogue,
            fits: vec![fit],
            asks: asks.to_vec(),
            ..Case::default()
        }
    }

    /// The list call with every kind of buffer.
    pub fn list(self, title: &str) -> Case {
        self.case(title, &ROOMS.map(Ask::List))
    }

    /// The skill call of one result with every kind of buffer.
    pub fn skills(self, title: &str, result: u32) -> Case {
        self.case(title, &ROOMS.map(|room| Ask::Skill(result, room)))
    }
}

/// Empty, one short, exact and longer.
pub const ROOMS: [Room; 4] = [Room::Empty, Room::OneShort, Room::Exact, Room::Longer(40)];
