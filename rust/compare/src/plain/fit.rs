//! The fit where it stands: refusals 4 to 6, then its fields in the image.

use super::bytes::{f64_at, i32_at, u16_at, u32_at};
use super::fault::Fault;
use super::{Flaw, Measure, Number, Rows};

pub const HIGH_TO_SERVICE: std::ops::RangeInclusive<u8> = 0..=5;
pub const RIG: u8 = 3;
pub const SUBSYSTEM: u8 = 4;
pub const SERVICE: u8 = 5;
pub const FIGHTER_TUBE: u8 = 6;
pub const FIGHTER_BAY: u8 = 7;
pub const IMPLANT: u8 = 8;
pub const BOOSTER: u8 = 9;
pub const DRONE_BAY: u8 = 10;
pub const CARGO: u8 = 11;

/// A fit that is not refused by its image.
pub struct Fit<'a> {
    image: &'a [u8],
    skills: usize,
    items: usize,
    results: usize,
    attributes: usize,
    /// Where each result's attributes begin, and the end of the last.
    starts: Vec<usize>,
}

/// An item's fields.
#[derive(Clone, Copy)]
pub struct Item {
    pub type_id: i32,
    pub quantity: u32,
    pub kind: u8,
    pub zero: u8,
    pub index: u16,
}

impl<'a> Fit<'a> {
    pub fn open(image: &'a [u8], flaw: Flaw) -> Result<Fit<'a>, u8> {
        if flaw.has(Fault::AllRefused)
            || image.len() < 36
            || flaw.refuses(Measure::FitBytes, image.len())
        {
            return Err(4);
        }
        let mut fit = Fit::sized(image);
        if !fit.is_within_limits(flaw) || !fit.length_is_right(flaw) || !fit.add_counts(flaw) {
            return Err(4);
        }
        if flaw.has(Fault::RangeBeforeIds) && !fit.fields_are_right(flaw) {
            return Err(6);
        }
        if !fit.ids_ascend(flaw) {
            return Err(5);
        }
        if !fit.fields_are_right(flaw) {
            return Err(6);
        }
        Ok(fit)
    }

    /// A fit that is not refused by 4; its ids and fields are not judged.
    pub fn unjudged(image: &'a [u8], flaw: Flaw) -> Fit<'a> {
        let mut fit = Fit::sized(image);
        fit.add_counts(flaw);
        fit
    }

    /// The sizes, before anything is judged.
    fn sized(image: &'a [u8]) -> Fit<'a> {
        let size = |number: usize| u32_at(image, 4 * number) as usize;
        Fit {
            image,
            skills: size(0),
            items: size(1),
            results: size(2),
            attributes: size(3),
            starts: Vec::new(),
        }
    }

    fn is_within_limits(&self, flaw: Flaw) -> bool {
        let limit = |limit: usize, more: Fault, less: Fault| match () {
            () if flaw.has(more) => limit + 1,
            () if flaw.has(less) => limit - 1,
            () => limit,
        };
        self.skills <= limit(1_024, Fault::Skills1025, Fault::Skills1024Refused)
            && self.items <= limit(256, Fault::Items257, Fault::Items256Refused)
            && self.results <= limit(256, Fault::Results257, Fault::Results256Refused)
            && self.attributes
                <= limit(
                    30_000,
                    Fault::Attributes30001,
                    Fault::Attributes30000Refused,
                )
    }

    fn length_is_right(&self, flaw: Flaw) -> bool {
        let expected =
            36 + 5 * self.skills + 12 * self.items + 4 * self.results + 12 * self.attributes;
        self.image.len() == expected
            || (self.image.len() > expected && flaw.has(Fault::FitMayBeLonger))
    }

    /// Notes where each result's attributes begin; whether the counts add to A.
    fn add_counts(&mut self, flaw: Flaw) -> bool {
        let mut total = 0;
        for result in 0..self.results + 2 {
            self.starts.push(total);
            total += usize::from(u16_at(self.image, self.head(result) + 2));
        }
        self.starts.push(total);
        total == self.attributes
            || (total < self.attributes && flaw.has(Fault::CountsMayFallShort))
            || (total % 65_536 == self.attributes && flaw.has(Fault::CountsWrap))
    }

    fn ids_ascend(&self, flaw: Flaw) -> bool {
        let ascends = |a: i32, b: i32, may_repeat: Fault| a < b || (a == b && flaw.has(may_repeat));
        let skills = (1..self.skills).all(|number| {
            let (a, b) = (self.skill_id(number - 1), self.skill_id(number));
            match flaw.has(Fault::SkillsUnsigned) {
                true => (a as u32) < b as u32,
                false => ascends(a, b, Fault::SkillsMayRepeat),
            }
        });
        let first_of_result = |at: usize| self.starts.binary_search(&at).is_ok();
        let attributes = flaw.has(Fault::AttributesUnordered)
            || (1..self.attributes).all(|at| {
                (first_of_result(at) && !flaw.has(Fault::AttributesAcross))
                    || ascends(
                        self.attribute_id(at - 1),
                        self.attribute_id(at),
                        Fault::AttributesMayRepeat,
                    )
            });
        skills && attributes
    }

    fn fields_are_right(&self, flaw: Flaw) -> bool {
        let pairs = self.pairs();
        let items = match flaw.has(Fault::UnpairedItemsIgnored) {
            true => pairs,
            false => self.items,
        };
        let results = match flaw.has(Fault::UnpairedResultsIgnored) {
            true => pairs + 2,
            false => self.results + 2,
        };
        let flag = self.mode_flag();
        let mode_is_right = match flag {
            0 => self.mode() == 0 || flaw.has(Fault::ModeUnderFlag0),
            1 => !flaw.has(Fault::ModeFlag1Refused),
            _ => flag == 2 && flaw.has(Fault::ModeFlag2),
        };
        mode_is_right
            && (0..items).all(|number| item_is_right(self.item(number), flaw))
            && (0..results).all(|number| self.result_is_right(number, flaw))
    }

    fn result_is_right(&self, number: usize, flaw: Flaw) -> bool {
        let last_state = match () {
            () if flaw.has(Fault::State4) => 4,
            () if flaw.has(Fault::State3Refused) => 2,
            () => 3,
        };
        let state_is_right =
            self.state(number) <= last_state || (number < 2 && flaw.has(Fault::ShipStateIgnored));
        let zero = self.image[self.head(number) + 1];
        state_is_right && (zero == 0 || flaw.has(Fault::ResultZeroIgnored))
    }

    /// How many items have a result.
    pub fn pairs(&self) -> usize {
        self.items.min(self.results)
    }

    pub fn items(&self) -> usize {
        self.items
    }

    pub fn results(&self) -> usize {
        self.results
    }

    pub fn skills(&self) -> usize {
        self.skills
    }

    pub fn image(&self) -> &'a [u8] {
        self.image
    }

    pub fn ship_type(&self) -> i32 {
        i32_at(self.image, 16)
    }

    pub fn mode_flag(&self) -> u32 {
        u32_at(self.image, 20)
    }

    pub fn mode(&self) -> i32 {
        i32_at(self.image, 24)
    }

    pub fn skill_id(&self, number: usize) -> i32 {
        i32_at(self.image, 28 + 4 * number)
    }

    /// The trained level of the skill of a number.
    pub fn level(&self, number: usize) -> u8 {
        self.image[28 + 4 * self.skills + number]
    }

    /// The trained level of a skill that is listed.
    pub fn trained(&self, id: i32, flaw: Flaw) -> Option<u8> {
        if id < 0 && flaw.has(Fault::TrainedNegativeLost) {
            return None;
        }
        let id = flaw.id(Number::TrainedId, id);
        (0..flaw.rows(Rows::Trained, self.skills))
            .find(|number| self.skill_id(*number) == id)
            .map(|number| self.level(number))
    }

    pub fn item(&self, number: usize) -> Item {
        let at = 28 + 5 * self.skills + 12 * number;
        Item {
            type_id: i32_at(self.image, at),
            quantity: u32_at(self.image, at + 4),
            kind: self.image[at + 8],
            zero: self.image[at + 9],
            index: u16_at(self.image, at + 10),
        }
    }

    fn head(&self, result: usize) -> usize {
        28 + 5 * self.skills + 12 * self.items + 4 * result
    }

    fn attribute_id(&self, at: usize) -> i32 {
        i32_at(self.image, self.head(self.results + 2) + 4 * at)
    }

    pub fn state(&self, result: usize) -> u8 {
        self.image[self.head(result)]
    }

    /// What an attribute of a result reached: 0 ship, 1 character, 2 first item.
    pub fn value(&self, result: usize, attribute: i32, flaw: Flaw) -> Option<f64> {
        if attribute < 0 && flaw.has(Fault::AttributesNegativeLost) {
            return None;
        }
        let attribute = flaw.id(Number::AttributeId, attribute);
        let (start, end) = (self.starts[result], self.starts[result + 1]);
        let end = start + flaw.rows(Rows::Attributes, end - start);
        let end = flaw.rows(Rows::AllAttributes, end).max(start);
        let values = self.head(self.results + 2) + 4 * self.attributes;
        let first = self.head(self.results + 2);
        let mut ids = self.image[first + 4 * start..first + 4 * end].chunks_exact(4);
        ids.position(|id| id == attribute.to_le_bytes()).map(|row| {
            let at = start + flaw.number(Number::AttributeRow, row);
            let place = flaw.number(Number::FitPlace, values + 8 * at);
            f64_at(self.image, place)
        })
    }
}

fn item_is_right(item: Item, flaw: Flaw) -> bool {
    let last_small = match () {
        () if flaw.has(Fault::Index256) => 256,
        () if flaw.has(Fault::Index255Refused) => 254,
        () => 255,
    };
    let index_is_right = match item.kind {
        FIGHTER_TUBE if flaw.has(Fault::TubeIndexRefused) => item.index == 0,
        FIGHTER_BAY | DRONE_BAY => item.index == 0 || flaw.has(Fault::BayIndexIgnored),
        CARGO if flaw.has(Fault::Kind11Refused) => false,
        CARGO => item.index == 0 || flaw.has(Fault::CargoIndexIgnored),
        BOOSTER => item.index <= 255 || !flaw.has(Fault::BoosterIndex255),
        0..=11 => item.index <= last_small,
        kind => kind == 12 && flaw.has(Fault::Kind12),
    };
    index_is_right && (item.zero == 0 || flaw.has(Fault::ItemZeroIgnored))
}
