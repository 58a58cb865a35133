//! A case: one catalogue, one or more fits, and the calls made on them.

use std::fmt;

use crate::model::{Catalogue, Damage, Fit, Item, Outcome, Skill};
use crate::page::Limits;
use crate::profile::League;
use crate::reader::Reader;

#[derive(Clone, Debug, Default)]
pub struct Case {
    /// Where it comes from, in a few words.
    pub title: String,
    pub catalogue: Catalogue,
    /// The hall call takes all; the others take the first.
    pub fits: Vec<Fit>,
    /// What is done to the hall input's own bytes.
    pub frame: Damage,
    /// What every list call brings beside its images; the others bring nothing.
    pub league: League,
    /// What every list and skill call brings, but for those on the grown fit.
    pub limits: Limits,
    /// Who the list and skill calls are for. They are made for the readers that
    /// there are besides, too.
    pub reader: Reader,
    /// The skills that another pilot has listed, for a fit that is the first one
    /// but for these.
    pub training: Vec<Skill>,
    /// What the first fit grows by, for the comparison of two fits.
    pub growth: Growth,
    /// The cargo that is put behind the first fit; no level falls.
    pub haul: Growth,
    pub asks: Vec<Ask>,
    /// The refusals that were planted: every call must give the first of them
    /// in document 01's order.
    pub planted: Vec<Plant>,
}

/// A refusal planted on purpose, and how.
#[derive(Clone, Copy, Debug, PartialEq, Eq, PartialOrd, Ord)]
pub struct Plant {
    pub cause: Cause,
    pub how: &'static str,
}

/// One call.
#[derive(Clone, Copy, Debug, PartialEq)]
pub enum Ask {
    List(Room),
    Skill(u32, Room),
    Hall,
    /// The lists of the first fit and of the grown one, held against each other.
    GrownList,
    /// The same for the skills of one old result.
    GrownSkill(u32),
    /// The lists of the first fit and of the hauled one: nothing but the hold
    /// may differ.
    HauledList,
    /// The skills of one old result in both, which are the same.
    HauledSkill(u32),
    /// The catalogue's old form, widened.
    Widen(Room),
    /// The list under the widened catalogue, beside the one under the old.
    WidenedList,
    /// The same for the skills of one result.
    WidenedSkill(u32),
    /// The lists of the first fit and of the one with other training, for a
    /// guest: they are the same.
    RetrainedList(Room),
    /// The skill calls of one result in both, for a guest.
    RetrainedSkill(u32, Room),
    /// The first fit trained for one result.
    Train(u32, Steps, Room),
    /// The skills of the result after so many steps and after one more: what is
    /// promised of them.
    Trained(u32, Steps),
    /// The catalogue trimmed to what the first fit touches.
    Trim(Room),
    /// The lists and skills of the first fit under the trimmed catalogue beside
    /// those under the whole one, and the trimmed one trimmed again.
    Trimmed,
    /// The pairs of the first fit that make an entry of its list.
    Cause(Position, Room),
    /// What is promised of them: without any one or more of them the entry is gone.
    Caused(Position),
    /// The pairs of the first fit to take off, found within so many tries.
    LeaveOut(u32, Room),
    /// What is promised of them, with each budget that matters.
    LeftOut,
}

/// Which entry of a list.
#[derive(Clone, Copy, Debug, PartialEq, Eq, PartialOrd, Ord)]
pub enum Position {
    /// The one at so many, from 0.
    Of(u32),
    /// The last one; position 0 where there is none.
    Last,
    /// None: directly behind the last one.
    Behind,
}

impl Position {
    /// The number in a list of so many entries.
    pub fn number(self, entries: usize) -> u32 {
        match self {
            Position::Of(number) => number,
            Position::Last => entries.saturating_sub(1) as u32,
            Position::Behind => entries as u32,
        }
    }
}

/// How many steps a training makes.
#[derive(Clone, Copy, Debug, PartialEq, Eq, PartialOrd, Ord)]
pub enum Steps {
    /// So many, whatever is lacking.
    Of(u32),
    /// One less than the result lacks levels; none where it lacks none.
    OneLess,
    /// As many as it lacks levels.
    All,
    OneMore,
}

impl Steps {
    /// The number for a result that lacks so many levels.
    pub fn number(self, missing: u32) -> u32 {
        match self {
            Steps::Of(number) => number,
            Steps::OneLess => missing.saturating_sub(1),
            Steps::All => missing,
            Steps::OneMore => missing + 1,
        }
    }
}

/// A list call, or the skill call of a result, with the buffer that it is lent.
#[derive(Clone, Copy, Debug, PartialEq)]
pub struct Lists {
    pub reader: Reader,
    pub result: Option<u32>,
    pub room: Room,
    pub limits: Limits,
}

/// How long a buffer is lent.
#[derive(Clone, Copy, Debug, PartialEq, Eq, PartialOrd, Ord)]
pub enum Room {
    Empty,
    /// One byte less than what is written takes.
    OneShort,
    Exact,
    /// So many bytes more than what is written takes.
    Longer(usize),
    /// So many bytes, whatever is written.
    Of(usize),
}

impl Room {
    /// The length for so many bytes that are written.
    pub fn length(self, written: usize) -> usize {
        match self {
            Room::Empty => 0,
            Room::OneShort => written.saturating_sub(1),
            Room::Exact => written,
            Room::Longer(more) => written + more,
            Room::Of(length) => length,
        }
    }
}

/// Items and results put behind a fit's own, and levels lowered.
#[derive(Clone, Debug, Default, PartialEq)]
pub struct Growth {
    pub items: Vec<Item>,
    pub results: Vec<Outcome>,
    /// How far each trained level falls; skills beyond the end keep theirs.
    pub lowered: Vec<u8>,
    /// What the calls on the grown fit bring, which may be unlike the others.
    pub limits: Limits,
}

impl Growth {
    /// The grown fit.
    pub fn of(&self, old: &Fit) -> Fit {
        let mut new = old.clone();
        new.items.extend_from_slice(&self.items);
        new.results.extend_from_slice(&self.results);
        for (skill, fall) in new.skills.iter_mut().zip(&self.lowered) {
            skill.level = skill.level.saturating_sub(*fall);
        }
        new
    }
}

/// The refusals that a call may give, in their order. 7 is given by none; 13
/// stands where its first cause does.
pub const REFUSALS: [u8; 17] = [19, 20, 1, 2, 3, 4, 5, 6, 13, 11, 12, 8, 9, 16, 14, 15, 10];

/// Why a call is refused. 13 has two causes, each in a place of its own.
#[derive(Clone, Copy, Debug, PartialEq, Eq, PartialOrd, Ord)]
pub enum Cause {
    /// What document 01 or 02 says of a number.
    Number(u8),
    /// More pairs than the limit: 13, directly after 6.
    Pairs,
    /// More wanted skills than the limit: 13, in the place of 9.
    Skills,
}

/// The causes in their order. Over 512 wanted skills are 9, whatever the limit.
pub const CAUSES: [Cause; 18] = [
    Cause::Number(19),
    Cause::Number(20),
    Cause::Number(1),
    Cause::Number(2),
    Cause::Number(3),
    Cause::Number(4),
    Cause::Number(5),
    Cause::Number(6),
    Cause::Pairs,
    Cause::Number(11),
    Cause::Number(12),
    Cause::Number(8),
    Cause::Number(9),
    Cause::Skills,
    Cause::Number(16),
    Cause::Number(14),
    Cause::Number(15),
    Cause::Number(10),
];

impl Cause {
    /// The refusal that is given.
    pub fn number(self) -> u8 {
        match self {
            Cause::Number(number) => number,
            Cause::Pairs | Cause::Skills => 13,
        }
    }

    /// Where it stands in the order.
    pub fn rank(self) -> usize {
        let place = CAUSES.iter().position(|cause| *cause == self);
        place.expect("a refusal that a call may give")
    }
}

impl fmt::Display for Cause {
    fn fmt(&self, out: &mut fmt::Formatter) -> fmt::Result {
        match self {
            Cause::Number(number) => write!(out, "{number}"),
            Cause::Pairs => out.write_str("13 for pairs"),
            Cause::Skills => out.write_str("13 for skills"),
        }
    }
}

impl Case {
    /// The first fit with the other pilot's training in the place of its own.
    pub fn retrained(&self) -> Fit {
        Fit {
            skills: self.training.clone(),
            ..self.fits[0].clone()
        }
    }

    /// The refusal that every call of this case must give that is for its own
    /// reader, if one is planted.
    pub fn expected_refusal(&self) -> Option<u8> {
        let causes = self.planted.iter().map(|plant| plant.cause);
        let first = causes.min_by_key(|cause| cause.rank());
        first.map(Cause::number)
    }
}

#[cfg(test)]
mod tests {
    use super::*;

    #[test]
    fn the_causes_give_the_refusals_in_their_order() {
        let mut numbers = CAUSES.map(Cause::number).to_vec();
        assert_eq!(numbers.remove(Cause::Skills.rank()), 13);
        assert_eq!(numbers, REFUSALS);
    }

    #[test]
    fn room_follows_what_is_written() {
        assert_eq!(Room::Empty.length(48), 0);
        assert_eq!(Room::OneShort.length(48), 47);
        assert_eq!(Room::Exact.length(48), 48);
        assert_eq!(Room::Longer(5).length(48), 53);
        assert_eq!(Room::Of(65_536).length(48), 65_536);
        assert_eq!(Room::OneShort.length(0), 0);
    }

    #[test]
    fn positions_follow_the_list() {
        assert_eq!(Position::Of(9).number(4), 9);
        assert_eq!(Position::Last.number(4), 3);
        assert_eq!(Position::Behind.number(4), 4);
        assert_eq!(Position::Last.number(0), 0);
    }

    #[test]
    fn steps_follow_what_is_missing() {
        assert_eq!(Steps::Of(9).number(4), 9);
        assert_eq!(Steps::OneLess.number(4), 3);
        assert_eq!(Steps::All.number(4), 4);
        assert_eq!(Steps::OneMore.number(4), 5);
        assert_eq!(Steps::OneLess.number(0), 0);
    }
}
