//! What there is to meet, and its name in words.

use std::fmt;

use super::cause::CauseEdge;
use super::edge::{CapitalEdge, Edge, Hangar, Shape, Spot};
use super::haul::HaulEdge;
use super::league::LeagueEdge;
use super::leave_out::LeaveEdge;
use super::page::PageEdge;
use super::reader::ReaderEdge;
use super::size::{
    AMOUNTS, Block, Counting, HELD, Holder, IdOf, LARGEST_HALL, LIST_BUFFERS, LONGEST_LIST, Part,
    Place, RESULTS, Region, SKILL_BUFFERS, UNREAD,
};
use super::train::TrainEdge;
use super::trim::TrimEdge;
use super::unknown::UnknownEdge;
use super::widened::{Class, Fine, WidenRoom};
use crate::case::{Cause, Lists, Plant, Room};
use crate::generate::plant;
use crate::names::NAMES;
use crate::numbers::Width;
use crate::reference::{Fate, More};
use crate::words::{KINDS, LIMITS, RACKS, RESOURCES, RULES, STATES};

#[derive(Clone, Copy, Debug, PartialEq, Eq, PartialOrd, Ord)]
pub enum Point {
    Rule(u8),
    Resource(u8),
    Slots(u8),
    WrongSlot(u8),
    Limit(u8),
    Kind(u8),
    /// The highest index that a kind of slot takes.
    HighestIndex(u8),
    State(u8),
    Refusal(Call, u8),
    Planted(Plant),
    Pair(Cause, Cause),
    Room(Call, RoomKind),
    HallFits(u32),
    HallFit(Fate),
    /// A fit with an empty list and unequal numbers, and what else the hall has.
    HallUnread(More, Beside),
    Wanted(u32),
    /// So many of what a fit holds, in an answered call.
    Held(Part, u32),
    /// Skills, items, results and attributes all at their limit.
    AllFull,
    /// A call over a catalogue of full size.
    FullSize(Call),
    /// A catalogue that is nearly all of one block, as long as it may be.
    Most(Block),
    CatalogueLength(u32),
    /// A list of more than so many entries.
    ListOver(u32),
    LongestList,
    /// 512 entries of skills.
    AllSkills,
    /// A buffer of so many bytes.
    Buffer(Call, u32),
    /// An attribute that the call reads, in a result of 30,000.
    Named(Call, Holder, Place),
    /// An id that is found in a catalogue of full size, or is asked of one.
    Id(IdOf, Region),
    /// A result number that is refused.
    ResultNumber(u32),
    /// 256 pairs beside the amount of a number.
    Amount(Counting, u8),
    /// A hall input of so many bytes, answered.
    HallInput(u32),
    Cast(Width, Spot),
    Over(Edge),
    Hangar(Hangar),
    /// A fit of a hall whose launched drones 32 bits do not hold.
    HallHangar(Fate),
    Volume(CapitalEdge),
    NameMissing(u8),
    Shape(Shape),
    Grown(Call),
    GrownRule(u8),
    /// A base value of a class that is widened.
    Widened(Class),
    /// A refusal by the widening where another is deserved too.
    WidenPair(Cause, Cause),
    /// So many bytes lent for so many of the old and the new form.
    WidenRoom(WidenRoom),
    /// A widened catalogue of more than 16,777,216 bytes.
    WidenedLong,
    /// A call under a widened catalogue, beside the old one.
    Under(Call),
    /// A skill call over base values finer than an f32.
    Fine(Fine),
    /// What a list call brings, and what becomes of it.
    League(LeagueEdge),
    /// Types that the catalogue lacks, and present ones that look alike.
    Unknown(UnknownEdge),
    /// What the limits of a call are beside its fit.
    Page(PageEdge),
    /// Who a call is for, and what comes of that.
    Reader(ReaderEdge),
    /// Cargo behind a fit, and what becomes of the hold.
    Haul(HaulEdge),
    /// A refusal by the training where another is deserved too.
    TrainPair(Cause, Cause),
    /// What a training meets.
    Train(TrainEdge),
    /// A refusal by the trim where another is deserved too.
    TrimPair(Cause, Cause),
    /// What a trim meets.
    Trim(TrimEdge),
    /// A refusal by the cause where another is deserved too.
    CausePair(Cause, Cause),
    /// What a cause meets.
    Cause(CauseEdge),
    /// A refusal by leaving out where another is deserved too.
    LeavePair(Cause, Cause),
    /// What leaving out meets.
    Leave(LeaveEdge),
}

#[derive(Clone, Copy, Debug, PartialEq, Eq, PartialOrd, Ord)]
pub enum Call {
    List,
    Skill,
    Hall,
    Widen,
    Train,
    Trim,
    Cause,
    LeaveOut,
}

impl Call {
    pub fn of(lists: Lists) -> Call {
        match lists.result {
            None => Call::List,
            Some(_) => Call::Skill,
        }
    }
}

/// What stands in a hall beside a fit.
#[derive(Clone, Copy, Debug, PartialEq, Eq, PartialOrd, Ord)]
pub enum Beside {
    Nothing,
    /// A clear fit, one with entries, and a refused one.
    AllKinds,
}

impl Beside {
    /// Of a fit among these.
    pub fn of(fates: &[Fate]) -> Option<Beside> {
        let has = |kind: fn(&Fate) -> bool| fates.iter().any(kind);
        match fates {
            [_] => Some(Beside::Nothing),
            _ if has(|fate| *fate == Fate::Clear)
                && has(|fate| matches!(fate, Fate::Faulted(_)))
                && has(|fate| matches!(fate, Fate::Refused(_))) =>
            {
                Some(Beside::AllKinds)
            }
            _ => None,
        }
    }

    fn words(self) -> &'static str {
        match self {
            Beside::Nothing => "alone",
            Beside::AllKinds => "among clear, faulted and refused ones",
        }
    }
}

#[derive(Clone, Copy, Debug, PartialEq, Eq, PartialOrd, Ord)]
pub enum RoomKind {
    Empty,
    OneShort,
    Exact,
    Longer,
}

impl RoomKind {
    /// The kind of a room, where it does not depend on the entries.
    pub fn of(room: Room) -> Option<RoomKind> {
        match room {
            Room::Empty => Some(RoomKind::Empty),
            Room::OneShort => Some(RoomKind::OneShort),
            Room::Exact | Room::Longer(0) => Some(RoomKind::Exact),
            Room::Longer(_) => Some(RoomKind::Longer),
            Room::Of(_) => None,
        }
    }

    fn words(self) -> &'static str {
        match self {
            RoomKind::Empty => "empty buffer",
            RoomKind::OneShort => "buffer one byte short",
            RoomKind::Exact => "buffer of the exact length",
            RoomKind::Longer => "longer buffer",
        }
    }
}

/// Everything that a run has to meet.
pub fn required() -> Vec<Point> {
    let mut points = Vec::new();
    points.extend((1..=21).chain(24..=26).map(Point::Rule));
    points.extend((0..=11).map(Point::Resource));
    points.extend((0..8).map(Point::Slots));
    points.extend((0..6).map(Point::WrongSlot));
    points.extend((0..3).map(Point::Limit));
    points.extend((0..12).map(Point::Kind));
    points.extend([0, 1, 2, 3, 4, 5, 6, 8, 9].map(Point::HighestIndex));
    points.extend((0..4).map(Point::State));
    let of_lists = [19, 1, 2, 3, 4, 5, 6, 13, 11, 12, 10];
    points.extend(of_lists.map(|refusal| Point::Refusal(Call::List, refusal)));
    let of_skills = [19, 20, 1, 2, 3, 4, 5, 6, 13, 8, 9, 10];
    points.extend(of_skills.map(|refusal| Point::Refusal(Call::Skill, refusal)));
    points.extend([1, 2, 3, 4].map(|refusal| Point::Refusal(Call::Hall, refusal)));
    points.extend([1, 2, 3, 10].map(|refusal| Point::Refusal(Call::Widen, refusal)));
    let of_training = [1, 2, 3, 4, 5, 6, 8, 9, 16, 10];
    points.extend(of_training.map(|refusal| Point::Refusal(Call::Train, refusal)));
    let of_trims = [1, 2, 3, 4, 5, 6, 9, 10];
    points.extend(of_trims.map(|refusal| Point::Refusal(Call::Trim, refusal)));
    let of_causes = [1, 2, 3, 4, 5, 6, 14, 15, 10];
    points.extend(of_causes.map(|refusal| Point::Refusal(Call::Cause, refusal)));
    let of_leaving = [1, 2, 3, 4, 5, 6, 10];
    points.extend(of_leaving.map(|refusal| Point::Refusal(Call::LeaveOut, refusal)));
    let plants = plant::plants().into_iter();
    points.extend(plants.map(|(cause, how, _)| Point::Planted(Plant { cause, how })));
    points.extend(plant::pairs().into_iter().map(|(a, b)| Point::Pair(a, b)));
    let lent = [
        Call::List,
        Call::Skill,
        Call::Widen,
        Call::Train,
        Call::Trim,
        Call::Cause,
        Call::LeaveOut,
    ];
    for call in lent {
        let rooms = [
            RoomKind::Empty,
            RoomKind::OneShort,
            RoomKind::Exact,
            RoomKind::Longer,
        ];
        points.extend(rooms.map(|room| Point::Room(call, room)));
    }
    points.extend([0, 1, 63, 64, 65].map(Point::HallFits));
    points.push(Point::HallFit(Fate::Clear));
    let faulted = [None, Some(More::Items), Some(More::Results)];
    points.extend(faulted.map(|more| Point::HallFit(Fate::Faulted(more))));
    points.extend(UNREAD.map(|(items, results)| Point::HallFit(Fate::Unread { items, results })));
    for more in [More::Items, More::Results] {
        let beside = [Beside::Nothing, Beside::AllKinds];
        points.extend(beside.map(|beside| Point::HallUnread(more, beside)));
    }
    points.extend((4..=6).map(|refusal| Point::HallFit(Fate::Refused(refusal))));
    points.extend([Fate::Clear, Fate::Faulted(None)].map(Point::HallHangar));
    points.extend((510..=514).map(Point::Wanted));
    points.extend(sizes());
    for width in Width::ALL {
        points.extend(Spot::ALL.map(|spot| Point::Cast(width, spot)));
    }
    points.extend(Edge::ALL.map(Point::Over));
    points.extend(Hangar::ALL.map(Point::Hangar));
    let volumes = [
        CapitalEdge::At,
        CapitalEdge::StepOver,
        CapitalEdge::HalfOver,
    ];
    points.extend(volumes.map(Point::Volume));
    points.extend((0..NAMES.len() as u8).map(Point::NameMissing));
    points.extend(Shape::ALL.map(Point::Shape));
    points.extend([Call::List, Call::Skill].map(Point::Grown));
    points.extend((1..=21).chain(24..=26).map(Point::GrownRule));
    points.extend(Class::ALL.map(Point::Widened));
    let pairs = plant::widening_pairs().into_iter();
    points.extend(pairs.map(|(first, second)| Point::WidenPair(first, second)));
    points.extend(WidenRoom::ALL.map(Point::WidenRoom));
    points.push(Point::WidenedLong);
    points.extend([Call::List, Call::Skill].map(Point::Under));
    points.extend(Fine::ALL.map(Point::Fine));
    points.extend(LeagueEdge::all().into_iter().map(Point::League));
    points.extend(UnknownEdge::all().into_iter().map(Point::Unknown));
    points.extend(PageEdge::all().into_iter().map(Point::Page));
    points.extend(ReaderEdge::all().into_iter().map(Point::Reader));
    points.extend(HaulEdge::all().into_iter().map(Point::Haul));
    let pairs = plant::training_pairs().into_iter();
    points.extend(pairs.map(|(first, second)| Point::TrainPair(first, second)));
    points.extend(TrainEdge::all().into_iter().map(Point::Train));
    let pairs = plant::trimming_pairs().into_iter();
    points.extend(pairs.map(|(first, second)| Point::TrimPair(first, second)));
    points.extend(TrimEdge::all().into_iter().map(Point::Trim));
    let pairs = plant::causing_pairs().into_iter();
    points.extend(pairs.map(|(first, second)| Point::CausePair(first, second)));
    points.extend(CauseEdge::all().into_iter().map(Point::Cause));
    let pairs = plant::leaving_out_pairs().into_iter();
    points.extend(pairs.map(|(first, second)| Point::LeavePair(first, second)));
    points.extend(LeaveEdge::all().into_iter().map(Point::Leave));
    points
}

/// The sizes, places and ids among them.
fn sizes() -> Vec<Point> {
    let mut points = vec![Point::AllFull];
    points.extend(HELD.map(|(part, count)| Point::Held(part, count)));
    let calls = [
        Call::List,
        Call::Skill,
        Call::Hall,
        Call::Widen,
        Call::Train,
        Call::Trim,
        Call::Cause,
        Call::LeaveOut,
    ];
    points.extend(calls.map(Point::FullSize));
    points.extend(Block::ALL.map(Point::Most));
    let lengths = [16_777_212, 16_777_216, 16_777_217, 16_777_220];
    points.extend(lengths.map(Point::CatalogueLength));
    points.extend([Point::ListOver(2_730), Point::LongestList, Point::AllSkills]);
    points.extend(LIST_BUFFERS.map(|length| Point::Buffer(Call::List, length)));
    points.extend(SKILL_BUFFERS.map(|length| Point::Buffer(Call::Skill, length)));
    for call in [Call::List, Call::Skill] {
        for holder in Holder::ALL {
            points.extend(Place::ALL.map(|place| Point::Named(call, holder, place)));
        }
    }
    for of in IdOf::ALL {
        points.extend(Region::ALL.map(|region| Point::Id(of, region)));
    }
    points.extend(RESULTS.map(Point::ResultNumber));
    for counting in Counting::ALL {
        let amounts = 0..AMOUNTS.len() as u8;
        points.extend(amounts.map(|number| Point::Amount(counting, number)));
    }
    points.push(Point::HallInput(LARGEST_HALL));
    points
}

impl More {
    fn words(self) -> &'static str {
        match self {
            More::Items => "more items than results",
            More::Results => "more results than items",
        }
    }
}

impl fmt::Display for Call {
    fn fmt(&self, out: &mut fmt::Formatter) -> fmt::Result {
        out.write_str(match self {
            Call::List => "list call",
            Call::Skill => "skill call",
            Call::Hall => "hall call",
            Call::Widen => "widening",
            Call::Train => "training",
            Call::Trim => "trim",
            Call::Cause => "cause",
            Call::LeaveOut => "leaving out",
        })
    }
}

impl fmt::Display for Point {
    fn fmt(&self, out: &mut fmt::Formatter) -> fmt::Result {
        let name = |table: &[&'static str], number: u8| table[usize::from(number)];
        match *self {
            Point::Rule(rule) => write!(out, "rule {rule:2} {}", name(&RULES, rule)),
            Point::Resource(number) => write!(out, "resource {}", name(&RESOURCES, number)),
            Point::Slots(slot) => write!(out, "Slots {}", name(&RACKS, slot)),
            Point::WrongSlot(slot) => write!(out, "WrongSlot {}", name(&RACKS, slot)),
            Point::Limit(limit) => write!(out, "MaxGroup {}", name(&LIMITS, limit)),
            Point::Kind(kind) => write!(out, "slot kind {}", name(&KINDS, kind)),
            Point::HighestIndex(kind) => write!(out, "highest index of {}", name(&KINDS, kind)),
            Point::State(state) => write!(out, "state {}", name(&STATES, state)),
            Point::Refusal(call, refusal) => write!(out, "refusal {refusal} by the {call}"),
            Point::Planted(plant) => write!(out, "refusal {}: {}", plant.cause, plant.how),
            Point::Pair(a, b) => write!(out, "refusal {a} where {b} is deserved too"),
            Point::Room(call @ (Call::List | Call::Skill | Call::Hall), room) => {
                write!(out, "{call} with entries, {}", room.words())
            }
            Point::Room(call, room) => write!(out, "{call}, {}", room.words()),
            Point::HallFits(count) => write!(out, "hall of {count} fits"),
            Point::HallFit(Fate::Clear) => out.write_str("hall: a clear fit"),
            Point::HallFit(Fate::Faulted(None)) => out.write_str("hall: a faulted fit"),
            Point::HallFit(Fate::Faulted(Some(more))) => {
                write!(out, "hall: a faulted fit with {}", more.words())
            }
            Point::HallFit(Fate::Unread { items, results }) => {
                write!(out, "hall: no entry, F = {items} and R = {results}")
            }
            Point::HallFit(Fate::Refused(refusal)) => {
                write!(out, "hall: a fit refused by {refusal}")
            }
            Point::HallUnread(more, beside) => {
                write!(out, "hall: no entry, {}, {}", more.words(), beside.words())
            }
            Point::Wanted(count) => write!(out, "{count} wanted skills"),
            Point::Cast(width, spot) => write!(out, "cast to {width:?}: {}", spot.words()),
            Point::Over(edge) => write!(out, "over: {}", edge.words()),
            Point::Hangar(edge) => out.write_str(edge.words()),
            Point::HallHangar(fate) => {
                let hall = Point::HallFit(fate);
                write!(out, "{hall} with drones over 32 bits")
            }
            Point::Volume(edge) => write!(out, "an item's volume is {}", edge.words()),
            Point::NameMissing(number) => write!(out, "no id for {}", name(&NAMES, number)),
            Point::Shape(shape) => out.write_str(shape.words()),
            Point::Grown(call) => write!(out, "two fits compared, {call}"),
            Point::GrownRule(rule) => write!(out, "two fits compared, {}", name(&RULES, rule)),
            Point::Widened(class) => write!(out, "widened: {}", class.words()),
            Point::WidenPair(a, b) => {
                write!(out, "widening: refusal {a} where {b} is deserved too")
            }
            Point::WidenRoom(room) => write!(out, "widening, {}", room.words()),
            Point::WidenedLong => out.write_str("widened to more than 16777216 bytes"),
            Point::Under(call) => write!(out, "{call} under a widened catalogue"),
            Point::League(edge) => out.write_str(&edge.words()),
            Point::Unknown(edge) => out.write_str(&edge.words()),
            Point::Page(edge) => out.write_str(&edge.words()),
            Point::Reader(edge) => out.write_str(&edge.words()),
            Point::Haul(edge) => out.write_str(&edge.words()),
            Point::TrainPair(a, b) => {
                write!(out, "training: refusal {a} where {b} is deserved too")
            }
            Point::Train(edge) => out.write_str(&edge.words()),
            Point::TrimPair(a, b) => write!(out, "trim: refusal {a} where {b} is deserved too"),
            Point::Trim(edge) => out.write_str(&edge.words()),
            Point::CausePair(a, b) => write!(out, "cause: refusal {a} where {b} is deserved too"),
            Point::Cause(edge) => out.write_str(&edge.words()),
            Point::LeavePair(a, b) => {
                write!(out, "leaving out: refusal {a} where {b} is deserved too")
            }
            Point::Leave(edge) => out.write_str(&edge.words()),
            Point::Fine(fine) => write!(out, "base value finer than an f32: {}", fine.words()),
            size => size.fmt_size(out),
        }
    }
}

impl Point {
    /// The sizes, places and ids in words.
    fn fmt_size(self, out: &mut fmt::Formatter) -> fmt::Result {
        match self {
            Point::Held(part, count) => write!(out, "{count} {}", part.words()),
            Point::AllFull => {
                out.write_str("1024 skills, 256 items, 256 results and 30000 attributes at once")
            }
            Point::FullSize(call) => write!(out, "{call} over a catalogue of full size"),
            Point::Most(block) => {
                write!(
                    out,
                    "a catalogue of 16777216 bytes, nearly all {}",
                    block.words()
                )
            }
            Point::CatalogueLength(length) => write!(out, "catalogue of {length} bytes"),
            Point::ListOver(count) => write!(out, "a list of over {count} entries"),
            Point::LongestList => write!(out, "the longest list, {LONGEST_LIST} entries"),
            Point::AllSkills => out.write_str("512 entries of skills"),
            Point::Buffer(call, length) => write!(out, "{call}, a buffer of {length} bytes"),
            Point::Named(call, holder, place) => write!(
                out,
                "{call}: a value {} of 30000, of {}",
                place.words(),
                holder.words()
            ),
            Point::Id(of, region) => write!(out, "at full size, {} {}", of.words(), region.words()),
            Point::ResultNumber(number) => write!(out, "result number {number} refused"),
            Point::Amount(counting, number) => {
                let amount = AMOUNTS[usize::from(number)];
                write!(out, "{} {amount}", counting.words())
            }
            Point::HallInput(length) => write!(out, "hall input of {length} bytes"),
            other => unreachable!("{other:?} is no size"),
        }
    }
}

#[cfg(test)]
mod tests {
    use super::*;

    #[test]
    fn nothing_is_required_twice() {
        let mut points = required();
        let count = points.len();
        points.sort();
        points.dedup();
        assert_eq!(points.len(), count);
    }
}
