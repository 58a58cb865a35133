//! What a run has to meet of readers: each of them in each call, answered and
//! refused by every number; what a guest's list omits, and the buffers that hold
//! it; and pairs of fits that a guest cannot tell apart.

use original::Info;

use super::Tally;
use super::point::{Call, Point};
use crate::case::Lists;
use crate::checker::{ENTRY, Entry, refused};
use crate::model::Skill;
use crate::reader::Reader;
use crate::reference::{Catalogue, Fate, Fit, Listed, Refusal};

/// What a list or skill call meets by its reader.
#[derive(Clone, Copy, Debug, PartialEq, Eq, PartialOrd, Ord)]
pub enum ReaderEdge {
    /// A call that names a number.
    Named(Call, Reader),
    /// A reader who gets entries.
    Answered(Call, Reader),
    /// One of the three is refused, and by what; not 20, which no other gets.
    Refused(Call, Reader, Refusal),
    /// A guest's list.
    Guest(GuestList),
    /// A buffer beside a guest's list that omits something, and for whom it is.
    Room(Reader, GuestRoom),
    /// A guest's skill call.
    Skills(GuestSkills),
    /// Two fits that differ in their training alone, for a guest.
    Training(Training),
    /// The same where a guest is refused, and by what.
    TrainingRefused(Call, Refusal),
    /// Demand 3 for a reader.
    Grown(Call, Reader),
    /// Demand 3 for a guest, whose old list omits something.
    GrownOmits,
    /// A hall's fit that is faulted by NotASkill alone: a hall is no guest's.
    Hall,
}

/// What a guest's answered list omits, and what it keeps.
#[derive(Clone, Copy, Debug, PartialEq, Eq, PartialOrd, Ord)]
pub enum GuestList {
    /// So many entries are omitted.
    Omits(u32),
    /// As many as there may be.
    OmitsMost,
    /// Entries remain behind what is omitted.
    Keeps,
    /// Nothing remains.
    OmitsAll,
    /// NotAMode remains before it.
    KeepsMode,
    /// LaunchedDrones remains, which is about the character.
    KeepsDrones,
    KeepsBanned,
    KeepsPoints,
    KeepsUnknown,
    /// Entries, and none of them omitted.
    OmitsNothing,
    /// Listed skills that are none, on a ship that is no hull.
    NoHull,
    /// A type that is no skill and one that is missing, both omitted.
    OmitsBoth,
    /// On a smaller page.
    SmallerPage,
}

/// How a buffer stands beside both lists.
#[derive(Clone, Copy, Debug, PartialEq, Eq, PartialOrd, Ord)]
pub enum GuestRoom {
    /// One byte less than the guest's list.
    OneShort,
    /// Exactly the guest's list.
    Exact,
    /// One byte less than the full list.
    OneShortOfFull,
    Full,
}

/// Whose skills a guest asks for.
#[derive(Clone, Copy, Debug, PartialEq, Eq, PartialOrd, Ord)]
pub enum GuestSkills {
    Ship,
    Character,
    Item,
    /// A result that is not there.
    NoResult,
    /// A fit that lists no skills.
    NoneListed,
}

/// What two fits differ in that a guest reads.
#[derive(Clone, Copy, Debug, PartialEq, Eq, PartialOrd, Ord)]
pub enum Training {
    /// The same ids at other levels.
    Levels,
    /// As many, under other ids.
    Ids,
    /// More or fewer of them.
    Count,
    /// One of them lists none.
    None,
    /// One of them lists 1,024.
    Most,
    /// One of the full lists has NotASkill, and the other has not.
    OneOmits,
    /// Both have it, in unlike entries.
    BothOmit,
    /// Both skill calls are refused.
    Skills,
}

/// Two fits that differ in their training, and a guest's call on both.
pub struct Retrained<'a> {
    pub call: Lists,
    /// The word that a guest must get.
    pub word: u64,
    pub own: &'a [Skill],
    pub other: &'a [Skill],
    /// What an officer gets of each.
    pub full: [Result<Listed, Refusal>; 2],
}

const GUEST_LISTS: [GuestList; 14] = [
    GuestList::Omits(1),
    GuestList::Omits(2),
    GuestList::OmitsMost,
    GuestList::Keeps,
    GuestList::OmitsAll,
    GuestList::KeepsMode,
    GuestList::KeepsDrones,
    GuestList::KeepsBanned,
    GuestList::KeepsPoints,
    GuestList::KeepsUnknown,
    GuestList::OmitsNothing,
    GuestList::NoHull,
    GuestList::OmitsBoth,
    GuestList::SmallerPage,
];

const GUEST_ROOMS: [GuestRoom; 4] = [
    GuestRoom::OneShort,
    GuestRoom::Exact,
    GuestRoom::OneShortOfFull,
    GuestRoom::Full,
];

const GUEST_SKILLS: [GuestSkills; 5] = [
    GuestSkills::Ship,
    GuestSkills::Character,
    GuestSkills::Item,
    GuestSkills::NoResult,
    GuestSkills::NoneListed,
];

const TRAININGS: [Training; 8] = [
    Training::Levels,
    Training::Ids,
    Training::Count,
    Training::None,
    Training::Most,
    Training::OneOmits,
    Training::BothOmit,
    Training::Skills,
];

impl ReaderEdge {
    pub fn all() -> Vec<ReaderEdge> {
        use ReaderEdge::*;
        let mut edges = vec![GrownOmits, Hall];
        let named = || Reader::ALL.into_iter().chain(Reader::ABOVE);
        for call in [Call::List, Call::Skill] {
            edges.extend(named().map(|reader| Named(call, reader)));
            let own = Reader::ALL.into_iter();
            for reader in own.filter(|reader| call == Call::List || *reader != Reader::GUEST) {
                edges.extend([Answered(call, reader), Grown(call, reader)]);
                let refusals = refusals(call).into_iter();
                edges.extend(refusals.map(|refusal| Refused(call, reader, refusal)));
            }
        }
        edges.extend(GUEST_LISTS.map(Guest));
        for reader in Reader::ALL {
            edges.extend(GUEST_ROOMS.map(|room| Room(reader, room)));
        }
        edges.extend(GUEST_SKILLS.map(Skills));
        edges.extend(TRAININGS.map(Training));
        // What is refused by 4 to 6 does not pass the image checks.
        let refusals = [1, 2, 3, 13, 11, 12, 10];
        edges.extend(refusals.map(|refusal| TrainingRefused(Call::List, refusal)));
        edges
    }

    pub fn words(self) -> String {
        use ReaderEdge::*;
        match self {
            Named(call, reader) => format!("{call} for {reader}"),
            Answered(call, reader) => format!("{call} for {reader}, with entries"),
            Refused(call, reader, refusal) => format!("refusal {refusal} by the {call}, {reader}"),
            Guest(list) => format!("a guest's list {}", list.words()),
            Room(reader, room) => format!("list call for {reader}, a buffer {}", room.words()),
            Skills(skills) => format!("a guest's skill call {}", skills.words()),
            Training(training) => format!("a guest reads two fits {}", training.words()),
            TrainingRefused(call, refusal) => {
                format!("a guest reads two fits, refusal {refusal} by the {call}")
            }
            Grown(call, reader) => format!("two fits compared, {call} for {reader}"),
            GrownOmits => "two fits compared for a guest, NotASkill omitted".to_string(),
            Hall => "hall: a fit faulted by NotASkill alone".to_string(),
        }
    }
}

/// What a call may give to a reader who may make it.
fn refusals(call: Call) -> [Refusal; 10] {
    match call {
        Call::Skill => [1, 2, 3, 4, 5, 6, 13, 8, 9, 10],
        _ => [1, 2, 3, 4, 5, 6, 13, 11, 12, 10],
    }
}

impl GuestList {
    fn words(self) -> String {
        let words = match self {
            GuestList::Omits(count) => return format!("that omits {count}"),
            GuestList::OmitsMost => "that omits 1024",
            GuestList::Keeps => "that goes on behind what it omits",
            GuestList::OmitsAll => "of which nothing remains",
            GuestList::KeepsMode => "that keeps NotAMode before what it omits",
            GuestList::KeepsDrones => "that keeps LaunchedDrones and omits NotASkill",
            GuestList::KeepsBanned => "that keeps Banned and omits NotASkill",
            GuestList::KeepsPoints => "that keeps Points and omits NotASkill",
            GuestList::KeepsUnknown => "that keeps UnknownType and omits NotASkill",
            GuestList::OmitsNothing => "with entries that omits none",
            GuestList::NoHull => "on no hull, with listed skills that are none",
            GuestList::OmitsBoth => "that omits a type that is no skill and one that is missing",
            GuestList::SmallerPage => "that omits NotASkill on a smaller page",
        };
        words.to_string()
    }
}

impl GuestRoom {
    fn words(self) -> &'static str {
        match self {
            GuestRoom::OneShort => "one byte short of a guest's list",
            GuestRoom::Exact => "that a guest's list fills",
            GuestRoom::OneShortOfFull => "one byte short of the full list",
            GuestRoom::Full => "that the full list fills",
        }
    }

    /// How so many bytes stand beside both lists, which are not the same.
    fn of(length: usize, guests: usize, full: usize) -> Option<GuestRoom> {
        match length {
            _ if length + 1 == guests => Some(GuestRoom::OneShort),
            _ if length == guests => Some(GuestRoom::Exact),
            _ if length + 1 == full => Some(GuestRoom::OneShortOfFull),
            _ if length == full => Some(GuestRoom::Full),
            _ => None,
        }
    }
}

impl GuestSkills {
    fn words(self) -> &'static str {
        match self {
            GuestSkills::Ship => "of the ship",
            GuestSkills::Character => "of the character",
            GuestSkills::Item => "of an item",
            GuestSkills::NoResult => "of a result that is not there",
            GuestSkills::NoneListed => "of a fit that lists no skills",
        }
    }
}

impl Training {
    fn words(self) -> &'static str {
        match self {
            Training::Levels => "with other levels",
            Training::Ids => "with as many other skills",
            Training::Count => "with more skills or fewer",
            Training::None => "of which one lists no skills",
            Training::Most => "of which one lists 1024 skills",
            Training::OneOmits => "of which one has NotASkill",
            Training::BothOmit => "that have NotASkill in unlike entries",
            Training::Skills => "for skills",
        }
    }
}

/// The number of NotASkill entries.
fn not_skills(listed: &Listed) -> usize {
    listed
        .entries
        .iter()
        .filter(|entry| is_private(entry))
        .count()
}

fn is_private(entry: &Entry) -> bool {
    entry[1] == 21
}

/// A call, and the word that it must give.
pub fn called(tally: &mut Tally, call: Lists, word: u64) {
    let (of, reader) = (Call::of(call), call.reader);
    let mut met = vec![ReaderEdge::Named(of, reader)];
    match (word >> 32) as u8 {
        0 if word > 0 => met.push(ReaderEdge::Answered(of, reader)),
        0 | 19 | 20 => {}
        refusal => met.push(ReaderEdge::Refused(of, reader, refusal)),
    }
    for edge in met {
        tally.meet(Point::Reader(edge));
    }
}

/// A skill call whose images are not refused.
pub fn skills(tally: &mut Tally, fit: &Fit, call: Lists, word: u64) {
    let (Some(result), true) = (call.result, word == refused(20)) else {
        return;
    };
    let whose = match result {
        _ if fit.result(result).is_none() => GuestSkills::NoResult,
        0 => GuestSkills::Ship,
        1 => GuestSkills::Character,
        _ => GuestSkills::Item,
    };
    tally.meet(Point::Reader(ReaderEdge::Skills(whose)));
    if fit.fit.character.skills.is_empty() {
        tally.meet(Point::Reader(ReaderEdge::Skills(GuestSkills::NoneListed)));
    }
}

/// A list call that is not refused before 10, with the buffer's length, the word
/// that it must give, and what an officer gets.
pub fn list(
    tally: &mut Tally,
    (catalogue, fit): (&Catalogue, &Fit),
    call: Lists,
    (word, length): (u64, usize),
    full: &Listed,
) {
    let omitted = not_skills(full);
    let guests = full.entries.len() - omitted;
    if omitted > 0
        && let Some(room) = GuestRoom::of(length, ENTRY * guests, ENTRY * full.entries.len())
    {
        tally.meet(Point::Reader(ReaderEdge::Room(call.reader, room)));
    }
    if call.reader != Reader::GUEST || word >> 32 != 0 {
        return;
    }
    for list in omits(catalogue, fit, call, full) {
        tally.meet(Point::Reader(ReaderEdge::Guest(list)));
    }
}

/// What a guest's answered list omits and keeps of a full one.
fn omits(catalogue: &Catalogue, fit: &Fit, call: Lists, full: &Listed) -> Vec<GuestList> {
    let is_missing = |id: &&i32| catalogue.get_type(**id).is_none();
    let missing = fit.fit.character.skills.keys().filter(is_missing).count();
    let omitted = not_skills(full);
    let has = |rule: u8, sub: u8| full.entries.iter().any(|entry| entry[1..3] == [rule, sub]);
    if omitted == 0 {
        return match full.entries.is_empty() {
            true => Vec::new(),
            false if has(19, 0) && missing > 0 => vec![GuestList::OmitsNothing, GuestList::NoHull],
            false => vec![GuestList::OmitsNothing],
        };
    }
    let shapes = [
        (omitted == 1_024, GuestList::OmitsMost),
        (
            !is_private(&full.entries[full.entries.len() - 1]),
            GuestList::Keeps,
        ),
        (omitted == full.entries.len(), GuestList::OmitsAll),
        (has(20, 0), GuestList::KeepsMode),
        (has(1, 5), GuestList::KeepsDrones),
        (has(24, 0), GuestList::KeepsBanned),
        (has(25, 0), GuestList::KeepsPoints),
        (has(26, 0), GuestList::KeepsUnknown),
        (missing > 0 && missing < omitted, GuestList::OmitsBoth),
        (call.limits.are_smaller(), GuestList::SmallerPage),
    ];
    let shapes = shapes.into_iter().filter(|shape| shape.0);
    let mut met: Vec<GuestList> = shapes.map(|shape| shape.1).collect();
    met.push(GuestList::Omits(omitted as u32));
    met
}

/// Two fits that a guest reads.
pub fn retrained(tally: &mut Tally, both: &Retrained) {
    let refusal = (both.word >> 32) as u8;
    let met = match (refusal, &both.full) {
        (20, _) => vec![ReaderEdge::Training(Training::Skills)],
        (0, [Ok(own), Ok(other)]) => {
            let trainings = trainings(both, own, other).into_iter();
            trainings.map(ReaderEdge::Training).collect()
        }
        _ => vec![ReaderEdge::TrainingRefused(Call::of(both.call), refusal)],
    };
    for edge in met {
        tally.meet(Point::Reader(edge));
    }
}

/// What the training of two fits differs in.
fn trainings(both: &Retrained, own: &Listed, other: &Listed) -> Vec<Training> {
    let ids = |skills: &[Skill]| skills.iter().map(|skill| skill.id).collect::<Vec<i32>>();
    let (first, second) = (both.own, both.other);
    let has = |count: usize| first.len() == count || second.len() == count;
    let (omitted, others) = (not_skills(own), not_skills(other));
    let same_ids = ids(first) == ids(second);
    let shapes = [
        (same_ids && first != second, Training::Levels),
        (!same_ids && first.len() == second.len(), Training::Ids),
        (first.len() != second.len(), Training::Count),
        (first.len() != second.len() && has(0), Training::None),
        (first.len() != second.len() && has(1_024), Training::Most),
        ((omitted == 0) != (others == 0), Training::OneOmits),
        (
            omitted > 0 && others > 0 && own != other,
            Training::BothOmit,
        ),
    ];
    let shapes = shapes.into_iter().filter(|shape| shape.0);
    shapes.map(|shape| shape.1).collect()
}

/// Two lists held against each other for a reader, and the old one as an officer
/// gets it.
pub fn grown(tally: &mut Tally, reader: Reader, call: Call, full: &[Entry]) {
    tally.meet(Point::Reader(ReaderEdge::Grown(call, reader)));
    if reader == Reader::GUEST && full.iter().any(is_private) {
        tally.meet(Point::Reader(ReaderEdge::GrownOmits));
    }
}

/// One fit of an answered hall call, with its list.
pub fn hall(tally: &mut Tally, fate: Fate, listed: &Listed) {
    let omitted = not_skills(listed);
    if matches!(fate, Fate::Faulted(None)) && omitted == listed.entries.len() {
        tally.meet(Point::Reader(ReaderEdge::Hall));
    }
}

#[cfg(test)]
mod tests {
    use super::*;

    #[test]
    fn a_buffer_stands_beside_both_lists() {
        let of = |length| GuestRoom::of(length, 24, 72);
        assert_eq!(of(22), None);
        assert_eq!(of(23), Some(GuestRoom::OneShort));
        assert_eq!(of(24), Some(GuestRoom::Exact));
        assert_eq!(of(25), None);
        assert_eq!(of(71), Some(GuestRoom::OneShortOfFull));
        assert_eq!(of(72), Some(GuestRoom::Full));
        assert_eq!(of(73), None);
        assert_eq!(GuestRoom::of(0, 0, 24), Some(GuestRoom::Exact));
    }
}
