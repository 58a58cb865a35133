//! Counts what the cases met, and names what they never met.

mod cause;
mod edge;
mod haul;
mod league;
mod leave_out;
mod look;
mod page;
mod point;
mod reader;
pub mod size;
mod train;
mod trim;
mod unknown;
mod wide;
mod widened;

use std::collections::BTreeMap;

use crate::case::{Ask, Case, Lists, Room};
use crate::checker::{ENTRY, Entry};
use crate::grown;
use crate::page::Limits;
use crate::reader::Reader;
use crate::reference::{self, Catalogue, Fate, Fit, League, Listed, More, Refusal};

pub use cause::{CauseEdge, Causing};
pub use edge::{Hangar, Shape, Spot};
pub use haul::{Haul, HaulEdge};
pub use league::LeagueEdge;
pub use leave_out::{LeaveEdge, Leaving};
pub use page::{PageEdge, pairs_beside, skills_beside};
pub use point::{Beside, Call, Point, RoomKind};
pub use reader::{ReaderEdge, Retrained};
pub use train::{TrainEdge, Training};
pub use trim::{TrimEdge, Trimming};
pub use unknown::UnknownEdge;
pub use widened::{Class, Fine, WidenRoom};

use size::{Block, LONGEST_LIST};

/// How often each point was met.
#[derive(Default)]
pub struct Tally {
    met: BTreeMap<Point, u64>,
    /// Calls compared.
    pub calls: u64,
    /// Entries compared.
    pub entries: u64,
    pub zeros: Zeros,
}

/// Where the sign of an empty cargo sum is free: the checker's +0 and −0.
#[derive(Default)]
pub struct Zeros {
    pub plus: u64,
    pub minus: u64,
}

impl Zeros {
    /// The sign that the checker gave to an empty cargo sum, if there is one.
    pub fn note(&mut self, listed: &Listed, written: &[u8]) {
        if let Some(number) = listed.either_zero {
            match written[ENTRY * number + 15] {
                0 => self.plus += 1,
                _ => self.minus += 1,
            }
        }
    }
}

impl Tally {
    pub fn meet(&mut self, point: Point) {
        *self.met.entry(point).or_default() += 1;
    }

    /// Takes in what another tally counted.
    pub fn add(&mut self, other: Tally) {
        for (point, count) in other.met {
            *self.met.entry(point).or_default() += count;
        }
        self.calls += other.calls;
        self.entries += other.entries;
        self.zeros.plus += other.zeros.plus;
        self.zeros.minus += other.zeros.minus;
    }

    /// Every point that has to be met, with its count.
    pub fn required(&self) -> Vec<(Point, u64)> {
        let count = |point: Point| self.met.get(&point).copied().unwrap_or(0);
        point::required()
            .into_iter()
            .map(|point| (point, count(point)))
            .collect()
    }

    /// A case as a whole.
    pub fn case(&mut self, case: &Case, catalogue_length: usize) {
        for plant in &case.planted {
            self.meet(Point::Planted(*plant));
        }
        if let [second, first] = case.planted[..] {
            self.meet(Point::Pair(first.cause, second.cause));
        }
        if (16_777_212..=16_777_220).contains(&catalogue_length) {
            self.meet(Point::CatalogueLength(catalogue_length as u32));
        }
        if case.asks.contains(&Ask::Hall) {
            self.meet(Point::HallFits(case.fits.len() as u32));
        }
    }

    /// A list or skill call and the word that it must give, by its reader.
    pub fn reader(&mut self, lists: Lists, word: u64) {
        self.calls += 1;
        reader::called(self, lists, word);
    }

    /// A skill call whose images are not refused.
    pub fn private_skills(&mut self, fit: &Fit, lists: Lists, word: u64) {
        reader::skills(self, fit, lists, word);
    }

    /// A list call that is not refused before 10, with the word that it must
    /// give, its buffer's length, and what an officer gets.
    pub fn private_list(
        &mut self,
        images: (&Catalogue, &Fit),
        lists: Lists,
        given: (u64, usize),
        full: &Listed,
    ) {
        reader::list(self, images, lists, given, full);
    }

    /// Two fits that differ in their training alone, for a guest.
    pub fn retrained(&mut self, both: &Retrained) {
        reader::retrained(self, both);
    }

    /// Two lists held against each other for a reader, and the old one as an
    /// officer gets it.
    pub fn grown_for(&mut self, reader: Reader, is_skill: bool, full: &[Entry]) {
        let call = if is_skill { Call::Skill } else { Call::List };
        reader::grown(self, reader, call, full);
    }

    /// A list or skill call with its buffer's length and the word that it must
    /// give.
    pub fn call(&mut self, lists: Lists, length: usize, word: u64) {
        let call = Call::of(lists);
        let refusal = (word >> 32) as u8;
        if refusal != 0 {
            self.meet(Point::Refusal(call, refusal));
        }
        if let (8, Some(result)) = (refusal, lists.result) {
            self.meet(Point::ResultNumber(result));
        }
        if word > 0 && (refusal == 0 || refusal == 10) {
            self.meet(Point::Buffer(call, length as u32));
            if let Some(kind) = RoomKind::of(lists.room) {
                self.meet(Point::Room(call, kind));
            }
        }
    }

    /// An answered call's catalogue.
    pub fn catalogue(&mut self, call: Call, catalogue: &Catalogue) {
        let rows = Block::ALL.map(|block| (block, catalogue.rows(block)));
        if rows.iter().all(|(block, rows)| *rows >= block.full_size()) {
            self.meet(Point::FullSize(call));
        }
        for (block, rows) in rows {
            if rows * block.width() > 16_700_000 {
                self.meet(Point::Most(block));
            }
        }
    }

    /// A skill call, answered or not: the length of its walk.
    pub fn walk(&mut self, catalogue: &Catalogue, fit: &Fit, result: u32) {
        // No walk is long where the bases are few.
        if catalogue.rows(Block::Bases) >= 500
            && let Some(wanted) = reference::wanted(catalogue, fit, result)
        {
            self.meet(Point::Wanted(wanted as u32));
        }
    }

    /// A list call whose images are not refused, with what it brings.
    pub fn brought(&mut self, catalogue: &Catalogue, fit: &Fit, league: &Result<League, Refusal>) {
        league::brought(self, catalogue, fit, league);
    }

    /// A list or skill call whose images are not refused, by its limits.
    pub fn page(&mut self, catalogue: &Catalogue, fit: &Fit, call: Lists, word: u64) {
        page::called(self, catalogue, fit, call, word);
    }

    /// An answered list call with a profile, on a hull.
    pub fn league(&mut self, limits: Limits, listed: &Listed) {
        league::listed(self, listed);
        page::league(self, limits, listed);
    }

    /// The inputs and the list of an answered list call, as far as types are
    /// missing.
    pub fn unknown(&mut self, catalogue: &Catalogue, fit: &Fit, league: &League, listed: &Listed) {
        unknown::list(self, catalogue, fit, league);
        unknown::listed(self, listed);
    }

    /// A list that its buffer of so many bytes has no room for.
    pub fn no_room(&mut self, listed: &Listed, length: usize) {
        unknown::no_room(self, listed, length);
    }

    /// An answered list call.
    pub fn list(&mut self, catalogue: &Catalogue, fit: &Fit, listed: &Listed) {
        self.listed(listed);
        let count = listed.entries.len() as u32;
        if count > 2_730 {
            self.meet(Point::ListOver(2_730));
        }
        if count == LONGEST_LIST {
            self.meet(Point::LongestList);
        }
        look::fit(self, catalogue, fit);
    }

    /// An answered skill call.
    pub fn skill(&mut self, catalogue: &Catalogue, fit: &Fit, result: u32, listed: &Listed) {
        self.listed(listed);
        if listed.entries.len() == 512 {
            self.meet(Point::AllSkills);
        }
        look::skill(self, catalogue, fit, result);
    }

    fn listed(&mut self, listed: &Listed) {
        self.entries += listed.entries.len() as u64;
        for entry in &listed.entries {
            let (rule, sub) = (entry[1], entry[2]);
            self.meet(Point::Rule(rule));
            match rule {
                1 => self.meet(Point::Resource(sub)),
                2 => self.meet(Point::Slots(sub)),
                3 => self.meet(Point::WrongSlot(sub)),
                17 => self.meet(Point::Limit(sub)),
                _ => {}
            }
        }
        if listed.either_zero.is_some() {
            self.meet(Point::Shape(Shape::EmptyCargoSum));
        }
    }

    /// An answered hall call, with the length of its input.
    pub fn hall(&mut self, fates: &[Fate], length: usize) {
        for fate in fates {
            self.meet(Point::HallFit(*fate));
            if let Fate::Unread { items, results } = *fate
                && let Some(more) = More::of(items, results)
                && let Some(beside) = Beside::of(fates)
            {
                self.meet(Point::HallUnread(more, beside));
            }
        }
        self.meet(Point::HallInput(length as u32));
    }

    /// One fit of an answered hall call, with its list.
    pub fn hall_fit(&mut self, catalogue: &Catalogue, fit: &Fit, fate: Fate, listed: &Listed) {
        if fit.hangar(catalogue).is_some() {
            self.meet(Point::HallHangar(fate));
        }
        unknown::hall(self, catalogue, fit, fate, listed);
        reader::hall(self, fate, listed);
    }

    /// The word that a hall call must give.
    pub fn hall_word(&mut self, word: u64) {
        self.calls += 1;
        if word >> 32 != 0 {
            self.meet(Point::Refusal(Call::Hall, (word >> 32) as u8));
        }
    }

    /// A widening with its buffer's length and the word that it must give.
    pub fn widen(&mut self, room: Room, length: usize, word: u64) {
        self.writes(Call::Widen, room, length, word);
    }

    /// The same of a training.
    pub fn train(&mut self, room: Room, length: usize, word: u64) {
        self.writes(Call::Train, room, length, word);
    }

    /// The same of a trim.
    pub fn trim(&mut self, room: Room, length: usize, word: u64) {
        self.writes(Call::Trim, room, length, word);
    }

    /// The same of a cause.
    pub fn cause(&mut self, room: Room, length: usize, word: u64) {
        self.writes(Call::Cause, room, length, word);
    }

    /// The same of leaving out.
    pub fn leave_out(&mut self, room: Room, length: usize, word: u64) {
        self.writes(Call::LeaveOut, room, length, word);
    }

    /// A call that writes an image.
    fn writes(&mut self, call: Call, room: Room, length: usize, word: u64) {
        self.calls += 1;
        let refusal = (word >> 32) as u8;
        if refusal != 0 {
            self.meet(Point::Refusal(call, refusal));
        }
        if refusal == 0 || refusal == 10 {
            self.meet(Point::Buffer(call, length as u32));
            if let Some(kind) = RoomKind::of(room) {
                self.meet(Point::Room(call, kind));
            }
        }
    }

    /// A training whose images are not refused.
    pub fn training(&mut self, training: &Training) {
        train::called(self, training);
    }

    /// Trainings of so many steps and one more, where so many levels were
    /// missing.
    pub fn promised(&mut self, steps: u32, missing: u32) {
        train::promised(self, steps, missing);
    }

    /// A trim whose images are not refused.
    pub fn trimming(&mut self, trimming: &Trimming) {
        trim::called(self, trimming);
    }

    /// A call under the whole catalogue and under the trimmed one, and the word that
    /// both must give.
    pub fn under_trimmed(&mut self, lists: Lists, word: u64) {
        self.calls += 2;
        trim::under(self, lists, word);
    }

    /// A cause whose images are not refused.
    pub fn causing(&mut self, causing: &Causing) {
        cause::called(self, causing);
    }

    /// Parts of so many kept pairs.
    pub fn least(&mut self, count: usize) {
        cause::least(self, count);
    }

    /// The refusals that a cause deserves, the one that it must give first.
    pub fn cause_pair(&mut self, case: &Case) {
        if let [second, first] = case.planted[..] {
            self.meet(Point::CausePair(first.cause, second.cause));
        }
    }

    /// Leaving out where the images are not refused.
    pub fn leaving(&mut self, leaving: &Leaving) {
        leave_out::called(self, leaving);
    }

    /// What is promised, of a fit of so many pairs.
    pub fn promised_left(&mut self, pairs: usize, is_hull: bool) {
        leave_out::promised(self, pairs, is_hull);
    }

    /// The refusals that leaving out deserves, the one that it must give first.
    pub fn leave_out_pair(&mut self, case: &Case) {
        if let [second, first] = case.planted[..] {
            self.meet(Point::LeavePair(first.cause, second.cause));
        }
    }

    /// The refusals that a trim deserves, the one that it must give first.
    pub fn trim_pair(&mut self, case: &Case) {
        if let [second, first] = case.planted[..] {
            self.meet(Point::TrimPair(first.cause, second.cause));
        }
    }

    /// The refusals that a training deserves, the one that it must give first.
    pub fn train_pair(&mut self, case: &Case) {
        if let [second, first] = case.planted[..] {
            self.meet(Point::TrainPair(first.cause, second.cause));
        }
    }

    /// The refusals that a widening deserves, the one that it must give first.
    pub fn widen_pair(&mut self, case: &Case) {
        if let [second, first] = case.planted[..] {
            self.meet(Point::WidenPair(first.cause, second.cause));
        }
    }

    /// A buffer beside both forms of a catalogue that is not refused.
    pub fn widen_room(&mut self, old: &[u8], new: &[u8], length: usize) {
        if let Some(room) = WidenRoom::of(old.len(), new.len(), length) {
            self.meet(Point::WidenRoom(room));
        }
    }

    /// The base values of a catalogue that is widened.
    pub fn widened(&mut self, old: &[u8], new: &[u8]) {
        let values = (new.len() - old.len()) / 4;
        let (_, values) = old.split_at(old.len() - 8 * values);
        for value in values.chunks_exact(8) {
            let bits = [value[4], value[5], value[6], value[7]];
            let class = Class::of(u32::from_le_bytes(bits));
            self.meet(Point::Widened(class));
        }
        if new.len() > reference::LIMIT {
            self.meet(Point::WidenedLong);
        }
    }

    /// A call under a widened catalogue.
    pub fn under_widened(&mut self, call: Call) {
        self.meet(Point::Under(call));
    }

    /// The lists of a fit without and with cargo behind it.
    pub fn hauled(&mut self, haul: &Haul, old: &[Entry], new: &[Entry]) {
        haul::lists(self, haul, old, new);
    }

    /// Both calls of a reader, without and with cargo behind the fit, and the old
    /// list as an officer gets it.
    pub fn hauled_for(&mut self, reader: Reader, is_skill: bool, full: &[Entry]) {
        haul::read_by(self, reader, is_skill, full);
    }

    /// The skills of an old result without and with cargo behind the fit.
    pub fn hauled_skills(&mut self, haul: &Haul, listed: &[Entry]) {
        haul::skills(self, haul, listed);
    }

    /// Two lists held against each other.
    pub fn grown(&mut self, case: &Case, is_skill: bool, old: &[Entry], new: &[Entry]) {
        let growth = &case.growth;
        let call = if is_skill { Call::Skill } else { Call::List };
        self.meet(Point::Grown(call));
        for entry in old {
            self.meet(Point::GrownRule(entry[1]));
        }
        league::grown(self, old, new);
        unknown::grown(self, old, new);
        page::grown(self, case, call);
        let shapes = [
            (
                growth.items.is_empty() && growth.results.is_empty(),
                Shape::GrownByNothing,
            ),
            (
                growth.items.len() > growth.results.len(),
                Shape::GrownMoreItems,
            ),
            (
                growth.items.len() < growth.results.len(),
                Shape::GrownMoreResults,
            ),
            (
                growth.items.iter().any(|item| item.kind == 11),
                Shape::GrownCargo,
            ),
            (
                growth.lowered.iter().any(|fall| *fall > 0),
                Shape::GrownLowered,
            ),
            (new.len() > old.len(), Shape::GrownEntries),
            (
                grown::places(old, new).is_ok_and(|places| {
                    places
                        .iter()
                        .zip(old)
                        .any(|(place, entry)| new[*place] != *entry)
                }),
                Shape::GrownNumbers,
            ),
        ];
        for (holds, shape) in shapes {
            if holds {
                self.meet(Point::Shape(shape));
            }
        }
    }
}

/// Those of the edges that hold.
fn held<T, const N: usize>(edges: [(bool, T); N]) -> Vec<T> {
    let held = edges.into_iter().filter(|edge| edge.0);
    held.map(|edge| edge.1).collect()
}
