//! Document 02's P11: a fit trained for one result. Skill by skill over the
//! image, where the reference asks for the list after every step.

use super::bytes::{i32_at, u16_at, u32_at};
use super::catalogue::Catalogue;
use super::context::Context;
use super::entry::Entries;
use super::fault::Fault;
use super::fit::Fit;
use super::page::{Asked, Page};
use super::{Flaw, Number, Rows, opened, skill, write};
use crate::checker::{ENTRY, Entry, refused};
use crate::page::Limits;

/// The most skills that a fit lists.
const MOST: usize = 1_024;

/// The category of skills.
const SKILL: i32 = 16;

/// The most steps that one skill takes, at level 0 first where a fault adds it so.
const MOST_STEPS: usize = 256;

/// What a training is asked for.
#[derive(Clone, Copy)]
struct Asks {
    result: usize,
    steps: u32,
    room: usize,
    flaw: Flaw,
}

/// What comes of it.
struct Trained {
    image: Vec<u8>,
    old: usize,
    /// The entries of the first list, and those of skills that were not listed.
    entries: usize,
    new: usize,
    made: u32,
}

pub fn train(images: (&[u8], &[u8]), result: u32, steps: u32, out: &mut [u8], flaw: Flaw) -> u64 {
    let asks = Asks {
        result: flaw.number(Number::Result, result as usize),
        steps: counted(steps, flaw),
        room: out.len(),
        flaw,
    };
    match trained(images, asks) {
        Ok(trained) => answered(&trained, out, flaw),
        Err(number) => {
            turned_away(number, images.1, out, flaw);
            refused(number) + u64::from(number == 16 && flaw.has(Fault::TrainFullCounts))
        }
    }
}

/// How many steps are made.
fn counted(steps: u32, flaw: Flaw) -> u32 {
    let steps = flaw.number(Number::Steps, steps as usize) as u32;
    match () {
        () if flaw.has(Fault::TrainOneLess) => steps.saturating_sub(1),
        () if flaw.has(Fault::TrainOneMore) => steps.saturating_add(1),
        () if flaw.has(Fault::TrainZeroIsAll) && steps == 0 => u32::MAX,
        () if flaw.has(Fault::TrainStepsSigned) && steps > 0x7FFF_FFFF => 0,
        () => steps,
    }
}

/// Writes the fit where it has room; the word of the call.
fn answered(trained: &Trained, out: &mut [u8], flaw: Flaw) -> u64 {
    let Trained { image, old, .. } = trained;
    if trained.entries == 0 && flaw.has(Fault::TrainNothingLacking) {
        return 0;
    }
    let needed = match () {
        () if flaw.has(Fault::TrainRoomOld) => *old,
        () if flaw.has(Fault::TrainRoomOfPlan) => old + 5 * trained.new,
        () if flaw.has(Fault::TrainRoomOfEntries) => ENTRY * trained.entries,
        () if flaw.has(Fault::RoomMustExceed) => image.len() + 1,
        () if flaw.has(Fault::RoomOneShort) => image.len() - 1,
        () => image.len(),
    };
    if out.len() < needed {
        if flaw.has(Fault::TrainRoomFilled) {
            out.copy_from_slice(&image[..out.len()]);
        }
        let counts = flaw.has(Fault::TrainRoomCounts);
        return refused(10) + if counts { image.len() as u64 } else { 0 };
    }
    let most = flaw.rows(Rows::TrainedBytes, image.len());
    write(&image[..most], out, flaw);
    if flaw.has(Fault::TrainTailCleared) {
        out[image.len()..].fill(0);
    }
    match () {
        () if flaw.has(Fault::TrainCountsOld) => *old as u64,
        () if flaw.has(Fault::TrainCountsSteps) => trained.made.into(),
        () if flaw.has(Fault::TrainCountsSkills) => u32_at(image, 0).into(),
        () => flaw.number(Number::TrainCount, image.len()) as u64,
    }
}

/// What a refusal leaves in the buffer: nothing.
fn turned_away(number: u8, fit: &[u8], out: &mut [u8], flaw: Flaw) {
    let clears = flaw.has(Fault::RefusalClears);
    if clears || (number == 16 && flaw.has(Fault::TrainFullClears)) {
        out.fill(0);
    }
    if number == 16 && flaw.has(Fault::TrainFullWrites) {
        let room = out.len().min(fit.len());
        out[..room].copy_from_slice(&fit[..room]);
    }
}

/// The fit after the steps, or the refusal before 10.
fn trained((catalogue, image): (&[u8], &[u8]), asks: Asks) -> Result<Trained, u8> {
    let flaw = asks.flaw;
    let (catalogue, fit) = match opened(catalogue, image, flaw) {
        Err(number @ (5 | 6)) if flaw.has(Fault::TrainFullBeforeIds) => {
            let catalogue = Catalogue::open(catalogue, flaw)?;
            let fit = Fit::unjudged(image, flaw);
            let is_full = Training::new(&catalogue, &fit, asks).is_full(asks.result);
            return Err(if is_full { 16 } else { number });
        }
        opened => opened?,
    };
    let training = Training::new(&catalogue, &fit, asks);
    let page = Page::new(Limits::MAIN, Asked::Skill, flaw);
    if let Err(number) = super::skill(&catalogue, &fit, asks.result, page, flaw) {
        return Err(training.instead_of(number));
    }
    let result = match flaw.has(Fault::TrainOfShip) {
        true => 0,
        false => asks.result,
    };
    let entries = training.entries(result);
    let mut skills = Skills::of(&fit, flaw);
    let turns = training.turns(result, &entries);
    let made = skills.train(&turns, asks.steps);
    let trained = Trained {
        image: skills.written(image),
        old: image.len(),
        entries: entries.len(),
        new: training.new_skills(result),
        made,
    };
    let is_full = match flaw.has(Fault::TrainFullReached) {
        true => skills.ids.len() > MOST,
        false => training.is_full(asks.result),
    };
    match () {
        () if !is_full => Ok(trained),
        () if flaw.has(Fault::TrainFullAs4) => Err(4),
        () if flaw.has(Fault::TrainFullAs9) => Err(9),
        () if flaw.has(Fault::TrainFullAfterRoom) && asks.room < trained.image.len() => Err(10),
        () => Err(16),
    }
}

/// An entry of the list: its skill's turn to be raised.
#[derive(Clone, Copy)]
struct Turn {
    id: i32,
    required: u8,
    trained: u8,
}

impl Turn {
    fn of(entry: &Entry) -> Turn {
        Turn {
            id: i32_at(entry, 8),
            required: entry[12],
            trained: entry[16],
        }
    }
}

/// What is trained, and for whom.
struct Training<'a> {
    context: Context<'a>,
    asks: Asks,
}

impl<'a> Training<'a> {
    fn new(catalogue: &'a Catalogue<'a>, fit: &'a Fit<'a>, asks: Asks) -> Training<'a> {
        Training {
            context: Context::new(catalogue, fit, asks.flaw),
            asks,
        }
    }

    /// What a result lacks, however many skills it wants; nothing of one that is
    /// not there.
    fn entries(&self, result: usize) -> Vec<Turn> {
        let mut entries = Entries::new(self.asks.flaw);
        if result < self.context.fit.results() + 2 {
            let page = Page::new(Limits::MAIN, Asked::Skill, self.asks.flaw);
            // 8 and 9 are judged elsewhere.
            let _ = skill::report(&self.context, result, page, &mut entries);
        }
        entries.found.iter().map(Turn::of).collect()
    }

    /// The entries in the order in which they are trained.
    fn turns(&self, result: usize, entries: &[Turn]) -> Vec<Turn> {
        let flaw = self.asks.flaw;
        let mut turns = entries.to_vec();
        match () {
            () if flaw.has(Fault::TrainLast) => turns.reverse(),
            () if flaw.has(Fault::TrainLowestId) => turns.sort_by_key(|turn| turn.id),
            () if flaw.has(Fault::TrainFirstAlone) => turns.truncate(1),
            () if flaw.has(Fault::TrainStopsAtOne) => {
                turns.pop();
            }
            () if flaw.has(Fault::TrainSkillsAlone) => turns.retain(|turn| self.is_skill(turn.id)),
            () if flaw.has(Fault::TrainOfAll) => {
                let others = (0..self.context.fit.results() + 2).filter(|other| *other != result);
                turns.extend(others.flat_map(|other| self.entries(other)));
            }
            () => {}
        }
        turns.truncate(flaw.rows(Rows::Plan, turns.len()));
        turns
    }

    fn is_skill(&self, id: i32) -> bool {
        let found = self.context.catalogue.type_of(id);
        found.is_some_and(|found| found.category == SKILL)
    }

    fn is_listed(&self, id: i32) -> bool {
        (0..self.context.fit.skills()).any(|number| self.context.fit.skill_id(number) == id)
    }

    /// How many entries of a result are of skills that are not listed.
    fn new_skills(&self, result: usize) -> usize {
        let entries = self.entries(result).into_iter();
        entries.filter(|turn| !self.is_listed(turn.id)).count()
    }

    /// Whether the first list carries the listed skills over 1,024.
    fn is_full(&self, result: usize) -> bool {
        let flaw = self.asks.flaw;
        let all = 0..self.context.fit.results() + 2;
        let wanted = || skill::wanted_ids(&self.context, result).into_iter();
        let entries = || self.entries(result).into_iter();
        let more = match () {
            () if flaw.has(Fault::TrainFullUnasked) || flaw.has(Fault::TrainFullCut) => 0,
            () if flaw.has(Fault::TrainFullNotAtZero) && self.asks.steps == 0 => 0,
            () if flaw.has(Fault::TrainFullCountsAll) => entries().count(),
            () if flaw.has(Fault::TrainFullCountsUntrained) => {
                entries().filter(|turn| turn.trained == 0).count()
            }
            () if flaw.has(Fault::TrainFullCountsWanted) => {
                wanted().filter(|id| !self.is_listed(*id)).count()
            }
            () if flaw.has(Fault::TrainFullOfAll) => all.map(|each| self.new_skills(each)).sum(),
            () => self.new_skills(result),
        };
        let most = match () {
            () if flaw.has(Fault::TrainFull1023) => MOST - 1,
            () if flaw.has(Fault::TrainFull1025) => MOST + 1,
            () => MOST,
        };
        self.context.fit.skills() + more > most
    }

    /// The refusal that is given where 8 or 9 is deserved.
    fn instead_of(&self, number: u8) -> u8 {
        let Asks { result, flaw, .. } = self.asks;
        let has_no_room = self.asks.room < self.context.fit.image().len();
        let (full, room, judged) = match number {
            8 => (
                Fault::TrainFullBeforeResult,
                Fault::TrainRoomBeforeResult,
                0,
            ),
            9 => (
                Fault::TrainFullBeforeWalk,
                Fault::TrainRoomBeforeWalk,
                result,
            ),
            _ => return number,
        };
        match () {
            () if flaw.has(full) && self.is_full(judged) => 16,
            () if flaw.has(room) && has_no_room => 10,
            () => number,
        }
    }
}

/// Listed skills and their levels.
struct Skills {
    ids: Vec<i32>,
    levels: Vec<u8>,
    flaw: Flaw,
}

impl Skills {
    fn of(fit: &Fit, flaw: Flaw) -> Skills {
        let numbers = 0..fit.skills();
        Skills {
            ids: numbers.clone().map(|number| fit.skill_id(number)).collect(),
            levels: numbers.map(|number| fit.level(number)).collect(),
            flaw,
        }
    }

    fn place(&self, id: i32) -> Option<usize> {
        self.ids.iter().position(|known| *known == id)
    }

    /// Whether a skill is raised when it has its turn.
    fn lacks(&self, turn: Turn) -> bool {
        let flaw = self.flaw;
        let level = self.place(turn.id).map(|place| self.levels[place]);
        let is_left_out = flaw.has(Fault::TrainInsertNone)
            || (flaw.has(Fault::TrainFullCut) && self.ids.len() >= MOST);
        if level.is_none() && is_left_out {
            return false;
        }
        let wanted = match () {
            () if flaw.has(Fault::TrainOverRequired) => turn.required.saturating_add(1),
            () if flaw.has(Fault::TrainLevelStops5) => turn.required.min(5),
            () => turn.required,
        };
        level.unwrap_or(0) < wanted
    }

    /// Makes steps as long as there are any; how many were made.
    fn train(&mut self, turns: &[Turn], steps: u32) -> u32 {
        let flaw = self.flaw;
        if flaw.has(Fault::TrainInTurns) {
            return self.train_in_turns(turns, steps);
        }
        let mut left = steps;
        for turn in turns {
            if flaw.has(Fault::TrainStepsEach) {
                left = steps;
            }
            for _ in 0..MOST_STEPS {
                if left == 0 || !self.lacks(*turn) {
                    break;
                }
                self.step(*turn);
                left -= 1;
            }
        }
        if let Some(last) = turns.last().and_then(|turn| self.place(turn.id))
            && flaw.has(Fault::TrainOnwards)
        {
            self.levels[last] = self.levels[last].saturating_add(left.min(255) as u8);
        }
        steps - left
    }

    fn train_in_turns(&mut self, turns: &[Turn], steps: u32) -> u32 {
        let mut left = steps;
        while left > 0 && turns.iter().any(|turn| self.lacks(*turn)) {
            for turn in turns {
                if left > 0 && self.lacks(*turn) {
                    self.step(*turn);
                    left -= 1;
                }
            }
        }
        steps - left
    }

    /// Raises a skill by one level, or adds it at level 1.
    fn step(&mut self, turn: Turn) {
        let flaw = self.flaw;
        let place = match self.place(turn.id) {
            None => return self.add(turn),
            Some(place) if flaw.has(Fault::TrainInsertListed) && self.levels[place] == 0 => {
                return self.add(turn);
            }
            Some(place) => place,
        };
        let level = self.levels[place] + 1;
        self.levels[place] = match () {
            () if flaw.has(Fault::TrainStepWhole) => turn.required,
            () if flaw.has(Fault::TrainLevelWraps) => level % 255,
            () => level,
        };
    }

    /// Puts a skill at its place.
    fn add(&mut self, turn: Turn) {
        let flaw = self.flaw;
        let level = match () {
            () if flaw.has(Fault::TrainInsertZero) => 0,
            () if flaw.has(Fault::TrainInsertTwo) => 2,
            () if flaw.has(Fault::TrainInsertWhole) => turn.required,
            () if flaw.has(Fault::TrainStepWhole) => turn.required,
            () => 1,
        };
        let end = self.ids.len();
        let behind = |before: &dyn Fn(i32) -> bool| {
            let place = self.ids.iter().position(|id| !before(*id));
            place.unwrap_or(end)
        };
        let own = behind(&|id| id < turn.id);
        let place = match () {
            () if flaw.has(Fault::TrainInsertEnd) => end,
            () if flaw.has(Fault::TrainInsertFront) => 0,
            () if flaw.has(Fault::TrainInsertBehind) => end.min(own + 1),
            () if flaw.has(Fault::TrainInsertUnsigned) => {
                behind(&|id| (id as u32) < turn.id as u32)
            }
            () => own,
        };
        self.ids.insert(place, turn.id);
        match flaw.has(Fault::TrainLevelEnd) {
            true => self.levels.push(level),
            false => self.levels.insert(place, level),
        }
    }

    /// The image with these skills; all else as it stands.
    fn written(&self, old: &[u8]) -> Vec<u8> {
        let flaw = self.flaw;
        let listed = u32_at(old, 0) as usize;
        let behind = 28 + 5 * listed;
        let size = match flaw.has(Fault::TrainSizeStays) {
            true => listed,
            false => self.ids.len(),
        };
        let mut new = (size as u32).to_le_bytes().to_vec();
        new.extend(&old[4..28]);
        new.extend(self.ids.iter().flat_map(|id| id.to_le_bytes()));
        new.extend(&self.levels);
        new.extend(&old[behind..]);
        if flaw.has(Fault::TrainTailUnmoved) {
            new[behind..old.len()].copy_from_slice(&old[behind..]);
        }
        if flaw.has(Fault::TrainUnpairedLost) {
            new = paired(&new);
        }
        if flaw.has(Fault::TrainNanPlain) || flaw.has(Fault::TrainZeroSign) {
            encode_anew(&mut new, flaw);
        }
        new
    }
}

/// The image without items and results that have no pair.
fn paired(image: &[u8]) -> Vec<u8> {
    let size = |number: usize| u32_at(image, 4 * number) as usize;
    let (skills, items, results, attributes) = (size(0), size(1), size(2), size(3));
    let pairs = items.min(results);
    let first_item = 28 + 5 * skills;
    let heads = first_item + 12 * items;
    let ids = heads + 4 * (results + 2);
    let values = ids + 4 * attributes;
    let counts = (0..pairs + 2).map(|number| u16_at(image, heads + 4 * number + 2));
    let kept: usize = counts.map(usize::from).sum();
    let mut new = image[..first_item + 12 * pairs].to_vec();
    new.extend(&image[heads..heads + 4 * (pairs + 2)]);
    new.extend(&image[ids..ids + 4 * kept]);
    new.extend(&image[values..values + 8 * kept]);
    for (number, size) in [(1, pairs), (2, pairs), (3, kept)] {
        let place = 4 * number;
        new[place..place + 4].copy_from_slice(&(size as u32).to_le_bytes());
    }
    new
}

/// The values as numbers that are written again.
fn encode_anew(image: &mut [u8], flaw: Flaw) {
    let values = image.len() - 8 * u32_at(image, 12) as usize;
    for bytes in image[values..].chunks_exact_mut(8) {
        let value = f64::from_le_bytes(bytes.try_into().expect("8 bytes"));
        let anew = match () {
            () if flaw.has(Fault::TrainNanPlain) && value.is_nan() => f64::NAN,
            () if flaw.has(Fault::TrainZeroSign) && value == 0.0 => 0.0,
            () => continue,
        };
        bytes.copy_from_slice(&anew.to_le_bytes());
    }
}
