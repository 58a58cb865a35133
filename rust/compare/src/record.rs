//! Recorded answers: a sample of the original's answers as one data file, for
//! a program that replays them where no Rust is at hand. `RECORDED.md` beside
//! this crate has the format and how the sample was made.

use std::collections::BTreeSet;
use std::fs;

use crate::case::{Ask, Case, Room};
use crate::cases;
use crate::checker::{Checker, ENTRY, Terms};
use crate::fixed;
use crate::model::{Fit, hall_image};
use crate::page::Limits;
use crate::reader::Reader;
use crate::reference::Original;
use crate::run::run;
use crate::tally::{Point, Tally};

/// The result number that stands for the list call.
pub const LIST: u32 = 0xFFFF_FFFF;
/// The result number that stands for the hall call.
pub const HALL: u32 = 0xFFFF_FFFE;
/// The result number that stands for the widening of a catalogue.
pub const WIDEN: u32 = 0xFFFF_FFFD;

/// The most bytes that the file may have.
pub const MOST: usize = 72_000;

/// A record over this is taken only where nothing smaller meets its point.
const SMALL: usize = 1_700;

/// The most bytes of a record with a walk of 512 skills or more.
const LONG_WALK: usize = 8_600;

/// One call on the main page, the officer's, and the original's answer to it.
#[derive(Clone, Debug, PartialEq)]
pub struct Record {
    /// The catalogue; of the old form for a widening.
    pub catalogue: Vec<u8>,
    /// The fit, or the hall input; nothing for a widening.
    pub fit: Vec<u8>,
    /// What a list call brings; nothing for the others.
    pub profile: Vec<u8>,
    pub allowance: u32,
    pub result: u32,
    pub room: u32,
    pub word: u64,
    /// The entries' bytes, or the widened catalogue's.
    pub written: Vec<u8>,
}

impl Record {
    /// The original's answer to one call of a case.
    fn of(case: &Case, ask: Ask) -> Option<Record> {
        let image = |fit: &Fit| fit.image();
        let is_of_a_page = matches!(ask, Ask::List(_) | Ask::Skill(..));
        if is_of_a_page && (case.limits != Limits::MAIN || case.reader != Reader::OFFICER) {
            return None;
        }
        let (fit, result, room) = match ask {
            Ask::Hall => (hall_image(&case.fits, &case.frame), HALL, None),
            Ask::List(room) => (image(&case.fits[0]), LIST, Some(room)),
            // The highest numbers stand for the other calls.
            Ask::Skill(result, _) if result >= WIDEN => return None,
            Ask::Skill(result, room) => (image(&case.fits[0]), result, Some(room)),
            Ask::Widen(room) => (Vec::new(), WIDEN, Some(room)),
            Ask::GrownList | Ask::GrownSkill(_) => return None,
            Ask::HauledList | Ask::HauledSkill(_) => return None,
            Ask::WidenedList | Ask::WidenedSkill(_) => return None,
            Ask::RetrainedList(_) | Ask::RetrainedSkill(..) => return None,
            // A record has one number beside its images, and no place for steps.
            Ask::Train(..) | Ask::Trained(..) => return None,
            Ask::Trim(_) | Ask::Trimmed => return None,
            Ask::Cause(..) | Ask::Caused(_) => return None,
            Ask::LeaveOut(..) | Ask::LeftOut => return None,
        };
        let catalogue = match ask {
            Ask::Widen(_) => case.catalogue.old_image(),
            _ => case.catalogue.image(),
        };
        let (profile, allowance) = match ask {
            Ask::List(_) => (case.league.image(), case.league.allowance),
            _ => (Vec::new(), 0),
        };
        let terms = Terms {
            profile: &profile,
            allowance,
            ..Terms::default()
        };
        let call = |out: &mut [u8]| match ask {
            Ask::Hall => Original.hall(&catalogue, &fit),
            Ask::List(_) => Original.list(&catalogue, &fit, terms, out),
            Ask::Widen(_) => Original.widen(&catalogue, out),
            _ => Original.skill(&catalogue, &fit, result, terms, out),
        };
        // The bytes that an answered call writes, by its word.
        let written = |word: u64| match ask {
            _ if word >> 32 != 0 => 0,
            Ask::Hall => 0,
            Ask::Widen(_) => word as usize,
            _ => ENTRY * word as usize,
        };
        // Room for all that there can be, to learn how much it is.
        let mut all = vec![0; (ENTRY * 8_192).max(2 * catalogue.len())];
        let word = call(&mut all);
        let length = match room {
            Some(room) if word >> 32 == 0 => room.length(written(word)),
            Some(room) => room.length(2 * ENTRY).min(2 * ENTRY),
            None => 0,
        };
        let mut out = vec![0; length];
        let word = call(&mut out);
        out.truncate(written(word));
        Some(Record {
            catalogue,
            fit,
            profile,
            allowance,
            result,
            room: length as u32,
            word,
            written: out,
        })
    }

    fn bytes(&self) -> Vec<u8> {
        let mut bytes = Vec::new();
        for number in [
            self.catalogue.len() as u32,
            self.fit.len() as u32,
            self.profile.len() as u32,
            self.allowance,
            self.result,
            self.room,
        ] {
            bytes.extend(number.to_le_bytes());
        }
        bytes.extend(self.word.to_le_bytes());
        bytes.extend((self.written.len() as u32).to_le_bytes());
        bytes.extend(&self.catalogue);
        bytes.extend(&self.fit);
        bytes.extend(&self.profile);
        bytes.extend(&self.written);
        bytes
    }
}

/// The sample: calls that meet something new first, then more of the cases
/// written by hand, as long as there is room.
pub fn sample() -> Vec<Record> {
    let [written, skills, made] = fixed::parts();
    let mut sample = Sample::default();
    // What the file must hold comes before what it may hold.
    for number in skills.clone() {
        sample.meet(number, LONG_WALK, is_long_walk);
    }
    for number in written.clone().chain(made.clone()) {
        sample.meet(number, SMALL, is_rule_or_refusal);
    }
    for number in written.clone().chain(made.clone()) {
        sample.meet(number, SMALL, is_of_document_02);
    }
    for number in written.clone().chain(made.clone()) {
        sample.meet(number, SMALL, |_| true);
    }
    for number in skills.clone() {
        sample.meet(number, LONG_WALK, |_| true);
    }
    for number in made.clone() {
        sample.meet(number, 2 * SMALL, |_| true);
    }
    for number in skills.chain(written) {
        sample.add(number);
    }
    sample.records
}

#[derive(Default)]
struct Sample {
    records: Vec<Record>,
    met: BTreeSet<Point>,
    length: usize,
}

impl Sample {
    /// Takes every call of a case that meets such a point for the first time.
    fn meet(&mut self, number: usize, limit: usize, asked: fn(&Point) -> bool) {
        let mut case = cases::case(0, number as u64);
        if is_far_apart(&case) {
            return;
        }
        case.asks.sort_by_key(|ask| !is_exact(ask));
        for ask in &case.asks {
            let one = Case {
                asks: vec![*ask],
                ..case.clone()
            };
            let mut tally = Tally::default();
            let agrees = run(&one, &Original, &mut tally).is_ok();
            assert!(agrees, "the original agrees with itself");
            let mut new = tally.required();
            new.retain(|(point, count)| *count > 0 && !self.met.contains(point));
            // A call is met for every reader, and recorded for an officer.
            new.retain(|(point, _)| !matches!(point, Point::Reader(_)));
            if !new.iter().any(|(point, _)| asked(point)) {
                continue;
            }
            if let Some(record) = Record::of(&one, *ask)
                && self.push(record, limit)
            {
                self.met.extend(new.into_iter().map(|(point, _)| point));
            }
        }
    }

    /// Takes the call with a buffer of the exact length.
    fn add(&mut self, number: usize) {
        let case = cases::case(0, number as u64);
        if let Some(ask) = case.asks.iter().find(|ask| is_exact(ask))
            && let Some(record) = Record::of(&case, *ask)
        {
            self.push(record, SMALL);
        }
    }

    fn push(&mut self, record: Record, limit: usize) -> bool {
        let length = record.bytes().len();
        let fits = length <= limit && 4 + self.length + length <= MOST;
        if fits && !self.records.contains(&record) {
            self.length += length;
            self.records.push(record);
        }
        fits
    }
}

fn is_long_walk(point: &Point) -> bool {
    matches!(point, Point::Wanted(512 | 513))
}

fn is_rule_or_refusal(point: &Point) -> bool {
    matches!(point, Point::Rule(_) | Point::Refusal(..))
}

fn is_of_document_02(point: &Point) -> bool {
    matches!(
        point,
        Point::HallFit(_) | Point::HallUnread(..) | Point::League(_) | Point::Unknown(_)
    )
}

/// Whether a call lends a buffer of the exact length, or none.
fn is_exact(ask: &Ask) -> bool {
    matches!(
        ask,
        Ask::List(Room::Exact) | Ask::Skill(_, Room::Exact) | Ask::Widen(Room::Exact) | Ask::Hall
    )
}

/// Whether two refusals were planted that are not neighbours in their order:
/// of the pairs the neighbours alone are recorded.
fn is_far_apart(case: &Case) -> bool {
    match case.planted[..] {
        [second, first] => second.cause.rank() > first.cause.rank() + 2,
        _ => false,
    }
}

/// The file's bytes.
pub fn file(records: &[Record]) -> Vec<u8> {
    let mut bytes = (records.len() as u32).to_le_bytes().to_vec();
    for record in records {
        bytes.extend(record.bytes());
    }
    bytes
}

/// Writes the file and says how large it is.
pub fn write(name: &str) -> Result<(), String> {
    let records = sample();
    let bytes = file(&records);
    fs::write(name, &bytes).map_err(|error| format!("cannot write {name}: {error}"))?;
    println!(
        "{} records, {} bytes, in {name}",
        records.len(),
        bytes.len()
    );
    Ok(())
}

/// The records of a file, or what is wrong with it.
pub fn read(bytes: &[u8]) -> Result<Vec<Record>, String> {
    let mut rest = bytes;
    let mut take = |length: usize| {
        let (taken, more) = rest
            .split_at_checked(length)
            .ok_or("the file ends in the middle of a record")?;
        rest = more;
        Ok::<&[u8], String>(taken)
    };
    let number = |bytes: &[u8]| {
        bytes
            .iter()
            .rev()
            .fold(0u64, |number, byte| 256 * number + u64::from(*byte))
    };
    let count = number(take(4)?);
    let mut records = Vec::new();
    for _ in 0..count {
        let catalogue = number(take(4)?) as usize;
        let fit = number(take(4)?) as usize;
        let profile = number(take(4)?) as usize;
        let allowance = number(take(4)?) as u32;
        let result = number(take(4)?) as u32;
        let room = number(take(4)?) as u32;
        let word = number(take(8)?);
        let written = number(take(4)?) as usize;
        records.push(Record {
            catalogue: take(catalogue)?.to_vec(),
            fit: take(fit)?.to_vec(),
            profile: take(profile)?.to_vec(),
            allowance,
            result,
            room,
            word,
            written: take(written)?.to_vec(),
        });
    }
    match rest.is_empty() {
        true => Ok(records),
        false => Err("bytes follow the last record".to_string()),
    }
}
