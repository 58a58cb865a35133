//! Document 02's P1: the catalogue that one fit touches. By places: the records of
//! types, links and bases are numbered through, and those under an id are marked, a
//! window of them at a time, where the reference filters record by record.

use std::collections::BTreeSet;

use super::bytes::{f64_at, i32_at, u32_at};
use super::catalogue::{Catalogue, Record};
use super::context::{self, Context};
use super::fault::Fault;
use super::fit::{CARGO, Fit};
use super::skill::{self, Walk};
use super::{Flaw, Measure, Number, Rows, opened, write};
use crate::checker::refused;

/// So many places are marked at a time.
const WINDOW: usize = 1 << 20;

/// The most skills that a result may want.
const MOST: usize = 512;

/// The category of skills.
const SKILL: i32 = 16;

/// The names of required skills and their levels.
const REQUIRED: std::ops::Range<usize> = 76..88;

/// The blocks by their numbers; those from the types on are by type.
const NAMES: usize = 0;
const EFFECTS: usize = 1;
const TYPES: usize = 2;
const LINKS: usize = 3;
const BASES: usize = 4;

pub fn trim(images: (&[u8], &[u8]), out: &mut [u8], flaw: Flaw) -> u64 {
    match trimmed(images, out.len(), flaw) {
        Ok(image) => answered(&image, images.0, out, flaw),
        Err(number) => {
            turned_away(images.0, out, flaw);
            let counts = number == 9 && flaw.has(Fault::TrimWalkCounts);
            refused(number) + if counts { MOST as u64 } else { 0 }
        }
    }
}

/// Writes the catalogue where it has room; the word of the call.
fn answered(image: &[u8], old: &[u8], out: &mut [u8], flaw: Flaw) -> u64 {
    if image == old && flaw.has(Fault::TrimWholeUnwritten) {
        return 0;
    }
    let needed = match () {
        () if flaw.has(Fault::TrimRoomOld) => old.len(),
        () if flaw.has(Fault::RoomMustExceed) => image.len() + 1,
        () if flaw.has(Fault::RoomOneShort) => image.len() - 1,
        () => image.len(),
    };
    if out.len() < needed || flaw.refuses(Measure::TrimmedBytes, image.len()) {
        if flaw.has(Fault::TrimRoomFilled) {
            let room = out.len();
            out.copy_from_slice(&image[..room]);
        }
        let counts = flaw.has(Fault::TrimRoomCounts);
        return refused(10) + if counts { image.len() as u64 } else { 0 };
    }
    let most = flaw.rows(Rows::TrimmedBytes, image.len());
    write(&image[..most], out, flaw);
    if flaw.has(Fault::TrimTailCleared) {
        out[image.len()..].fill(0);
    }
    let records = || (0..5).map(|block| u32_at(image, 4 * block)).sum::<u32>();
    match () {
        () if flaw.has(Fault::TrimCountsOld) => old.len() as u64,
        () if flaw.has(Fault::TrimCountsSaved) => (old.len() - image.len()) as u64,
        () if flaw.has(Fault::TrimCountsRecords) => records().into(),
        () => flaw.number(Number::TrimCount, image.len()) as u64,
    }
}

/// What a refusal leaves in the buffer: nothing.
fn turned_away(old: &[u8], out: &mut [u8], flaw: Flaw) {
    if flaw.has(Fault::RefusalClears) {
        out.fill(0);
    }
    if flaw.has(Fault::TrimRefusalCopies) {
        let room = out.len().min(old.len());
        out[..room].copy_from_slice(&old[..room]);
    }
}

/// The trimmed catalogue, or the refusal before 10.
fn trimmed((image, fit): (&[u8], &[u8]), room: usize, flaw: Flaw) -> Result<Vec<u8>, u8> {
    let has_no_room = room < 20;
    if flaw.has(Fault::TrimRoomFirst) && has_no_room {
        return Err(10);
    }
    let (catalogue, fit) = match opened(image, fit, flaw) {
        Err(4..=6) if flaw.has(Fault::TrimRoomBeforeFit) && has_no_room => return Err(10),
        Err(number @ (5 | 6)) if flaw.has(Fault::TrimWalkBeforeIds) => {
            let catalogue = Catalogue::open(image, flaw)?;
            let fit = Fit::unjudged(fit, flaw);
            let context = Context::new(&catalogue, &fit, flaw);
            let is_too_long = Touched::new(&context).is_too_long();
            return Err(if is_too_long { 9 } else { number });
        }
        opened => opened?,
    };
    let context = Context::new(&catalogue, &fit, flaw);
    let touched = Touched::new(&context);
    if touched.is_too_long() {
        let number = match () {
            () if flaw.has(Fault::TrimWalkAs13) => 13,
            () if flaw.has(Fault::TrimWalkAfterRoom) && has_no_room => 10,
            () => 9,
        };
        return Err(number);
    }
    Ok(Kept::of(&catalogue, &touched.ids(), flaw).image())
}

/// What a fit touches.
struct Touched<'a> {
    context: &'a Context<'a>,
    /// What each result wants.
    walks: Vec<Walk>,
}

impl<'a> Touched<'a> {
    fn new(context: &'a Context<'a>) -> Touched<'a> {
        let results = 0..context.fit.results() + 2;
        let walks = results.map(|result| skill::wanted_skills(context, result));
        let walks = walks.collect();
        Touched { context, walks }
    }

    /// Whether some result wants over 512 skills.
    fn is_too_long(&self) -> bool {
        let Context { fit, flaw, .. } = *self.context;
        let most = match () {
            () if flaw.has(Fault::TrimWalk511) => MOST - 1,
            () if flaw.has(Fault::TrimWalk513) => MOST + 1,
            () => MOST,
        };
        let is_early = match flaw {
            Flaw::Fault(Fault::TrimWalkTogether) => self.is_many(),
            Flaw::Refused(Measure::TrimTogether, _) => {
                flaw.refuses(Measure::TrimTogether, self.together().len())
            }
            _ => false,
        };
        if is_early {
            return true;
        }
        let all = self.walks.len();
        let most = match flaw.has(Fault::TrimManyLongest) && self.is_many() {
            true => MOST - 1,
            false => most,
        };
        let judged = match () {
            () if flaw.has(Fault::TrimManyShort) && self.is_many() => 0..all - 2,
            () if flaw.has(Fault::TrimWalkUnasked) || flaw.has(Fault::TrimWalkCut) => 0..0,
            () if flaw.has(Fault::TrimWalkSkipped) => 0..0,
            () if flaw.has(Fault::TrimWalkOfShip) => 0..1,
            () if flaw.has(Fault::TrimWalkOfItems) => 2..all,
            () if flaw.has(Fault::TrimWalkOfPairs) => 0..fit.pairs() + 2,
            () => 0..all,
        };
        self.walks[judged].iter().any(|walk| walk.ids.len() > most)
    }

    /// The skills that all results want, each once, in the order met.
    fn together(&self) -> Vec<i32> {
        let mut met = BTreeSet::new();
        let all = self.walks.iter().flat_map(|walk| &walk.ids);
        all.copied().filter(|id| met.insert(*id)).collect()
    }

    /// Whether one walk has no room for all of these.
    fn is_many(&self) -> bool {
        self.together().len() > MOST
    }

    /// The ids, those of the fit's own first, one that is named twice twice.
    fn ids(&self) -> Vec<i32> {
        let flaw = self.context.flaw;
        let mut ids = self.named();
        ids.truncate(flaw.rows(Rows::TrimNamed, ids.len()));
        ids.extend(self.wanted());
        ids.extend(self.demanded());
        if let Flaw::Short(Rows::TrimTogether, most) = flaw {
            let together = self.together();
            let lost: BTreeSet<&i32> = together.iter().skip(most).collect();
            ids.retain(|id| !lost.contains(id));
        }
        if flaw.has(Fault::TrimNegativeLost) {
            ids.retain(|id| *id >= 0);
        }
        ids
    }

    /// The types that the fit names.
    fn named(&self) -> Vec<i32> {
        let Context {
            catalogue,
            fit,
            flaw,
            ..
        } = *self.context;
        let mut ids = Vec::new();
        if !flaw.has(Fault::TrimShipLost) {
            ids.push(fit.ship_type());
        }
        if flaw.has(Fault::TrimOffHull) && !context::is_hull(catalogue, fit, flaw) {
            return ids;
        }
        let has_mode = fit.mode_flag() == 1 && !flaw.has(Fault::TrimModeLost);
        if has_mode || flaw.has(Fault::TrimModeUnderFlag0) {
            ids.push(fit.mode());
        }
        let is_skill = |id: &i32| {
            let found = catalogue.type_of(*id);
            found.is_some_and(|found| found.category == SKILL)
        };
        let skills = (0..fit.skills()).map(|number| fit.skill_id(number));
        match () {
            () if flaw.has(Fault::TrimSkillsLost) => {}
            () if flaw.has(Fault::TrimSkillsOfCategory) => ids.extend(skills.filter(is_skill)),
            () => ids.extend(skills),
        }
        let items = match flaw.has(Fault::TrimItemsOfPairs) {
            true => fit.pairs(),
            false => fit.items(),
        };
        let items = (0..items).filter(|number| self.keeps_item(*number));
        ids.extend(items.map(|number| fit.item(number).type_id));
        ids
    }

    /// Whether no fault passes an item over.
    fn keeps_item(&self, number: usize) -> bool {
        let Context {
            catalogue,
            fit,
            flaw,
            ..
        } = *self.context;
        let item = fit.item(number);
        let is_paired = number < fit.pairs();
        match () {
            () if flaw.has(Fault::TrimCargoLost) => item.kind != CARGO,
            () if is_paired => true,
            () if flaw.has(Fault::TrimQuantity0Lost) => item.quantity > 0,
            () if flaw.has(Fault::TrimUntypedItemLost) => catalogue.type_of(item.type_id).is_some(),
            () if flaw.has(Fault::TrimItemsOffHull) => context::is_hull(catalogue, fit, flaw),
            () => true,
        }
    }

    /// The skills that base values of types demand, where a fault keeps them.
    fn demanded(&self) -> Vec<i32> {
        let Context { fit, flaw, .. } = *self.context;
        let of_items = |numbers: std::ops::Range<usize>| -> Vec<i32> {
            numbers.map(|number| fit.item(number).type_id).collect()
        };
        let types = match () {
            () if flaw.has(Fault::TrimWantedByShipType) => vec![fit.ship_type()],
            () if flaw.has(Fault::TrimWantedByModeType) && fit.mode_flag() == 1 => {
                vec![fit.mode()]
            }
            () if flaw.has(Fault::TrimWantedByListed) => {
                let skills = (0..fit.skills()).map(|number| fit.skill_id(number));
                skills.collect()
            }
            () if flaw.has(Fault::TrimWantedByItemTypes) => of_items(0..fit.pairs()),
            () if flaw.has(Fault::TrimWantedByLoneTypes) => of_items(fit.pairs()..fit.items()),
            () => Vec::new(),
        };
        let demands = |id: &i32| skill::demanded_skills(self.context, *id).ids;
        types.iter().flat_map(demands).collect()
    }

    /// The skills that the results want.
    fn wanted(&self) -> Vec<i32> {
        let Context { fit, flaw, .. } = *self.context;
        let all = self.walks.len();
        let walked = match () {
            () if flaw.has(Fault::TrimWantedByShip) => 0..1,
            () if flaw.has(Fault::TrimWantedByItems) => 2..all,
            () if flaw.has(Fault::TrimWantedByPairs) => 0..fit.pairs() + 2,
            () if flaw.has(Fault::TrimManyByShip) && self.is_many() => 0..1,
            () if flaw.has(Fault::TrimManyLast) && self.is_many() => all - 1..all,
            () if flaw.has(Fault::TrimManyShort) && self.is_many() => 0..all - 2,
            () => 0..flaw.rows(Rows::TrimResults, all),
        };
        let is_direct = match flaw.has(Fault::TrimManyDirect) {
            true => self.is_many(),
            false => flaw.has(Fault::TrimDirect),
        };
        let kept = |walk: &Walk| -> Vec<i32> {
            let both = walk.ids.iter().copied().zip(walk.levels.iter().copied());
            let most = match () {
                () if is_direct => walk.direct,
                () if flaw.has(Fault::TrimWalkCut) => MOST,
                () if flaw.has(Fault::TrimWalkSkipped) && walk.ids.len() > MOST => 0,
                () => flaw.rows(Rows::TrimWanted, walk.ids.len()),
            };
            let both = both.take(most);
            let is_kept = |level: u8| level > 0 || !flaw.has(Fault::TrimLevel0Lost);
            both.filter(|skill| is_kept(skill.1))
                .map(|skill| skill.0)
                .collect()
        };
        self.walks[walked].iter().flat_map(kept).collect()
    }
}

/// What is kept of each block: names and effects whole, the others by places.
struct Kept<'a> {
    catalogue: &'a Catalogue<'a>,
    blocks: [Vec<Record<'a>>; 5],
    flaw: Flaw,
}

impl<'a> Kept<'a> {
    fn of(catalogue: &'a Catalogue<'a>, ids: &[i32], flaw: Flaw) -> Kept<'a> {
        let places = Places::new(catalogue, flaw).under(ids);
        let blocks = std::array::from_fn(|block| match block {
            NAMES | EFFECTS => catalogue.records(block),
            _ => records(catalogue, block, &places, flaw),
        });
        let mut kept = Kept {
            catalogue,
            blocks,
            flaw,
        };
        kept.invent_types(ids);
        kept.reorder(ids);
        kept.drop_more(ids);
        kept
    }

    /// A fault's types for ids that have none.
    fn invent_types(&mut self, ids: &[i32]) {
        if !self.flaw.has(Fault::TrimTypeInvented) {
            return;
        }
        let types = &mut self.blocks[TYPES];
        for id in ids {
            if types.iter().all(|record| record.0 != *id) {
                types.push((*id, &[0; 16]));
            }
        }
        types.sort_by_key(|record| record.0);
    }

    /// Another order than the old one, and records that are alike but once.
    fn reorder(&mut self, ids: &[i32]) {
        let flaw = self.flaw;
        let [_, _, types, links, bases] = &mut self.blocks;
        let attribute = |record: &Record| (record.0, i32_at(record.1, 0));
        match () {
            () if flaw.has(Fault::TrimTypesAsNamed) => {
                types.sort_by_key(|record| ids.iter().position(|id| *id == record.0));
            }
            () if flaw.has(Fault::TrimLinksReversed) => backwards(links),
            () if flaw.has(Fault::TrimBasesReversed) => backwards(bases),
            () if flaw.has(Fault::TrimLinksSorted) => links.sort_by_key(attribute),
            () if flaw.has(Fault::TrimBasesSorted) => bases.sort_by_key(attribute),
            () if flaw.has(Fault::TrimLinksOnce) => once(links),
            () if flaw.has(Fault::TrimBasesOnce) => once(bases),
            () => {}
        }
    }

    /// Drops what a fault does not keep. The ship is the first of the ids.
    fn drop_more(&mut self, ids: &[i32]) {
        let flaw = self.flaw;
        let required: Vec<i32> = REQUIRED
            .filter_map(|name| self.catalogue.name(name))
            .collect();
        let [names, effects, types, links, bases] = &mut self.blocks;
        let value = |record: &Record| i32_at(record.1, 0);
        match () {
            () if flaw.has(Fault::TrimNamesLost) => names.clear(),
            () if flaw.has(Fault::TrimEffectsLost) => effects.clear(),
            () if flaw.has(Fault::TrimNamesOfBases) => {
                names.retain(|name| bases.iter().any(|base| value(base) == value(name)));
            }
            () if flaw.has(Fault::TrimEffectsOfLinks) => {
                effects.retain(|effect| links.iter().any(|link| value(link) == effect.0));
            }
            () if flaw.has(Fault::TrimBasesOfSkills) => {
                bases.retain(|base| required.contains(&value(base)));
            }
            () if flaw.has(Fault::TrimShipTypeAlone) => {
                links.retain(|record| ids[1..].contains(&record.0));
                bases.retain(|record| ids[1..].contains(&record.0));
            }
            () if flaw.has(Fault::TrimUntypedLost) => {
                let has_type = |record: &Record| types.iter().any(|it| it.0 == record.0);
                links.retain(has_type);
                bases.retain(has_type);
            }
            () if flaw.has(Fault::TrimUntypedLinksLost) => {
                links.retain(|record| types.iter().any(|it| it.0 == record.0));
            }
            () if flaw.has(Fault::TrimUntypedBasesLost) => {
                bases.retain(|record| types.iter().any(|it| it.0 == record.0));
            }
            () => {}
        }
    }

    /// The sizes, then block by block all keys and all values.
    fn image(&self) -> Vec<u8> {
        let flaw = self.flaw;
        let mut image = Vec::new();
        for block in &self.blocks {
            image.extend((block.len() as u32).to_le_bytes());
        }
        if flaw.has(Fault::TrimSizesOld) {
            image = self.catalogue.sizes().to_vec();
        }
        for (number, block) in self.blocks.iter().enumerate() {
            let is_mixed = number >= TYPES && flaw.has(Fault::TrimKeysMixed);
            for (key, value) in block {
                image.extend(key.to_le_bytes());
                if is_mixed {
                    image.extend(*value);
                }
            }
            for (_, value) in block.iter().filter(|_| !is_mixed) {
                let at = image.len();
                image.extend(*value);
                anew(number, &mut image[at..], flaw);
            }
        }
        image
    }
}

/// The records of a block at some of all places. A fault takes their values from
/// elsewhere.
fn records<'a>(
    catalogue: &'a Catalogue<'a>,
    block: usize,
    places: &[Vec<usize>; 3],
    flaw: Flaw,
) -> Vec<Record<'a>> {
    let all = catalogue.records(block);
    let is_whole = match block {
        TYPES => flaw.has(Fault::TrimTypesAll),
        LINKS => flaw.has(Fault::TrimLinksAll),
        _ => flaw.has(Fault::TrimBasesAll),
    };
    if is_whole {
        return all;
    }
    let rows = &places[block - TYPES];
    let value = |number: usize, row: usize| {
        let row = match () {
            () if flaw.has(Fault::TrimValuesFirst) => number,
            () if flaw.has(Fault::TrimValuesNext) => row + 1,
            () if flaw.has(Fault::TrimBaseValuesOfLinks) && block == BASES => {
                places[LINKS - TYPES].get(number).copied().unwrap_or(row)
            }
            () => row,
        };
        all[row.min(all.len() - 1)].1
    };
    let records = rows.iter().enumerate();
    records
        .map(|(number, row)| (all[*row].0, value(number, *row)))
        .collect()
}

/// The records of each type from the last to the first.
fn backwards(records: &mut [Record]) {
    records.reverse();
    records.sort_by_key(|record| record.0);
}

/// Of the records of a type that begin alike the first alone.
fn once(records: &mut Vec<Record>) {
    let mut met = BTreeSet::new();
    records.retain(|record| met.insert((record.0, i32_at(record.1, 0))));
}

/// A value that is read and written again, where a fault does not copy it.
fn anew(block: usize, value: &mut [u8], flaw: Flaw) {
    match block {
        TYPES => {
            let (flag, bits) = (u32_at(value, 8), u32_at(value, 12));
            let is_nan = flag == 1 && f32::from_bits(bits).is_nan();
            let changed: u32 = match () {
                () if flaw.has(Fault::TrimVolumeFlagless) && flag == 0 => 0,
                () if flaw.has(Fault::TrimVolumeNan) && is_nan => 0x7FC0_0000,
                () => return,
            };
            value[12..].copy_from_slice(&changed.to_le_bytes());
        }
        BASES => {
            let base = f64_at(value, 4);
            let changed = match () {
                () if flaw.has(Fault::TrimBaseNan) && base.is_nan() => f64::NAN,
                () if flaw.has(Fault::TrimBaseZero) && base == 0.0 => 0.0,
                () if flaw.has(Fault::TrimBaseNarrowed) => f64::from(base as f32),
                () => return,
            };
            value[4..].copy_from_slice(&changed.to_le_bytes());
        }
        _ => {}
    }
}

/// The places of types, links and bases, numbered through.
struct Places<'a> {
    catalogue: &'a Catalogue<'a>,
    /// Where the places of each block begin, and the end of the last.
    starts: [usize; 4],
    flaw: Flaw,
}

impl<'a> Places<'a> {
    fn new(catalogue: &'a Catalogue<'a>, flaw: Flaw) -> Places<'a> {
        let size = |block: usize| u32_at(catalogue.sizes(), 4 * block) as usize;
        let mut starts = [0; 4];
        for block in TYPES..=BASES {
            starts[block - 1] = starts[block - 2] + size(block);
        }
        Places {
            catalogue,
            starts,
            flaw,
        }
    }

    /// The rows of each block under some ids, in their old order.
    fn under(&self, ids: &[i32]) -> [Vec<usize>; 3] {
        let flaw = self.flaw;
        let mut found = Vec::new();
        let mut low = 0;
        let mut marks = vec![0u32; self.starts[3].min(WINDOW) + 1];
        while low < self.starts[3] {
            if !flaw.has(Fault::TrimMarksStay) {
                marks.fill(0);
            }
            for id in ids {
                self.mark(low, &mut marks, *id);
            }
            for (place, times) in marks.iter().enumerate() {
                let times = match flaw.has(Fault::TrimNamedTwice) {
                    true => *times,
                    false => (*times).min(1),
                };
                found.extend((0..times).map(|_| low + place));
            }
            low += WINDOW;
            if flaw.has(Fault::TrimOneWindow) {
                break;
            }
        }
        std::array::from_fn(|block| {
            let (start, end) = (self.starts[block], self.starts[block + 1]);
            let own = found.iter().filter(|place| (start..end).contains(*place));
            own.map(|place| place - start).collect()
        })
    }

    /// Marks the places under an id that lie in the window.
    fn mark(&self, low: usize, marks: &mut [u32], id: i32) {
        let flaw = self.flaw;
        let end = match () {
            () if flaw.has(Fault::TrimWindowTwice) => low + WINDOW + 1,
            () if flaw.has(Fault::TrimWindowLast) => low + WINDOW - 1,
            () => low + WINDOW,
        };
        for block in 0..3 {
            let run = self.catalogue.run_of(block + TYPES, id);
            let most = flaw.rows(Rows::TrimmedRun, run.len());
            let run = self.starts[block] + run.start..self.starts[block] + run.start + most;
            if flaw.has(Fault::TrimWindowRun) && run.start < low {
                continue;
            }
            for place in run {
                let place = flaw.number(Number::TrimPlace, place);
                if (low..end).contains(&place) {
                    marks[place - low] += 1;
                }
            }
        }
    }
}
