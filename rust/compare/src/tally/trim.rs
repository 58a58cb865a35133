//! What a run has to meet of trimmed catalogues: who names an id and what stands
//! under it, which records go, how far walks lead, bytes that no number holds, and
//! the calls made under both catalogues.

use std::collections::{BTreeMap, BTreeSet};

use super::point::{Call, Point};
use super::train::{Whose, demands};
use super::{Tally, held};
use crate::case::{Case, Lists};
use crate::model::{self, Damage};
use crate::names::REQUIRED;
use crate::numbers::is_fine;
use crate::reference::{self, Catalogue, Fit};
use crate::tally::size::Block;

/// A trim whose images are not refused.
pub struct Trimming<'a> {
    pub catalogue: &'a Catalogue,
    pub fit: &'a Fit,
    pub case: &'a Case,
    pub whole: &'a [u8],
    /// What is written; nothing where it is refused.
    pub small: &'a [u8],
    /// What the fit touches, where no walk is refused.
    pub ids: Option<&'a BTreeSet<i32>>,
    /// 0 where it is answered.
    pub refusal: u8,
    /// The buffer's length.
    pub length: usize,
}

#[derive(Clone, Copy, Debug, PartialEq, Eq, PartialOrd, Ord)]
pub enum TrimEdge {
    /// An id that nobody else names, with something under it.
    Named(By),
    /// Such an id that has a type or none, links or none, base values or none.
    Under(By, bool, bool, bool),
    /// Base values under such an id demand a skill that no result wants: it goes, and
    /// what stands under it.
    Unwanted(By),
    /// Records under this id are kept.
    Id(i32),
    /// Records of a block go, before or behind or between those that are kept.
    Gone(Block, Place),
    /// Nothing goes, of a catalogue that has something.
    Whole,
    /// Nothing but names and effects is kept.
    FrontAlone,
    /// There are no names and no effects.
    NoFront,
    /// 20 bytes are left.
    SizesAlone,
    /// A skill is kept that is wanted at level 0 alone.
    Level0,
    /// One that no result demands itself.
    Deep,
    /// Two that demand each other.
    Ring,
    /// Exactly 512 skills of such a result.
    Longest(Whose),
    /// 9 for such a result.
    TooMany(Whose),
    /// So many skills of all results, and fewer than 512 of each.
    Exactly(usize),
    /// Over 512 skills of all results, and of none.
    Together,
    /// Over 512 of all, and exactly 512 of such a result.
    ManyLongest(Whose),
    /// Over 513 of all, and exactly 513 of such a result, for which 9 is given.
    ManyTooMany(Whose),
    Bytes(Odd),
    /// Two links of a type that are alike; two base values of one attribute.
    Alike(Block),
    /// Links or base values of a type whose ids fall.
    Falling(Block),
    /// Type 0 is there, and the mode is 0 under flag 0.
    Mode0Unset,
    /// The same under flag 1.
    Mode0,
    NoHull,
    MoreItems,
    MoreResults,
    /// A buffer shorter than the old catalogue that is long enough.
    RoomBelowOld,
    Window(Boundary),
    /// A call under both catalogues, by its refusal, 0 where it is answered.
    Same(Call, u8),
}

/// Who names an id.
#[derive(Clone, Copy, Debug, PartialEq, Eq, PartialOrd, Ord)]
pub enum By {
    Ship,
    Mode,
    Skill,
    Item,
    /// An item without a result.
    LoneItem,
    /// One of quantity 0.
    LoneNone,
    /// A result that wants it.
    Wants(Whose),
}

/// Where records go.
#[derive(Clone, Copy, Debug, PartialEq, Eq, PartialOrd, Ord)]
pub enum Place {
    First,
    Between,
    Last,
}

/// Bytes that are not what a decoded number would be written as.
#[derive(Clone, Copy, Debug, PartialEq, Eq, PartialOrd, Ord)]
pub enum Odd {
    /// Volume bits under flag 0.
    Flagless,
    /// A volume that is a NaN with a payload or a sign.
    Volume,
    /// A base value that is one.
    Base,
    MinusZero,
    /// A base value that is no f32.
    Fine,
}

/// The record that is the last of 1,048,576, and the next.
#[derive(Clone, Copy, Debug, PartialEq, Eq, PartialOrd, Ord)]
pub enum Boundary {
    /// Both are kept, under one id.
    Crossed,
    LastAlone,
    NextAlone,
}

/// How many records a window of marks has.
const WINDOW: usize = 1 << 20;

/// The refusals of a call under both catalogues, which are not refused.
const LIST_REFUSALS: [u8; 6] = [0, 10, 11, 12, 13, 19];
const SKILL_REFUSALS: [u8; 6] = [0, 8, 10, 13, 19, 20];

impl By {
    const ALL: [By; 10] = [
        By::Ship,
        By::Mode,
        By::Skill,
        By::Item,
        By::LoneItem,
        By::LoneNone,
        By::Wants(Whose::Ship),
        By::Wants(Whose::Character),
        By::Wants(Whose::Item),
        By::Wants(Whose::Alone),
    ];

    fn words(self) -> String {
        match self {
            By::Ship => "the ship".to_string(),
            By::Mode => "the mode".to_string(),
            By::Skill => "a listed skill".to_string(),
            By::Item => "an item".to_string(),
            By::LoneItem => "an item without a result".to_string(),
            By::LoneNone => "an item of quantity 0 without a result".to_string(),
            By::Wants(whose) => format!("what {} wants", whose.words()),
        }
    }
}

impl Odd {
    const ALL: [Odd; 5] = [
        Odd::Flagless,
        Odd::Volume,
        Odd::Base,
        Odd::MinusZero,
        Odd::Fine,
    ];

    fn words(self) -> &'static str {
        match self {
            Odd::Flagless => "volume bits under flag 0",
            Odd::Volume => "a volume that is a NaN with a payload or a sign",
            Odd::Base => "a base value that is a NaN with a payload or a sign",
            Odd::MinusZero => "a base value of -0",
            Odd::Fine => "a base value that is no f32",
        }
    }
}

const BY_TYPE: [Block; 3] = [Block::Types, Block::Links, Block::Bases];

impl TrimEdge {
    pub fn all() -> Vec<TrimEdge> {
        use TrimEdge::*;
        let mut edges = vec![Whole, FrontAlone, NoFront, SizesAlone, Level0, Deep, Ring];
        edges.extend([Together, Mode0Unset, Mode0, NoHull, MoreItems, MoreResults]);
        edges.push(RoomBelowOld);
        edges.extend(By::ALL.map(Named));
        for number in 0..8 {
            let [types, links, bases] = [4, 2, 1].map(|bit| number & bit != 0);
            edges.extend(By::ALL.map(|by| Under(by, types, links, bases)));
        }
        // What is demanded by what a result wants is wanted.
        let named = By::ALL.into_iter().filter(|by| !matches!(by, By::Wants(_)));
        edges.extend(named.map(Unwanted));
        edges.extend([i32::MIN, -1, 0, i32::MAX].map(Id));
        for block in BY_TYPE {
            edges.extend([Place::First, Place::Between, Place::Last].map(|at| Gone(block, at)));
        }
        edges.extend(Whose::ALL.map(Longest));
        edges.extend(Whose::ALL.map(TooMany));
        edges.extend(Whose::ALL.map(ManyLongest));
        edges.extend(Whose::ALL.map(ManyTooMany));
        edges.extend([512, 513].map(Exactly));
        edges.extend(Odd::ALL.map(Bytes));
        edges.extend([Block::Links, Block::Bases].map(Alike));
        edges.extend([Block::Links, Block::Bases].map(Falling));
        let windows = [Boundary::Crossed, Boundary::LastAlone, Boundary::NextAlone];
        edges.extend(windows.map(Window));
        edges.extend(LIST_REFUSALS.map(|refusal| Same(Call::List, refusal)));
        edges.extend(SKILL_REFUSALS.map(|refusal| Same(Call::Skill, refusal)));
        edges
    }

    pub fn words(self) -> String {
        use TrimEdge::*;
        let has = |block: &str, holds: bool| match holds {
            true => block.to_string(),
            false => format!("no {block}"),
        };
        let what = match self {
            Named(by) => format!("an id of {} alone", by.words()),
            Under(by, types, links, bases) => format!(
                "an id of {} alone with {}, {} and {}",
                by.words(),
                has("type", types),
                has("links", links),
                has("base values", bases)
            ),
            Unwanted(by) => format!(
                "a skill that base values of {} alone demand and no result wants, gone",
                by.words()
            ),
            Id(id) => format!("records under {id} kept"),
            Gone(block, place) => {
                let place = match place {
                    Place::First => "before those kept",
                    Place::Between => "between those kept",
                    Place::Last => "behind those kept",
                };
                format!("{} gone {place}", block.words())
            }
            Whole => "nothing goes".to_string(),
            FrontAlone => "names and effects alone are kept".to_string(),
            NoFront => "no names and no effects".to_string(),
            SizesAlone => "20 bytes are left".to_string(),
            Level0 => "a skill wanted at level 0".to_string(),
            Deep => "a skill that another one demands".to_string(),
            Ring => "skills that demand each other".to_string(),
            Longest(whose) => format!("512 skills of {}", whose.words()),
            TooMany(whose) => format!("9 for {}", whose.words()),
            Exactly(skills) => format!("{skills} skills of all results together"),
            Together => "over 512 skills of all results together".to_string(),
            ManyLongest(whose) => format!("over 512 skills, and 512 of {}", whose.words()),
            ManyTooMany(whose) => format!("over 513 skills, and 9 for {}", whose.words()),
            Bytes(odd) => odd.words().to_string(),
            Alike(block) => format!("{} of a type that are alike", block.words()),
            Falling(block) => format!("{} of a type that fall", block.words()),
            Mode0Unset => "type 0, and no mode".to_string(),
            Mode0 => "type 0, and mode 0".to_string(),
            NoHull => "on a ship that is no hull".to_string(),
            MoreItems => "more items than results".to_string(),
            MoreResults => "more results than items".to_string(),
            RoomBelowOld => "a buffer shorter than the old catalogue, and long enough".to_string(),
            Window(window) => match window {
                Boundary::Crossed => "records 1048576 and 1048577 kept, of one id",
                Boundary::LastAlone => "record 1048576 kept, and not the next",
                Boundary::NextAlone => "record 1048577 kept, and not the one before",
            }
            .to_string(),
            Same(call, 0) => format!("the {call} under both catalogues, answered"),
            Same(call, refusal) => {
                format!("the {call} under both catalogues, refused by {refusal}")
            }
        };
        format!("trim, {what}")
    }
}

/// A call under both catalogues.
pub fn under(tally: &mut Tally, call: Lists, word: u64) {
    meet(tally, [TrimEdge::Same(Call::of(call), (word >> 32) as u8)]);
}

/// A trim, answered or not.
pub fn called(tally: &mut Tally, trimming: &Trimming) {
    let damage = [
        &trimming.case.catalogue.damage,
        &trimming.case.fits[0].damage,
    ];
    if damage.iter().any(|damage| **damage != Damage::default()) {
        return;
    }
    meet(tally, walks(trimming));
    if let (0, Some(ids)) = (trimming.refusal, trimming.ids) {
        meet(tally, names(trimming, ids));
        meet(tally, records(trimming.case, ids));
        meet(tally, bytes(&trimming.case.catalogue, ids));
        meet(tally, surroundings(trimming, ids));
    }
}

fn meet(tally: &mut Tally, edges: impl IntoIterator<Item = TrimEdge>) {
    for edge in edges {
        tally.meet(Point::Trim(edge));
    }
}

/// What each result wants.
fn wanted(trimming: &Trimming) -> Vec<(Whose, Vec<(i32, u8)>)> {
    let Trimming { catalogue, fit, .. } = trimming;
    let items = fit.fit.items.len();
    let results = (0..).map_while(|number| Some((number, fit.result(number)?)));
    let walk = |(number, result)| {
        let wanted = fit.wanted_skills(catalogue, result);
        (Whose::of(number, items), wanted)
    };
    results.map(walk).collect()
}

/// How far the walks lead.
fn walks(trimming: &Trimming) -> Vec<TrimEdge> {
    let wanted = wanted(trimming);
    let all = wanted.iter().flat_map(|(_, skills)| skills);
    let all: BTreeSet<i32> = all.map(|skill| skill.0).collect();
    let (is_answered, is_long) = (trimming.refusal == 0, trimming.refusal == 9);
    let mut edges = Vec::new();
    for (whose, skills) in &wanted {
        let (many, own) = (all.len(), skills.len());
        edges.extend(held([
            (own == 512, TrimEdge::Longest(*whose)),
            (own > 512 && is_long, TrimEdge::TooMany(*whose)),
            (
                own == 512 && many > 512 && is_answered,
                TrimEdge::ManyLongest(*whose),
            ),
            (
                own == 513 && many > 513 && is_long,
                TrimEdge::ManyTooMany(*whose),
            ),
        ]));
    }
    let is_shared = is_answered && wanted.iter().all(|(_, skills)| skills.len() < 512);
    edges.extend(held([
        (is_answered && all.len() > 512, TrimEdge::Together),
        (is_shared && all.len() == 512, TrimEdge::Exactly(512)),
        (is_shared && all.len() == 513, TrimEdge::Exactly(513)),
    ]));
    edges
}

/// Who names ids, and what is wanted how.
fn names(trimming: &Trimming, kept: &BTreeSet<i32>) -> Vec<TrimEdge> {
    let wanted = wanted(trimming);
    let by = by(trimming, &wanted);
    let under = Under::of(trimming.case);
    let mut edges = Vec::new();
    for (one, id) in alone(&by) {
        let (types, links, bases) = under.of_id(id);
        edges.push(TrimEdge::Under(one, types, links, bases));
        edges.extend(under.is_any(id).then_some(TrimEdge::Named(one)));
    }
    for id in [i32::MIN, -1, 0, i32::MAX] {
        let is_kept = kept.contains(&id) && under.is_any(id);
        edges.extend(is_kept.then_some(TrimEdge::Id(id)));
    }
    let unwanted = |(one, ids): (&By, &BTreeSet<i32>)| {
        let demands = ids.iter().flat_map(|id| demanded(trimming.catalogue, *id));
        let gone = demands.filter(|id| !kept.contains(id) && under.is_any(*id));
        (*one, gone.collect())
    };
    let unwanted = by.iter().map(unwanted).collect();
    let gone = alone(&unwanted).into_iter();
    edges.extend(gone.map(|(one, _)| TrimEdge::Unwanted(one)));
    edges.extend(wants(trimming, &wanted, &under));
    edges.sort();
    edges.dedup();
    edges
}

/// The ids that each names or wants.
fn by(trimming: &Trimming, wanted: &[(Whose, Vec<(i32, u8)>)]) -> BTreeMap<By, BTreeSet<i32>> {
    let Trimming { case, fit, .. } = trimming;
    let model = &case.fits[0];
    let pairs = model.items.len().min(model.results.len());
    let (paired, lone) = model.items.split_at(pairs);
    let (none, lone): (Vec<_>, Vec<_>) = lone.iter().partition(|item| item.quantity == 0);
    let ids = |items: Vec<&model::Item>| items.iter().map(|item| item.type_id).collect();
    let skills = model.skills.iter().map(|skill| skill.id).collect();
    let mut by: BTreeMap<By, BTreeSet<i32>> = BTreeMap::from([
        (By::Ship, BTreeSet::from([model.ship_type])),
        (By::Mode, fit.fit.ship.mode.into_iter().collect()),
        (By::Skill, skills),
        (By::Item, ids(paired.iter().collect())),
        (By::LoneItem, ids(lone)),
        (By::LoneNone, ids(none)),
    ]);
    for (whose, skills) in wanted {
        let ids = skills.iter().map(|skill| skill.0);
        by.entry(By::Wants(*whose)).or_default().extend(ids);
    }
    by
}

/// The ids that one has and no other.
fn alone(by: &BTreeMap<By, BTreeSet<i32>>) -> Vec<(By, i32)> {
    let mut holders: BTreeMap<i32, Vec<By>> = BTreeMap::new();
    for (one, id) in by
        .iter()
        .flat_map(|(one, ids)| ids.iter().map(|id| (*one, *id)))
    {
        holders.entry(id).or_default().push(one);
    }
    let lone = holders
        .into_iter()
        .filter(|(_, holders)| holders.len() == 1);
    lone.map(|(id, holders)| (holders[0], id)).collect()
}

/// Skills that are wanted at level 0, by others, and by each other.
fn wants(trimming: &Trimming, wanted: &[(Whose, Vec<(i32, u8)>)], under: &Under) -> Vec<TrimEdge> {
    let Trimming { catalogue, fit, .. } = trimming;
    let named = reference::named(fit);
    let new = |id: i32| !named.contains(&id) && under.is_any(id);
    let skills = wanted.iter().flat_map(|(_, skills)| skills);
    let mut highest: BTreeMap<i32, u8> = BTreeMap::new();
    for (id, level) in skills {
        let known = highest.entry(*id).or_default();
        *known = (*known).max(*level);
    }
    let results = (0..).map_while(|number| fit.result(number));
    let direct: BTreeSet<i32> = results
        .flat_map(|result| demands(catalogue, result))
        .collect();
    let ring = |id: i32| {
        let demanded = |of: i32| demanded(catalogue, of);
        demanded(id)
            .into_iter()
            .any(|next| demanded(next).contains(&id))
    };
    held([
        (
            highest.iter().any(|(id, level)| *level == 0 && new(*id)),
            TrimEdge::Level0,
        ),
        (
            highest.keys().any(|id| !direct.contains(id) && new(*id)),
            TrimEdge::Deep,
        ),
        (
            highest.len() < 100 && highest.keys().any(|id| ring(*id)),
            TrimEdge::Ring,
        ),
    ])
}

/// The skills that a skill demands, by its base values.
fn demanded(catalogue: &Catalogue, skill: i32) -> Vec<i32> {
    let rows = (0..6).map(|row| REQUIRED + 2 * row);
    let counts = rows.filter(|row| catalogue.name(row + 1).is_some());
    let names = counts.filter_map(|row| catalogue.name(row));
    let values = names.filter_map(|name| catalogue.base(skill, name));
    values.map(|value| value as i32).collect()
}

/// The ids of each block.
struct Under {
    blocks: [BTreeSet<i32>; 3],
}

impl Under {
    fn of(case: &Case) -> Under {
        Under {
            blocks: BY_TYPE.map(|block| keys(case, block).into_iter().collect()),
        }
    }

    /// Whether anything does.
    fn is_any(&self, id: i32) -> bool {
        self.of_id(id) != (false, false, false)
    }

    /// Whether a type, links and base values stand under an id.
    fn of_id(&self, id: i32) -> (bool, bool, bool) {
        let [types, links, bases] = &self.blocks;
        (
            types.contains(&id),
            links.contains(&id),
            bases.contains(&id),
        )
    }
}

/// The ids of a block's records, in their order.
fn keys(case: &Case, block: Block) -> Vec<i32> {
    let catalogue = &case.catalogue;
    match block {
        Block::Types => catalogue.types.iter().map(|row| row.id).collect(),
        Block::Links => catalogue.links.iter().map(|row| row.type_id).collect(),
        _ => catalogue.bases.iter().map(|row| row.type_id).collect(),
    }
}

/// Which records go and which stay.
fn records(case: &Case, ids: &BTreeSet<i32>) -> Vec<TrimEdge> {
    let mut edges = Vec::new();
    let (mut all, mut kept) = (Vec::new(), Vec::new());
    for block in BY_TYPE {
        let keys = keys(case, block);
        let stays: Vec<bool> = keys.iter().map(|id| ids.contains(id)).collect();
        let (first, last) = (
            stays.iter().position(|is| *is),
            stays.iter().rposition(|is| *is),
        );
        if let (Some(first), Some(last)) = (first, last) {
            edges.extend(held([
                (first > 0, TrimEdge::Gone(block, Place::First)),
                (
                    stays[first..last].contains(&false),
                    TrimEdge::Gone(block, Place::Between),
                ),
                (last + 1 < stays.len(), TrimEdge::Gone(block, Place::Last)),
            ]));
        }
        all.extend(keys);
        kept.extend(stays);
    }
    if all.len() > WINDOW {
        let (last, next) = (WINDOW - 1, WINDOW);
        edges.extend(held([
            (
                kept[last] && all[last] == all[next],
                TrimEdge::Window(Boundary::Crossed),
            ),
            (
                kept[last] && !kept[next],
                TrimEdge::Window(Boundary::LastAlone),
            ),
            (
                !kept[last] && kept[next],
                TrimEdge::Window(Boundary::NextAlone),
            ),
        ]));
    }
    edges
}

/// Bytes that are copied, of records that are kept.
fn bytes(catalogue: &model::Catalogue, ids: &BTreeSet<i32>) -> Vec<TrimEdge> {
    let model::Catalogue {
        types,
        links,
        bases,
        ..
    } = catalogue;
    let types = types.iter().filter(|row| ids.contains(&row.id));
    let mut edges = Vec::new();
    for row in types {
        let is_nan = f32::from_bits(row.volume).is_nan() && row.volume != f32::NAN.to_bits();
        edges.extend(held([
            (
                row.flag == 0 && row.volume != 0,
                TrimEdge::Bytes(Odd::Flagless),
            ),
            (row.flag == 1 && is_nan, TrimEdge::Bytes(Odd::Volume)),
        ]));
    }
    let bases = bases.iter().filter(|row| ids.contains(&row.type_id));
    for row in bases.clone() {
        let value = f64::from_bits(row.value);
        let is_nan = value.is_nan() && row.value != f64::NAN.to_bits();
        edges.extend(held([
            (is_nan, TrimEdge::Bytes(Odd::Base)),
            (row.value == 1 << 63, TrimEdge::Bytes(Odd::MinusZero)),
            (is_fine(value), TrimEdge::Bytes(Odd::Fine)),
        ]));
    }
    let links = links.iter().filter(|row| ids.contains(&row.type_id));
    let links: Vec<(i32, i32)> = links.map(|row| (row.type_id, row.effect)).collect();
    let bases: Vec<(i32, i32)> = bases.map(|row| (row.type_id, row.attribute)).collect();
    for (block, rows) in [(Block::Links, links), (Block::Bases, bases)] {
        for two in rows.windows(2).filter(|two| two[0].0 == two[1].0) {
            edges.extend(held([
                (two[0] == two[1], TrimEdge::Alike(block)),
                (two[0].1 > two[1].1, TrimEdge::Falling(block)),
            ]));
        }
    }
    edges.sort();
    edges.dedup();
    edges
}

/// The catalogue as a whole, the fit, and the buffer.
fn surroundings(trimming: &Trimming, ids: &BTreeSet<i32>) -> Vec<TrimEdge> {
    let Trimming {
        catalogue,
        fit,
        case,
        whole,
        small,
        ..
    } = trimming;
    let model = &case.catalogue;
    let front = 20 + 8 * model.names.len() + 8 * model.effects.len();
    let (items, results) = (fit.fit.items.len(), fit.calculation.items.len());
    let has_0 = model.types.iter().any(|row| row.id == 0);
    let is_kept = ids.contains(&0);
    let mode = fit.fit.ship.mode;
    held([
        (whole == small && whole.len() > front, TrimEdge::Whole),
        (
            small.len() == front && front > 20 && whole.len() > front,
            TrimEdge::FrontAlone,
        ),
        (front == 20 && small.len() > 20, TrimEdge::NoFront),
        (small.len() == 20, TrimEdge::SizesAlone),
        (has_0 && mode.is_none() && !is_kept, TrimEdge::Mode0Unset),
        (has_0 && mode == Some(0), TrimEdge::Mode0),
        (!fit.is_hull(catalogue), TrimEdge::NoHull),
        (items > results, TrimEdge::MoreItems),
        (items < results, TrimEdge::MoreResults),
        (trimming.length < whole.len(), TrimEdge::RoomBelowOld),
    ])
}
