//! What a run has to meet of training: where a skill is added and which level it
//! comes to, how many steps there are beside what is missing, how many skills
//! are listed, and what stands in the fit besides.

use std::rc::Rc;

use original::ItemResult;

use super::point::Point;
use super::{Tally, held};
use crate::case::Case;
use crate::names::REQUIRED;
use crate::reference::{self, Catalogue, Fit, League, Missing, Plan, Skills};

/// A training whose images are not refused.
pub struct Training<'a> {
    pub catalogue: &'a Catalogue,
    pub fit: &'a Fit,
    pub case: &'a Case,
    pub result: u32,
    pub steps: u32,
    /// 0 where it is answered.
    pub refusal: u8,
    /// The buffer's length.
    pub length: usize,
    /// What it comes to, where it is not refused before 10.
    pub plan: Option<Rc<Plan>>,
}

#[derive(Clone, Copy, Debug, PartialEq, Eq, PartialOrd, Ord)]
pub enum TrainEdge {
    /// A step is made for such a result.
    Of(Whose),
    /// A skill is added at such a place.
    Added(Place),
    /// One of this id.
    AddedId(i32),
    /// A listed skill is raised.
    Raised,
    /// One that was listed at level 0.
    RaisedFrom0,
    /// To a level over 5, and to 255.
    RaisedTo(u8),
    Steps(StepsEdge),
    /// More steps than are missing, of which fewer are left in so many bits.
    StepsOver(u32),
    /// The result lacks nothing, and steps are made.
    NothingMissing,
    /// A skill that the result wants at level 0 and that is not listed.
    WantedAt0,
    /// The result demands one skill twice.
    Twice,
    /// A skill is raised that another one demands.
    Deep,
    /// So many skills were listed, and one of them is raised.
    Listed(u16),
    /// So many are listed after the steps, one of them added.
    Lists(u16),
    /// So many would be listed, and the steps do not get there.
    WouldList(u16),
    /// 16, with so many skills that would be listed.
    Full(u16),
    /// 16, with no step.
    FullAt0,
    /// 16, with steps that do not get there.
    FullUnreached,
    /// The list call lists the added skill as none.
    NotASkill,
    NoHull,
    /// A value of the fit is a NaN that has a payload, or a sign.
    OddNan,
    MinusZero,
    MoreItems,
    MoreResults,
    /// A buffer as long as the fit was, where it has grown.
    RoomOfOld,
    /// A buffer that is enough, and would not be for the whole plan.
    RoomOfPart,
    /// More levels are missing than this.
    Missing(u32),
    /// A list of 512 entries.
    All512,
    /// The lists beside each other where so much is left of the steps.
    Promised(StepsEdge),
}

/// A result.
#[derive(Clone, Copy, Debug, PartialEq, Eq, PartialOrd, Ord)]
pub enum Whose {
    Ship,
    Character,
    Item,
    /// One without an item.
    Alone,
}

/// Where an added skill stands.
#[derive(Clone, Copy, Debug, PartialEq, Eq, PartialOrd, Ord)]
pub enum Place {
    Only,
    First,
    Between,
    Last,
}

/// How many steps there are beside the levels that are missing.
#[derive(Clone, Copy, Debug, PartialEq, Eq, PartialOrd, Ord)]
pub enum StepsEdge {
    None,
    One,
    Some,
    OneLess,
    All,
    OneMore,
    More,
    Most,
}

impl StepsEdge {
    const ALL: [StepsEdge; 8] = [
        StepsEdge::None,
        StepsEdge::One,
        StepsEdge::Some,
        StepsEdge::OneLess,
        StepsEdge::All,
        StepsEdge::OneMore,
        StepsEdge::More,
        StepsEdge::Most,
    ];

    /// Of so many steps where so many levels are missing.
    fn of(steps: u32, missing: u32) -> StepsEdge {
        match steps {
            0 => StepsEdge::None,
            u32::MAX => StepsEdge::Most,
            _ if steps == missing => StepsEdge::All,
            _ if steps + 1 == missing => StepsEdge::OneLess,
            _ if steps == missing + 1 => StepsEdge::OneMore,
            1 => StepsEdge::One,
            _ if steps < missing => StepsEdge::Some,
            _ => StepsEdge::More,
        }
    }

    fn words(self) -> &'static str {
        match self {
            StepsEdge::None => "no step",
            StepsEdge::One => "one step of several",
            StepsEdge::Some => "some steps of several",
            StepsEdge::OneLess => "one step less than is missing",
            StepsEdge::All => "as many steps as are missing",
            StepsEdge::OneMore => "one step more than is missing",
            StepsEdge::More => "more steps than are missing",
            StepsEdge::Most => "4294967295 steps",
        }
    }
}

impl Whose {
    pub const ALL: [Whose; 4] = [Whose::Ship, Whose::Character, Whose::Item, Whose::Alone];

    pub fn of(result: u32, items: usize) -> Whose {
        match result {
            0 => Whose::Ship,
            1 => Whose::Character,
            _ if (result as usize - 2) < items => Whose::Item,
            _ => Whose::Alone,
        }
    }

    pub fn words(self) -> &'static str {
        match self {
            Whose::Ship => "the ship",
            Whose::Character => "the character",
            Whose::Item => "an item",
            Whose::Alone => "a result without an item",
        }
    }
}

impl Place {
    const ALL: [Place; 4] = [Place::Only, Place::First, Place::Between, Place::Last];

    /// Where an id stands among the listed ones.
    fn of(id: i32, listed: &Skills) -> Place {
        let before = listed.range(..id).count();
        match before {
            _ if listed.is_empty() => Place::Only,
            0 => Place::First,
            _ if before == listed.len() => Place::Last,
            _ => Place::Between,
        }
    }

    fn words(self) -> &'static str {
        match self {
            Place::Only => "to none",
            Place::First => "before all that are listed",
            Place::Between => "between listed ones",
            Place::Last => "behind all that are listed",
        }
    }
}

impl TrainEdge {
    pub fn all() -> Vec<TrainEdge> {
        use TrainEdge::*;
        let mut edges = vec![Raised, RaisedFrom0, NothingMissing, WantedAt0, Twice, Deep];
        edges.extend([FullAt0, FullUnreached, NotASkill, NoHull, OddNan, MinusZero]);
        edges.extend([MoreItems, MoreResults, RoomOfOld, RoomOfPart, All512]);
        edges.extend(Whose::ALL.map(Of));
        edges.extend(Place::ALL.map(Added));
        edges.extend([i32::MIN, -1, 0, i32::MAX].map(AddedId));
        edges.extend([6, 255].map(RaisedTo));
        edges.extend(StepsEdge::ALL.map(Steps));
        edges.extend([8, 16, 24, 31].map(StepsOver));
        edges.extend([Listed(1_024), Lists(1_024), WouldList(1_024)]);
        edges.extend([1_025, 1_026].map(Full));
        edges.extend([400, 65_535].map(Missing));
        edges.extend(StepsEdge::ALL.map(Promised));
        edges
    }

    pub fn words(self) -> String {
        use TrainEdge::*;
        let what = match self {
            Of(whose) => format!("for {}", whose.words()),
            Added(place) => format!("a skill added {}", place.words()),
            AddedId(id) => format!("skill {id} added"),
            Raised => "a listed skill raised".to_string(),
            RaisedFrom0 => "a skill raised that was listed at level 0".to_string(),
            RaisedTo(255) => "a skill raised to 255".to_string(),
            RaisedTo(_) => "a skill raised over 5".to_string(),
            Steps(edge) => edge.words().to_string(),
            StepsOver(bits) => format!("more steps than are missing, fewer in {bits} bits"),
            NothingMissing => "steps where nothing is missing".to_string(),
            WantedAt0 => "a skill wanted at level 0".to_string(),
            Twice => "a skill demanded twice by the result".to_string(),
            Deep => "a skill that another one demands".to_string(),
            Listed(count) => format!("of {count} listed skills one raised"),
            Lists(count) => format!("a skill added as number {count}"),
            WouldList(count) => format!("{count} skills would be listed, and are not yet"),
            Full(1_025) => "16, with 1025 skills".to_string(),
            Full(_) => "16, with more than 1025 skills".to_string(),
            FullAt0 => "16, with no step".to_string(),
            FullUnreached => "16, with steps that do not get there".to_string(),
            NotASkill => "an added skill that the list call lists as none".to_string(),
            NoHull => "on a ship that is no hull".to_string(),
            OddNan => "a NaN with a payload or a sign among the values".to_string(),
            MinusZero => "-0 among the values".to_string(),
            MoreItems => "more items than results".to_string(),
            MoreResults => "more results than items".to_string(),
            RoomOfOld => "a buffer as long as the fit was".to_string(),
            RoomOfPart => "a buffer too short for the whole plan, and long enough".to_string(),
            Missing(levels) => format!("more than {levels} levels missing"),
            All512 => "512 skills to train".to_string(),
            Promised(edge) => format!("the lists beside each other, {}", edge.words()),
        };
        format!("training, {what}")
    }
}

/// The calls that hold what is promised.
pub fn promised(tally: &mut Tally, steps: u32, missing: u32) {
    meet(tally, [TrainEdge::Promised(StepsEdge::of(steps, missing))]);
}

/// A training, answered or not.
pub fn called(tally: &mut Tally, training: &Training) {
    match &training.plan {
        None if training.refusal == 16 => meet(tally, full(training)),
        None => {}
        Some(plan) => {
            meet(tally, rooms(training, plan));
            if training.refusal == 0 {
                meet(tally, steps(training, plan));
                meet(tally, raises(training, plan));
                meet(tally, surroundings(training, plan));
            }
        }
    }
}

fn meet(tally: &mut Tally, edges: impl IntoIterator<Item = TrainEdge>) {
    for edge in edges {
        tally.meet(Point::Train(edge));
    }
}

/// What 16 is given for.
fn full(training: &Training) -> Vec<TrainEdge> {
    let Training { fit, steps, .. } = training;
    let listed = &fit.fit.character.skills;
    let first = reference::first_list(training.catalogue, fit, training.result);
    let first = first.expect("16 comes after 8 and 9");
    let count = reference::would_list(listed, &first).min(1_026) as u16;
    // How many steps add the skill that is one too many.
    let (mut there, mut needed) = (listed.len(), 0);
    for entry in &first {
        there += usize::from(!listed.contains_key(&entry.skill));
        if there > 1_024 {
            break;
        }
        needed += entry.levels();
    }
    let mut edges = vec![TrainEdge::Full(count)];
    edges.extend(held([
        (*steps == 0, TrainEdge::FullAt0),
        (*steps > 0 && *steps <= needed, TrainEdge::FullUnreached),
    ]));
    edges
}

/// The buffer beside the lengths of the fit before, now and at the end.
fn rooms(training: &Training, plan: &Plan) -> Vec<TrainEdge> {
    let length = |steps| plan.image(steps).len();
    let now = length(training.steps);
    let is_answered = training.refusal == 0;
    let grows = training.length == length(0) && length(0) < now;
    held([
        (grows, TrainEdge::RoomOfOld),
        (
            is_answered && training.length < length(plan.missing()),
            TrainEdge::RoomOfPart,
        ),
    ])
}

/// The steps beside what is missing.
fn steps(training: &Training, plan: &Plan) -> Vec<TrainEdge> {
    let (steps, missing) = (training.steps, plan.missing());
    let mut edges = Vec::new();
    if missing > 1 || steps != 1 {
        edges.push(TrainEdge::Steps(StepsEdge::of(steps, missing)));
    }
    for bits in [8, 16, 24, 31] {
        let left = steps & ((1 << bits) - 1);
        if steps > missing && left < missing {
            edges.push(TrainEdge::StepsOver(bits));
        }
    }
    edges.extend(held([
        (steps > 0 && missing == 0, TrainEdge::NothingMissing),
        (steps > 0 && missing > 400, TrainEdge::Missing(400)),
        (steps > 0 && missing > 65_535, TrainEdge::Missing(65_535)),
        (plan.first.len() == 512 && steps > 0, TrainEdge::All512),
    ]));
    edges
}

/// The skills that are raised and added.
fn raises(training: &Training, plan: &Plan) -> Vec<TrainEdge> {
    let (before, after) = (plan.after(0), plan.after(training.steps));
    let is_changed = |entry: &&Missing| before.get(&entry.skill) != after.get(&entry.skill);
    let changed: Vec<&Missing> = plan.first.iter().filter(is_changed).collect();
    let outcome = training
        .fit
        .result(training.result)
        .expect("8 is not given");
    let direct = demands(training.catalogue, outcome);
    let mut edges = Vec::new();
    for entry in &changed {
        let id = entry.skill;
        let level = after[&id];
        match before.get(&id) {
            None => {
                edges.push(TrainEdge::Added(Place::of(id, &before)));
                if [i32::MIN, -1, 0, i32::MAX].contains(&id) {
                    edges.push(TrainEdge::AddedId(id));
                }
            }
            Some(0) => edges.push(TrainEdge::RaisedFrom0),
            Some(_) => edges.push(TrainEdge::Raised),
        }
        edges.extend(held([
            (level > 5, TrainEdge::RaisedTo(6)),
            (level == 255, TrainEdge::RaisedTo(255)),
            (!direct.contains(&id), TrainEdge::Deep),
        ]));
    }
    let has_raised = changed
        .iter()
        .any(|entry| before.contains_key(&entry.skill));
    let would_list = reference::would_list(&before, &plan.first);
    edges.extend(held([
        (
            before.len() == 1_024 && has_raised,
            TrainEdge::Listed(1_024),
        ),
        (
            after.len() == 1_024 && before.len() < 1_024,
            TrainEdge::Lists(1_024),
        ),
        (
            would_list == 1_024 && after.len() < 1_024,
            TrainEdge::WouldList(1_024),
        ),
    ]));
    if !changed.is_empty() {
        let items = training.fit.fit.items.len();
        edges.push(TrainEdge::Of(Whose::of(training.result, items)));
    }
    edges
}

/// The skills that a result itself demands, in the order of its rows.
pub fn demands(catalogue: &Catalogue, outcome: &ItemResult) -> Vec<i32> {
    let value = |name: usize| {
        let id = catalogue.name(name)?;
        outcome.attributes.get(&id).map(|held| held.value as i32)
    };
    let rows = (0..6).map(|row| REQUIRED + 2 * row);
    let counts = rows.filter(|row| catalogue.name(row + 1).is_some());
    counts.filter_map(value).collect()
}

/// What stands in the fit besides, where a step is made.
fn surroundings(training: &Training, plan: &Plan) -> Vec<TrainEdge> {
    let (before, after) = (plan.after(0), plan.after(training.steps));
    if before == after {
        return Vec::new();
    }
    let (catalogue, fit) = (training.catalogue, training.fit);
    let outcome = fit.result(training.result).expect("8 is not given");
    let wanted = fit.wanted_skills(catalogue, outcome);
    let at_0 = wanted
        .iter()
        .any(|(id, level)| *level == 0 && !before.contains_key(id));
    let mut direct = demands(catalogue, outcome);
    let count = direct.len();
    direct.sort_unstable();
    direct.dedup();
    let values = training.case.fits[0].outcomes();
    let values = values.flat_map(|outcome| outcome.attributes.iter().map(|row| row.1));
    let values: Vec<u64> = values.collect();
    let odd_nan = |bits: &u64| f64::from_bits(*bits).is_nan() && *bits != f64::NAN.to_bits();
    let (items, results) = (fit.fit.items.len(), fit.calculation.items.len());
    held([
        (at_0, TrainEdge::WantedAt0),
        (direct.len() < count, TrainEdge::Twice),
        (!fit.is_hull(catalogue), TrainEdge::NoHull),
        (values.iter().any(odd_nan), TrainEdge::OddNan),
        (values.contains(&(1 << 63)), TrainEdge::MinusZero),
        (items > results, TrainEdge::MoreItems),
        (items < results, TrainEdge::MoreResults),
        (gains_not_a_skill(training, plan), TrainEdge::NotASkill),
    ])
}

/// Whether the trained fit's list has more entries of rule 21 than the fit's.
fn gains_not_a_skill(training: &Training, plan: &Plan) -> bool {
    let count = |image: &[u8]| {
        let fit = Fit::decode(image).expect("a trained fit is a fit");
        let listed = reference::list(training.catalogue, &fit, &League::default());
        listed.entries.iter().filter(|entry| entry[1] == 21).count()
    };
    let grows = plan.after(training.steps).len() > plan.after(0).len();
    grows && count(&plan.image(training.steps)) > count(&plan.image(0))
}
