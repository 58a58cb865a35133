//! What a run has to meet of types that the catalogue lacks: in every kind of
//! slot, at every end of the ids, beside present ones that look alike.

use original::Info;

use super::Tally;
use super::look::kind;
use super::point::Point;
use super::size::{Block, LONGEST_UNKNOWN};
use crate::checker::Entry;
use crate::profile::BANNED;
use crate::reference::{Catalogue, Fate, Fit, League, Listed};

/// What a list call on a hull, or a hall, meets.
#[derive(Clone, Copy, Debug, PartialEq, Eq, PartialOrd, Ord)]
pub enum UnknownEdge {
    /// A pair of a missing type in a slot of this kind.
    Missing(u8),
    /// A pair of a type that is there, of group 0 and category 0, in a slot of
    /// this kind.
    Zero(u8),
    GroupZero,
    CategoryZero,
    /// A present type without volume.
    NoVolume,
    /// Pairs of missing and of present types in one fit.
    Beside,
    /// A missing type and a present one of group 0, both fitted.
    BesideGroupZero,
    /// Two pairs of one missing type.
    Twice,
    /// Missing types whose ids do not ascend from pair to pair.
    NoOrder,
    /// An item of a missing type that has no result.
    Unpaired,
    QuantityNone,
    State(u8),
    Id(IdPlace),
    /// Links, or base values, under a missing type's id.
    Linked,
    Based,
    /// The fit's mode is missing as well, or one of its skills.
    Mode,
    Skill,
    /// Pairs of missing types where the ship's type is missing, or no hull.
    ShipMissing,
    NoHull,
    /// Pairs of missing types under a catalogue without types.
    NoTypes,
    /// Which entries stand before those of rule 26.
    Behind(Front),
    /// Group 0 is banned, or priced, and a pair of a missing type is not
    /// fitted.
    UnfittedBanned,
    UnfittedPriced,
    /// A buffer that the list without rule 26 would have had room in.
    NoRoom,
    /// 256 pairs of missing types.
    All,
    LongestList,
    /// A fit of a hall whose list is of rule 26 alone.
    HallAlone,
    /// One of missing types without a result, and an empty list.
    HallUnpaired,
    /// A fit that grows by pairs of missing types: the first of them, or more.
    GrownFirst,
    GrownMore,
}

/// Where the id of a missing type stands.
#[derive(Clone, Copy, Debug, PartialEq, Eq, PartialOrd, Ord)]
pub enum IdPlace {
    Lowest,
    Negative,
    Zero,
    Highest,
    BeforeTheFirst,
    BehindTheLast,
    Between,
}

impl IdPlace {
    const ALL: [IdPlace; 7] = [
        IdPlace::Lowest,
        IdPlace::Negative,
        IdPlace::Zero,
        IdPlace::Highest,
        IdPlace::BeforeTheFirst,
        IdPlace::BehindTheLast,
        IdPlace::Between,
    ];

    fn holds(self, id: i32, catalogue: &Catalogue) -> bool {
        let ends = catalogue.type_ends();
        match self {
            IdPlace::Lowest => id == i32::MIN,
            IdPlace::Negative => id < 0,
            IdPlace::Zero => id == 0,
            IdPlace::Highest => id == i32::MAX,
            IdPlace::BeforeTheFirst => ends.is_some_and(|(first, _)| id < first),
            IdPlace::BehindTheLast => ends.is_some_and(|(_, last)| id > last),
            IdPlace::Between => ends.is_some_and(|(first, last)| first < id && id < last),
        }
    }

    fn words(self) -> &'static str {
        match self {
            IdPlace::Lowest => "is -2147483648",
            IdPlace::Negative => "is negative",
            IdPlace::Zero => "is 0",
            IdPlace::Highest => "is 2147483647",
            IdPlace::BeforeTheFirst => "is below the first type's",
            IdPlace::BehindTheLast => "is above the last type's",
            IdPlace::Between => "is between two types'",
        }
    }
}

/// What stands before the first entry of rule 26.
#[derive(Clone, Copy, Debug, PartialEq, Eq, PartialOrd, Ord)]
pub enum Front {
    Nothing,
    /// A rule of document 01.
    Earlier,
    Banned,
    Points,
    BannedAndPoints,
}

impl Front {
    const ALL: [Front; 5] = [
        Front::Nothing,
        Front::Earlier,
        Front::Banned,
        Front::Points,
        Front::BannedAndPoints,
    ];

    /// Of a list that has rule 26.
    fn of(entries: &[Entry]) -> Front {
        let has = |rule: u8| entries.iter().any(|entry| entry[1] == rule);
        match (has(24), has(25)) {
            (true, true) => Front::BannedAndPoints,
            (true, false) => Front::Banned,
            (false, true) => Front::Points,
            (false, false) if entries[0][1] == 26 => Front::Nothing,
            (false, false) => Front::Earlier,
        }
    }

    fn words(self) -> &'static str {
        match self {
            Front::Nothing => "nothing",
            Front::Earlier => "rules 1 to 21",
            Front::Banned => "rule 24",
            Front::Points => "rule 25",
            Front::BannedAndPoints => "rules 24 and 25",
        }
    }
}

impl UnknownEdge {
    pub fn all() -> Vec<UnknownEdge> {
        use UnknownEdge::*;
        let mut edges = vec![
            GroupZero,
            CategoryZero,
            NoVolume,
            Beside,
            BesideGroupZero,
            Twice,
            NoOrder,
            Unpaired,
            QuantityNone,
            Linked,
            Based,
            Mode,
            Skill,
            ShipMissing,
            NoHull,
            NoTypes,
            UnfittedBanned,
            UnfittedPriced,
            NoRoom,
            All,
            LongestList,
            HallAlone,
            HallUnpaired,
            GrownFirst,
            GrownMore,
        ];
        edges.extend((0..12).map(Missing));
        edges.extend((0..12).map(Zero));
        edges.extend((0..4).map(State));
        edges.extend(IdPlace::ALL.map(Id));
        edges.extend(Front::ALL.map(Behind));
        edges
    }

    pub fn words(self) -> String {
        use UnknownEdge::*;
        let slot = |kind: u8| crate::words::KINDS[usize::from(kind)];
        let state = |state: u8| crate::words::STATES[usize::from(state)];
        match self {
            Missing(kind) => format!("a missing type in {}", slot(kind)),
            Zero(kind) => format!("a present type of group 0 and category 0 in {}", slot(kind)),
            GroupZero => "a present type of group 0 and another category".to_string(),
            CategoryZero => "a present type of category 0 and another group".to_string(),
            NoVolume => "a present type without volume".to_string(),
            Beside => "missing and present types in one fit".to_string(),
            BesideGroupZero => "a missing type and a present one of group 0, fitted".to_string(),
            Twice => "two pairs of one missing type".to_string(),
            NoOrder => "missing types whose ids do not ascend".to_string(),
            Unpaired => "a missing type without a result".to_string(),
            QuantityNone => "a missing type of quantity 0".to_string(),
            State(number) => format!("a missing type, {}", state(number)),
            Id(place) => format!("a missing type whose id {}", place.words()),
            Linked => "a missing type with links".to_string(),
            Based => "a missing type with base values".to_string(),
            Mode => "a missing type, and a missing mode".to_string(),
            Skill => "a missing type, and a missing skill listed".to_string(),
            ShipMissing => "a missing type, and the ship's missing".to_string(),
            NoHull => "a missing type, and a ship that is no hull".to_string(),
            NoTypes => "a missing type, and no types at all".to_string(),
            Behind(front) => format!("rule 26 behind {}", front.words()),
            UnfittedBanned => "group 0 banned, a missing type not fitted".to_string(),
            UnfittedPriced => "group 0 priced, a missing type not fitted".to_string(),
            NoRoom => "a buffer with room for all but rule 26".to_string(),
            All => "256 missing types".to_string(),
            LongestList => format!("the longest list of all, {LONGEST_UNKNOWN} entries"),
            HallAlone => "hall: a fit faulted by rule 26 alone".to_string(),
            HallUnpaired => "hall: no entry, a missing type without a result".to_string(),
            GrownFirst => "two fits compared, UnknownType is new".to_string(),
            GrownMore => "two fits compared, one more UnknownType".to_string(),
        }
    }
}

/// The inputs of an answered list call.
pub fn list(tally: &mut Tally, catalogue: &Catalogue, fit: &Fit, league: &League) {
    let mut met = Vec::new();
    let is_missing = |id: i32| is_missing(catalogue, id);
    let missing: Vec<i32> = fit
        .pairs()
        .map(|(item, _)| item.type_id)
        .filter(|id| is_missing(*id))
        .collect();
    if !fit.is_hull(catalogue) {
        if !missing.is_empty() {
            met.push(match is_missing(fit.fit.ship.type_id) {
                true => UnknownEdge::ShipMissing,
                false => UnknownEdge::NoHull,
            });
            if catalogue.rows(Block::Types) == 0 {
                met.push(UnknownEdge::NoTypes);
            }
        }
    } else {
        pairs(&mut met, catalogue, fit, league);
        together(&mut met, catalogue, fit, &missing);
    }
    for edge in met {
        tally.meet(Point::Unknown(edge));
    }
}

fn is_missing(catalogue: &Catalogue, id: i32) -> bool {
    catalogue.get_type(id).is_none()
}

/// What each item of a fit on a hull meets by itself.
fn pairs(met: &mut Vec<UnknownEdge>, catalogue: &Catalogue, fit: &Fit, league: &League) {
    for (item, result) in fit.pairs() {
        let kind = kind(item.slot);
        let Some(row) = catalogue.get_type(item.type_id) else {
            met.push(UnknownEdge::Missing(kind));
            met.push(UnknownEdge::State(result.state as u8));
            let places = IdPlace::ALL.into_iter();
            let places = places.filter(|place| place.holds(item.type_id, catalogue));
            met.extend(places.map(UnknownEdge::Id));
            let links = catalogue.get_dogma_effects(item.type_id);
            let bases = catalogue.get_dogma_attributes(item.type_id);
            let edges = [
                (item.quantity == 0, UnknownEdge::QuantityNone),
                (links.is_some(), UnknownEdge::Linked),
                (bases.is_some(), UnknownEdge::Based),
            ];
            met.extend(edges.iter().filter(|edge| edge.0).map(|edge| edge.1));
            if kind > 5 {
                met.extend(league.points(0).map(|points| match points {
                    BANNED => UnknownEdge::UnfittedBanned,
                    _ => UnknownEdge::UnfittedPriced,
                }));
            }
            continue;
        };
        met.extend(match (row.group_id(), row.category_id()) {
            (0, 0) => Some(UnknownEdge::Zero(kind)),
            (0, _) => Some(UnknownEdge::GroupZero),
            (_, 0) => Some(UnknownEdge::CategoryZero),
            _ => None,
        });
        if row.volume().is_none() {
            met.push(UnknownEdge::NoVolume);
        }
    }
    let mut items = fit.fit.items.iter().skip(fit.calculation.items.len());
    if items.any(|item| is_missing(catalogue, item.type_id)) {
        met.push(UnknownEdge::Unpaired);
    }
}

/// What the pairs of a fit on a hull meet together.
fn together(met: &mut Vec<UnknownEdge>, catalogue: &Catalogue, fit: &Fit, missing: &[i32]) {
    if missing.is_empty() {
        return;
    }
    let mut ids = missing.to_vec();
    ids.sort();
    ids.dedup();
    let fitted = || fit.pairs().filter(|(item, _)| kind(item.slot) <= 5);
    let is_fitted = fitted().any(|(item, _)| is_missing(catalogue, item.type_id));
    let is_zero = fitted().any(|(item, _)| {
        let row = catalogue.get_type(item.type_id);
        row.is_some_and(|row| row.group_id() == 0)
    });
    let mode = fit.fit.ship.mode;
    let mut skills = fit.fit.character.skills.keys();
    let edges = [
        (missing.len() < fit.pairs().count(), UnknownEdge::Beside),
        (is_fitted && is_zero, UnknownEdge::BesideGroupZero),
        (ids.len() < missing.len(), UnknownEdge::Twice),
        (!missing.is_sorted(), UnknownEdge::NoOrder),
        (
            mode.is_some_and(|mode| is_missing(catalogue, mode)),
            UnknownEdge::Mode,
        ),
        (
            skills.any(|id| is_missing(catalogue, *id)),
            UnknownEdge::Skill,
        ),
        (missing.len() == 256, UnknownEdge::All),
    ];
    met.extend(edges.iter().filter(|edge| edge.0).map(|edge| edge.1));
}

/// The list of an answered call.
pub fn listed(tally: &mut Tally, listed: &Listed) {
    if listed.entries.iter().any(|entry| entry[1] == 26) {
        let front = Front::of(&listed.entries);
        tally.meet(Point::Unknown(UnknownEdge::Behind(front)));
    }
    if listed.entries.len() as u32 == LONGEST_UNKNOWN {
        tally.meet(Point::Unknown(UnknownEdge::LongestList));
    }
}

/// A list that its buffer of so many bytes has no room for.
pub fn no_room(tally: &mut Tally, listed: &Listed, length: usize) {
    let before = listed.entries.iter().filter(|entry| entry[1] != 26);
    if 24 * before.count() <= length {
        tally.meet(Point::Unknown(UnknownEdge::NoRoom));
    }
}

/// A fit of a hall, with its fate and its list.
pub fn hall(tally: &mut Tally, catalogue: &Catalogue, fit: &Fit, fate: Fate, listed: &Listed) {
    let is_unknown = |entry: &Entry| entry[1] == 26;
    match fate {
        Fate::Faulted(_) if listed.entries.iter().all(is_unknown) => {
            tally.meet(Point::Unknown(UnknownEdge::HallAlone));
        }
        Fate::Unread { .. } => {
            let mut items = fit.fit.items.iter();
            if items.any(|item| is_missing(catalogue, item.type_id)) {
                tally.meet(Point::Unknown(UnknownEdge::HallUnpaired));
            }
        }
        _ => {}
    }
}

/// Two lists held against each other.
pub fn grown(tally: &mut Tally, old: &[Entry], new: &[Entry]) {
    let count = |list: &[Entry]| list.iter().filter(|entry| entry[1] == 26).count();
    let edge = match (count(old), count(new)) {
        (0, 1..) => UnknownEdge::GrownFirst,
        (old, new) if new > old => UnknownEdge::GrownMore,
        _ => return,
    };
    tally.meet(Point::Unknown(edge));
}
