//! What a run has to meet of leagues: profiles of every size, allowances beside
//! what a fit costs, groups of every kind, and fits that grow.

use original::Info;

use super::Tally;
use super::look::kind;
use super::point::Point;
use super::size::{LONGEST_LEAGUE, Place};
use crate::checker::Entry;
use crate::profile::{BANNED, DEAREST};
use crate::reference::league::{fitted, group};
use crate::reference::{Catalogue, Fit, League, Listed, Refusal};

/// What a list call with a profile, or without, meets.
#[derive(Clone, Copy, Debug, PartialEq, Eq, PartialOrd, Ord)]
pub enum LeagueEdge {
    /// No profile, with fitted pairs and this allowance.
    Without(Allowance),
    /// So many groups.
    Groups(u32),
    /// Where the allowance stands to what the fit costs.
    Allowance(Allowance),
    /// A fitted pair that costs so much.
    Costs(u32),
    /// 256 pairs of 1,000,000 points.
    MostPoints,
    /// A ban on each of 256 pairs.
    MostBans,
    LongestList,
    MissingBanned,
    MissingPriced,
    NegativeGroup,
    LowestGroup,
    HighestGroup,
    Unlisted,
    /// A group that is banned, in a slot of a kind that is not fitted.
    UnfittedBanned(u8),
    UnfittedPriced(u8),
    UnpairedBanned,
    UnpairedPriced,
    QuantityNone,
    QuantityMany,
    SameGroup,
    /// Which of rules 24 and 25 are listed.
    Listed(bool, bool),
    /// A ship that is no hull, with a profile.
    NoHull,
    /// The same, and the profile is refused.
    NoHullRefused(Refusal),
    /// A pair's group among 4,096.
    Found(Place),
    /// A fit that grows: Points gets a higher number.
    GrownPoints,
    /// Points is new.
    GrownOver,
    /// A ban more.
    GrownBan,
}

/// An allowance beside what a fit costs.
#[derive(Clone, Copy, Debug, PartialEq, Eq, PartialOrd, Ord)]
pub enum Allowance {
    Zero,
    OneBelow,
    Same,
    OneAbove,
    Most,
    Other,
}

impl Allowance {
    fn of(allowance: u32, used: u64) -> Allowance {
        match (allowance, used) {
            (0, _) => Allowance::Zero,
            (u32::MAX, _) => Allowance::Most,
            (allowance, used) if u64::from(allowance) + 1 == used => Allowance::OneBelow,
            (allowance, used) if u64::from(allowance) == used => Allowance::Same,
            (allowance, used) if u64::from(allowance) == used + 1 => Allowance::OneAbove,
            _ => Allowance::Other,
        }
    }

    fn words(self) -> &'static str {
        match self {
            Allowance::Zero => "an allowance of 0",
            Allowance::OneBelow => "an allowance one below the points",
            Allowance::Same => "an allowance of the points",
            Allowance::OneAbove => "an allowance one above the points",
            Allowance::Most => "an allowance of 4294967295",
            Allowance::Other => "another allowance",
        }
    }
}

impl LeagueEdge {
    pub fn all() -> Vec<LeagueEdge> {
        use LeagueEdge::*;
        let mut edges = vec![
            MostPoints,
            MostBans,
            LongestList,
            MissingBanned,
            MissingPriced,
            NegativeGroup,
            LowestGroup,
            HighestGroup,
            Unlisted,
            UnpairedBanned,
            UnpairedPriced,
            QuantityNone,
            QuantityMany,
            SameGroup,
            NoHull,
            NoHullRefused(11),
            NoHullRefused(12),
            GrownPoints,
            GrownOver,
            GrownBan,
        ];
        let without = [
            self::Allowance::Zero,
            self::Allowance::Most,
            self::Allowance::Other,
        ];
        edges.extend(without.map(Without));
        edges.extend([0, 1, 4_096].map(Groups));
        let allowances = [
            self::Allowance::Zero,
            self::Allowance::OneBelow,
            self::Allowance::Same,
            self::Allowance::OneAbove,
            self::Allowance::Most,
            self::Allowance::Other,
        ];
        edges.extend(allowances.map(LeagueEdge::Allowance));
        edges.extend([0, 1, DEAREST, BANNED].map(Costs));
        edges.extend((6..12).map(UnfittedBanned));
        edges.extend((6..12).map(UnfittedPriced));
        for banned in [false, true] {
            edges.extend([false, true].map(|over| Listed(banned, over)));
        }
        edges.extend(Place::ALL.map(Found));
        edges
    }

    pub fn words(self) -> String {
        use LeagueEdge::*;
        let slot = |kind: u8| crate::words::KINDS[usize::from(kind)];
        match self {
            Without(allowance) => format!("no profile, {}", allowance.words()),
            Groups(count) => format!("profile of {count} groups"),
            LeagueEdge::Allowance(allowance) => format!("profile, {}", allowance.words()),
            Costs(BANNED) => "a fitted pair that is banned".to_string(),
            Costs(points) => format!("a fitted pair of {points} points"),
            MostPoints => "256 fitted pairs of 1000000 points".to_string(),
            MostBans => "256 bans".to_string(),
            LongestList => format!("the longest list of a league, {LONGEST_LEAGUE} entries"),
            MissingBanned => "group 0 banned with a type that is not there".to_string(),
            MissingPriced => "group 0 priced with a type that is not there".to_string(),
            NegativeGroup => "a group below zero in a profile and fitted".to_string(),
            LowestGroup => "group -2147483648 in a profile and fitted".to_string(),
            HighestGroup => "group 2147483647 in a profile and fitted".to_string(),
            Unlisted => "a fitted pair of a group that is not listed".to_string(),
            UnfittedBanned(kind) => format!("a banned group in {}", slot(kind)),
            UnfittedPriced(kind) => format!("a priced group in {}", slot(kind)),
            UnpairedBanned => "a banned group without a result".to_string(),
            UnpairedPriced => "a priced group without a result".to_string(),
            QuantityNone => "a priced pair of quantity 0".to_string(),
            QuantityMany => "a priced pair of a quantity over 1".to_string(),
            SameGroup => "two fitted pairs of one priced group".to_string(),
            Listed(false, false) => "a profile that lists nothing".to_string(),
            Listed(true, false) => "a profile that lists bans alone".to_string(),
            Listed(false, true) => "a profile that lists points alone".to_string(),
            Listed(true, true) => "a profile that lists bans and points".to_string(),
            NoHull => "a profile on no hull".to_string(),
            NoHullRefused(refusal) => format!("a profile on no hull, refused by {refusal}"),
            Found(place) => format!("a group {} of 4096", place.words()),
            GrownPoints => "two fits compared, more points used".to_string(),
            GrownOver => "two fits compared, Points is new".to_string(),
            GrownBan => "two fits compared, a ban is new".to_string(),
        }
    }
}

/// A list call whose images are not refused.
pub fn brought(
    tally: &mut Tally,
    catalogue: &Catalogue,
    fit: &Fit,
    league: &Result<League, Refusal>,
) {
    let is_hull = fit.is_hull(catalogue);
    let mut meet = |edge: LeagueEdge| tally.meet(Point::League(edge));
    let league = match league {
        Ok(league) => league,
        Err(refusal) if !is_hull => return meet(LeagueEdge::NoHullRefused(*refusal)),
        Err(_) => return,
    };
    let Some(prices) = &league.prices else {
        if is_hull && fitted(catalogue, fit).next().is_some() {
            // No fit costs as much, so what it costs does not come between.
            let allowance = Allowance::of(league.allowance, 1 << 40);
            meet(LeagueEdge::Without(allowance));
        }
        return;
    };
    if !is_hull {
        return meet(LeagueEdge::NoHull);
    }
    meet(LeagueEdge::Groups(prices.len() as u32));
    let used = league.cost(catalogue, fit);
    if used > 0 {
        let allowance = Allowance::of(league.allowance, used);
        meet(LeagueEdge::Allowance(allowance));
    }
    if used == 256_000_000 {
        meet(LeagueEdge::MostPoints);
    }
    pairs(tally, catalogue, fit, league, prices);
}

/// What the items of a fit on a hull meet.
fn pairs(
    tally: &mut Tally,
    catalogue: &Catalogue,
    fit: &Fit,
    league: &League,
    prices: &[(i32, u32)],
) {
    let mut met = Vec::new();
    let mut seen = Vec::new();
    for (number, item) in fit.fit.items.iter().enumerate() {
        let group = group(catalogue, item);
        let is_pair = number < fit.calculation.items.len();
        let is_fitted = is_pair && kind(item.slot) <= 5;
        let Some(points) = league.points(group) else {
            if is_fitted && !prices.is_empty() {
                met.push(LeagueEdge::Unlisted);
            }
            continue;
        };
        if !is_fitted {
            met.extend(free(item, is_pair, points));
            continue;
        }
        fitted_pair(&mut met, catalogue, item, points);
        let row = prices.iter().position(|price| price.0 == group);
        let place = row.and_then(|row| Place::of(row, prices.len()));
        met.extend(
            place
                .filter(|_| prices.len() == 4_096)
                .map(LeagueEdge::Found),
        );
        if seen.contains(&group) && points > 0 && points != BANNED {
            met.push(LeagueEdge::SameGroup);
        }
        seen.push(group);
    }
    for edge in met {
        tally.meet(Point::League(edge));
    }
}

/// An item whose group is listed, and that is neither banned nor costs points.
fn free(item: &original::FitItem, is_pair: bool, points: u32) -> Option<LeagueEdge> {
    let kind = kind(item.slot);
    match (is_pair, points) {
        (true, BANNED) => Some(LeagueEdge::UnfittedBanned(kind)),
        (true, _) => Some(LeagueEdge::UnfittedPriced(kind)),
        (false, BANNED) if kind <= 5 => Some(LeagueEdge::UnpairedBanned),
        (false, _) if kind <= 5 => Some(LeagueEdge::UnpairedPriced),
        _ => None,
    }
}

/// A fitted pair whose group is listed.
fn fitted_pair(
    met: &mut Vec<LeagueEdge>,
    catalogue: &Catalogue,
    item: &original::FitItem,
    points: u32,
) {
    let is_ban = points == BANNED;
    let group = group(catalogue, item);
    met.push(LeagueEdge::Costs(points));
    if catalogue.get_type(item.type_id).is_none() {
        met.push(match is_ban {
            true => LeagueEdge::MissingBanned,
            false => LeagueEdge::MissingPriced,
        });
    }
    let edges = [
        (group < 0, LeagueEdge::NegativeGroup),
        (group == i32::MIN, LeagueEdge::LowestGroup),
        (group == i32::MAX, LeagueEdge::HighestGroup),
        (
            !is_ban && points > 0 && item.quantity == 0,
            LeagueEdge::QuantityNone,
        ),
        (
            !is_ban && points > 0 && item.quantity > 1,
            LeagueEdge::QuantityMany,
        ),
    ];
    met.extend(edges.iter().filter(|edge| edge.0).map(|edge| edge.1));
}

/// The list of an answered call with a profile.
pub fn listed(tally: &mut Tally, listed: &Listed) {
    let count = |rule: u8| {
        listed
            .entries
            .iter()
            .filter(|entry| entry[1] == rule)
            .count()
    };
    let (bans, over) = (count(24), count(25));
    let edge = LeagueEdge::Listed(bans > 0, over > 0);
    tally.meet(Point::League(edge));
    if bans == 256 {
        tally.meet(Point::League(LeagueEdge::MostBans));
    }
    if listed.entries.len() as u32 == LONGEST_LEAGUE {
        tally.meet(Point::League(LeagueEdge::LongestList));
    }
}

/// Two lists held against each other.
pub fn grown(tally: &mut Tally, old: &[Entry], new: &[Entry]) {
    let used = |list: &[Entry]| {
        let points = list.iter().find(|entry| entry[1] == 25);
        points.map(|entry| u32::from_le_bytes([entry[8], entry[9], entry[10], entry[11]]))
    };
    let bans = |list: &[Entry]| list.iter().filter(|entry| entry[1] == 24).count();
    let edges = [
        (
            used(old).is_some() && used(new) > used(old),
            LeagueEdge::GrownPoints,
        ),
        (
            used(old).is_none() && used(new).is_some(),
            LeagueEdge::GrownOver,
        ),
        (bans(new) > bans(old), LeagueEdge::GrownBan),
    ];
    for (holds, edge) in edges {
        if holds {
            tally.meet(Point::League(edge));
        }
    }
}
