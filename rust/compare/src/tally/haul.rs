//! What a run has to meet of cargo behind a fit: every kind of volume, every
//! state, a value under every name, groups that a league bans and prices, and
//! what becomes of the hold.

use original::Info;

use super::Tally;
use super::point::{Call, Point};
use crate::case::Case;
use crate::checker::Entry;
use crate::hauled::hold;
use crate::names::{COUNT, NAMES};
use crate::profile::BANNED;
use crate::reader::Reader;
use crate::reference::league::{fitted, group};
use crate::reference::{Catalogue, Fit, League};
use crate::words::STATES;

/// What is put behind a fit, where the property is held.
pub struct Haul<'a> {
    pub catalogue: &'a Catalogue,
    pub case: &'a Case,
    /// The fit, and the one with cargo behind it.
    pub fits: (&'a Fit, &'a Fit),
    /// What a list call brings; skills are asked for without it.
    pub league: Option<&'a League>,
}

impl<'a> Haul<'a> {
    /// The league, where it has a profile.
    fn prices(&self) -> Option<&'a League> {
        self.league.filter(|league| league.prices.is_some())
    }
}

/// What two lists meet, the fit's and that of the fit with cargo behind it.
#[derive(Clone, Copy, Debug, PartialEq, Eq, PartialOrd, Ord)]
pub enum HaulEdge {
    /// An added pair whose type's volume is so.
    Volume(HaulVolume),
    /// An added pair in this state.
    State(u8),
    /// An added result with a value under this name.
    Name(u8),
    /// Quantity 0, and 4,294,967,295.
    Quantity(u32),
    Profile,
    /// An added pair of a group that the profile bans or prices, and neither
    /// rule 24 nor rule 25 shows it.
    League(HaulPrice),
    MoreItems,
    MoreResults,
    /// Results without items of their own, and no item.
    ResultsAlone,
    /// Cargo was there before.
    BehindCargo,
    /// The call with cargo has unlike limits.
    OtherLimits,
    /// The old list has entries that are neither CargoBay nor rule 26.
    Entries,
    /// What becomes of CargoBay.
    Hold(HoldFate),
    /// Skills of an old result, with entries.
    Skills,
    /// Both calls answered for a reader.
    Reader(Call, Reader),
    /// Both lists of a guest, who gets neither whole.
    GuestOmits,
}

#[derive(Clone, Copy, Debug, PartialEq, Eq, PartialOrd, Ord)]
pub enum HaulVolume {
    Missing,
    None,
    Nan,
    Negative,
    Infinite,
    Ordinary,
}

/// What would show of cargo if a league counted it.
#[derive(Clone, Copy, Debug, PartialEq, Eq, PartialOrd, Ord)]
pub enum HaulPrice {
    /// A ban.
    Banned,
    /// A ban, behind that of a fitted pair of the same group.
    BannedBeside,
    /// Points, listed or not.
    Priced,
    /// Points over the allowance, where what is fitted stays within it.
    PricedOver,
    /// More points than those that are listed.
    PricedMore,
}

#[derive(Clone, Copy, Debug, PartialEq, Eq, PartialOrd, Ord)]
pub enum HoldFate {
    Away,
    Appeared,
    Grew,
    Stayed,
    /// By a volume below zero, alone.
    Fell,
    /// By a volume below zero or a NaN, alone.
    Gone,
}

impl HaulVolume {
    pub const ALL: [HaulVolume; 6] = [
        HaulVolume::Missing,
        HaulVolume::None,
        HaulVolume::Nan,
        HaulVolume::Negative,
        HaulVolume::Infinite,
        HaulVolume::Ordinary,
    ];

    fn of(catalogue: &Catalogue, type_id: i32) -> HaulVolume {
        match catalogue.volume(type_id) {
            _ if catalogue.get_type(type_id).is_none() => HaulVolume::Missing,
            None => HaulVolume::None,
            Some(volume) if volume.is_nan() => HaulVolume::Nan,
            Some(volume) if volume < 0.0 => HaulVolume::Negative,
            Some(volume) if volume.is_infinite() => HaulVolume::Infinite,
            Some(_) => HaulVolume::Ordinary,
        }
    }

    fn words(self) -> &'static str {
        match self {
            HaulVolume::Missing => "of a missing type",
            HaulVolume::None => "without volume",
            HaulVolume::Nan => "of NaN volume",
            HaulVolume::Negative => "of a volume below zero",
            HaulVolume::Infinite => "of infinite volume",
            HaulVolume::Ordinary => "of an ordinary volume",
        }
    }
}

impl HaulPrice {
    const ALL: [HaulPrice; 5] = [
        HaulPrice::Banned,
        HaulPrice::BannedBeside,
        HaulPrice::Priced,
        HaulPrice::PricedOver,
        HaulPrice::PricedMore,
    ];

    fn words(self) -> &'static str {
        match self {
            HaulPrice::Banned => "of a banned group, and no ban of it",
            HaulPrice::BannedBeside => "of a banned group that is fitted too, and no ban more",
            HaulPrice::Priced => "of a priced group, and no points of it",
            HaulPrice::PricedOver => "of a price over the allowance, and Points stays away",
            HaulPrice::PricedMore => "of a priced group, and Points stays as it was",
        }
    }
}

impl HoldFate {
    const ALL: [HoldFate; 6] = [
        HoldFate::Away,
        HoldFate::Appeared,
        HoldFate::Grew,
        HoldFate::Stayed,
        HoldFate::Fell,
        HoldFate::Gone,
    ];

    fn of(old: &[Entry], new: &[Entry]) -> HoldFate {
        let used = |entry: &Entry| f64::from_le_bytes(entry[8..16].try_into().expect("8 bytes"));
        match (hold(old).first(), hold(new).first()) {
            (None, None) => HoldFate::Away,
            (None, Some(_)) => HoldFate::Appeared,
            (Some(_), None) => HoldFate::Gone,
            (Some(was), Some(is)) if used(is) > used(was) => HoldFate::Grew,
            (Some(was), Some(is)) if used(is) < used(was) => HoldFate::Fell,
            (Some(_), Some(_)) => HoldFate::Stayed,
        }
    }

    fn words(self) -> &'static str {
        match self {
            HoldFate::Away => "CargoBay stays away",
            HoldFate::Appeared => "CargoBay appears",
            HoldFate::Grew => "CargoBay grows",
            HoldFate::Stayed => "CargoBay stays",
            HoldFate::Fell => "CargoBay falls",
            HoldFate::Gone => "CargoBay goes",
        }
    }
}

impl HaulEdge {
    pub fn all() -> Vec<HaulEdge> {
        use HaulEdge::*;
        let mut edges = vec![Profile, MoreItems, MoreResults, ResultsAlone, BehindCargo];
        edges.extend([OtherLimits, Entries, Skills]);
        edges.extend([0, u32::MAX].map(Quantity));
        edges.extend(HaulPrice::ALL.map(League));
        edges.extend(HaulVolume::ALL.map(Volume));
        edges.extend(HoldFate::ALL.map(Hold));
        edges.extend((0..4).map(State));
        edges.extend((0..COUNT as u8).map(Name));
        edges.extend(self::Reader::ALL.map(|reader| Reader(Call::List, reader)));
        let own = [self::Reader::PILOT, self::Reader::OFFICER];
        edges.extend(own.map(|reader| Reader(Call::Skill, reader)));
        edges.push(GuestOmits);
        edges
    }

    pub fn words(self) -> String {
        use HaulEdge::*;
        let what = match self {
            Volume(volume) => volume.words().to_string(),
            State(state) => format!("in state {}", STATES[usize::from(state)]),
            Name(name) => format!("with a value under {}", NAMES[usize::from(name)]),
            Quantity(quantity) => format!("of quantity {quantity}"),
            Profile => "with a profile".to_string(),
            League(price) => price.words().to_string(),
            MoreItems => "of more items than results".to_string(),
            MoreResults => "of more results than items".to_string(),
            ResultsAlone => "of results alone".to_string(),
            BehindCargo => "behind cargo".to_string(),
            OtherLimits => "under unlike limits".to_string(),
            Entries => "behind a fit that breaks other rules".to_string(),
            Hold(fate) => fate.words().to_string(),
            Skills => "behind a fit whose old result lacks skills".to_string(),
            Reader(call, reader) => format!("{call} for {reader}"),
            GuestOmits => "lists for a guest, NotASkill omitted".to_string(),
        };
        format!("cargo behind a fit, {what}")
    }
}

/// Both lists of an answered pair of calls.
pub fn lists(tally: &mut Tally, haul: &Haul, old: &[Entry], new: &[Entry]) {
    let added = &haul.case.haul;
    let pairs = added.items.iter().zip(&added.results);
    let mut met = vec![HaulEdge::Hold(HoldFate::of(old, new))];
    for (item, result) in pairs {
        met.push(HaulEdge::Volume(HaulVolume::of(
            haul.catalogue,
            item.type_id,
        )));
        met.push(HaulEdge::State(result.state));
        if [0, u32::MAX].contains(&item.quantity) {
            met.push(HaulEdge::Quantity(item.quantity));
        }
        for name in &haul.case.catalogue.names {
            let mut ids = result.attributes.iter().map(|value| value.0);
            if name.number < COUNT as u32 && ids.any(|id| id == name.attribute) {
                met.push(HaulEdge::Name(name.number as u8));
            }
        }
    }
    met.extend(of_league(haul, old, new));
    let fit = &haul.case.fits[0];
    let (items, results) = (added.items.len(), added.results.len());
    let shapes = [
        (haul.prices().is_some(), HaulEdge::Profile),
        (items > results, HaulEdge::MoreItems),
        (items < results, HaulEdge::MoreResults),
        (items == 0 && results > 0, HaulEdge::ResultsAlone),
        (
            fit.items.iter().any(|item| item.kind == 11),
            HaulEdge::BehindCargo,
        ),
        (haul.case.limits != added.limits, HaulEdge::OtherLimits),
        (
            old.iter()
                .any(|entry| entry[1] != 26 && entry[1..3] != [1, 11]),
            HaulEdge::Entries,
        ),
    ];
    met.extend(shapes.iter().filter(|shape| shape.0).map(|shape| shape.1));
    for edge in met {
        tally.meet(Point::Haul(edge));
    }
}

/// What a league bans and prices of the added pairs, where nothing comes of it.
fn of_league(haul: &Haul, old: &[Entry], new: &[Entry]) -> Vec<HaulEdge> {
    let is_judged = haul.fits.0.is_hull(haul.catalogue) && judged(old) == judged(new);
    let Some(league) = haul.prices().filter(|_| is_judged) else {
        return Vec::new();
    };
    let (banned, more) = added(haul, league);
    let used = league.cost(haul.catalogue, haul.fits.0);
    let allowed = u64::from(league.allowance);
    let is_over = used > allowed;
    let mut fitted = fitted(haul.catalogue, haul.fits.0);
    let prices = [
        (!banned.is_empty(), HaulPrice::Banned),
        (
            fitted.any(|(_, group)| banned.contains(&group)),
            HaulPrice::BannedBeside,
        ),
        (more > 0, HaulPrice::Priced),
        (!is_over && used + more > allowed, HaulPrice::PricedOver),
        (is_over && more > 0, HaulPrice::PricedMore),
    ];
    let met = prices.into_iter().filter(|price| price.0);
    met.map(|price| HaulEdge::League(price.1)).collect()
}

/// The added pairs' groups that are banned, and what the others would cost.
fn added(haul: &Haul, league: &League) -> (Vec<i32>, u64) {
    let (before, after) = haul.fits;
    let (mut banned, mut cost) = (Vec::new(), 0);
    for (item, _) in after.pairs().skip(before.pairs().count()) {
        let group = group(haul.catalogue, item);
        match league.points(group) {
            Some(BANNED) => banned.push(group),
            points => cost += points.map_or(0, u64::from),
        }
    }
    (banned, cost)
}

/// The entries of rules 24 and 25.
fn judged(list: &[Entry]) -> Vec<Entry> {
    let own = list.iter().filter(|entry| [24, 25].contains(&entry[1]));
    own.copied().collect()
}

/// Both calls of a reader, with the old list as an officer gets it.
pub fn read_by(tally: &mut Tally, reader: Reader, is_skill: bool, full: &[Entry]) {
    let call = if is_skill { Call::Skill } else { Call::List };
    tally.meet(Point::Haul(HaulEdge::Reader(call, reader)));
    if reader == Reader::GUEST && full.iter().any(|entry| entry[1] == 21) {
        tally.meet(Point::Haul(HaulEdge::GuestOmits));
    }
}

/// The skills of an old result, the same in both fits.
pub fn skills(tally: &mut Tally, haul: &Haul, listed: &[Entry]) {
    let added = &haul.case.haul;
    if !listed.is_empty() && !added.items.is_empty() {
        tally.meet(Point::Haul(HaulEdge::Skills));
    }
}
