//! Document 02's P2: refusals 11 and 12, and rules 24 and 25, straight over the
//! profile's bytes. Groups are searched by halves, where the reference goes
//! through them.

use super::bytes::{i32_at, u32_at};
use super::context::{Context, Pair};
use super::entry::{Entries, Target};
use super::fault::Fault;
use super::fit::CARGO;
use super::{Flaw, Measure, Number, Rows};
use crate::checker::Terms;

const BAN: u32 = 0xFFFF_FFFF;

/// A profile that is not refused, or none.
#[derive(Clone, Copy)]
pub struct League<'a> {
    profile: Option<Profile<'a>>,
    allowance: u32,
    flaw: Flaw,
}

#[derive(Clone, Copy)]
struct Profile<'a> {
    image: &'a [u8],
    groups: usize,
    flaw: Flaw,
}

impl<'a> League<'a> {
    /// No profile: what every other call brings.
    pub fn none(flaw: Flaw) -> League<'a> {
        League {
            profile: None,
            allowance: 0,
            flaw,
        }
    }

    /// What is brought, or refusal 11 or 12.
    pub fn open(terms: Terms<'a>, flaw: Flaw) -> Result<League<'a>, u8> {
        Ok(League {
            profile: Profile::open(terms.profile, flaw)?,
            allowance: flaw.number(Number::Allowance, terms.allowance as usize) as u32,
            flaw,
        })
    }

    /// The same, with the wrong turns that end the judging early.
    pub fn judged(terms: Terms<'a>, flaw: Flaw) -> Result<League<'a>, u8> {
        match League::open(terms, flaw) {
            Err(_) if flaw.has(Fault::ProfileForgiven) => Ok(League::none(flaw)),
            Err(12) if flaw.has(Fault::PricesForgiven) => Ok(League::none(flaw)),
            judged => judged,
        }
    }

    /// Rule 24 by pair, then rule 25.
    pub fn validate(&self, context: &Context, entries: &mut Entries) {
        let flaw = self.flaw;
        let Some(profile) = self.profile else {
            if flaw.has(Fault::AllowanceAlone) {
                let fitted = context.pairs.iter().filter(|pair| pair.is_fitted);
                self.over(fitted.count() as u64, entries);
            }
            return;
        };
        let pairs = judged_pairs(context, flaw);
        let used = used(profile, &pairs, context);
        if flaw.has(Fault::PointsBeforeBans) {
            self.over(used, entries);
        }
        banned(profile, &pairs, entries, flaw);
        if flaw.has(Fault::BannedUnpaired) {
            for (number, group) in unpaired(context) {
                if profile.points_of(group) == Some(BAN) {
                    entries.add(Target::Pair(number), 24, 0, &[group as u32]);
                }
            }
        }
        if !flaw.has(Fault::PointsBeforeBans) && !flaw.has(Fault::PointsForgotten) {
            self.over(used, entries);
        }
    }

    /// Rule 25, where the points are above the allowance.
    fn over(&self, used: u64, entries: &mut Entries) {
        let flaw = self.flaw;
        let allowance = self.allowance;
        let used = match () {
            () if flaw.has(Fault::PointsStop) => used.min(16_777_215),
            () => flaw.number(Number::PointsUsed, used as usize) as u64,
        };
        let is_over = match () {
            () if flaw.has(Fault::PointsAtAllowance) => used >= u64::from(allowance) && used > 0,
            () if flaw.has(Fault::PointsOneOver) => used > u64::from(allowance) + 1,
            () if flaw.has(Fault::AllowanceSigned) => used as i64 > i64::from(allowance as i32),
            () if flaw.has(Fault::AllowanceZeroIsNone) => allowance > 0 && used > allowance.into(),
            () => used > u64::from(allowance),
        };
        if !is_over {
            return;
        }
        let target = match flaw.has(Fault::PointsOnAnItem) {
            true => Target::Pair(0),
            false => Target::Ship,
        };
        let used = used as u32;
        let shown = match () {
            () if flaw.has(Fault::PointsAboveAlone) => used.wrapping_sub(allowance),
            () => used,
        };
        let rule = if flaw.has(Fault::LeagueNumbered) {
            23
        } else {
            25
        };
        match flaw.has(Fault::PointsSwapped) {
            true => entries.add(target, rule, 0, &[allowance, shown]),
            false => entries.add(target, rule, 0, &[shown, allowance]),
        }
    }
}

/// The pairs that a league judges: those that are fitted.
fn judged_pairs(context: &Context, flaw: Flaw) -> Vec<Pair> {
    let pairs = context.pairs.iter().copied();
    pairs
        .filter(|pair| !flaw.has(Fault::LeagueOfflineFree) || pair.state > 0)
        .filter(|pair| !flaw.has(Fault::LeagueNoRigs) || pair.item.kind != 3)
        .collect()
}

/// Whether a pair is fitted, or let in by a fault: every pair by the first,
/// cargo by the second.
fn is_judged(pair: &Pair, flaw: Flaw, [all, cargo]: [Fault; 2]) -> bool {
    pair.is_fitted || flaw.has(all) || (pair.item.kind == CARGO && flaw.has(cargo))
}

/// Rule 24 on every fitted pair of a banned group.
fn banned(profile: Profile, pairs: &[Pair], entries: &mut Entries, flaw: Flaw) {
    let mut found: Vec<&Pair> = Vec::new();
    for pair in pairs {
        let again = found.iter().any(|earlier| earlier.group == pair.group);
        let is_asked = is_judged(pair, flaw, [Fault::BannedUnfitted, Fault::BannedInCargo])
            || (pair.item.kind == CARGO && again && flaw.has(Fault::BannedCargoBeside));
        let passed_over = match () {
            () if flaw.has(Fault::BannedOnce) => again,
            () if flaw.has(Fault::BannedMissingFree) => !pair.is_known,
            () if flaw.has(Fault::BannedEmptyFree) => pair.item.quantity == 0,
            () if flaw.has(Fault::BannedForgotten) => true,
            () => false,
        };
        if is_asked && !passed_over && profile.is_banned(pair) {
            found.push(pair);
        }
    }
    if flaw.has(Fault::BannedByGroup) {
        found.sort_by_key(|pair| pair.group);
    }
    for pair in found {
        add_ban(pair, entries, flaw);
    }
}

/// The entry of a banned pair.
fn add_ban(pair: &Pair, entries: &mut Entries, flaw: Flaw) {
    let rule = if flaw.has(Fault::LeagueNumbered) {
        22
    } else {
        24
    };
    let target = match flaw.has(Fault::BannedOnShip) {
        true => Target::Ship,
        false => pair.target(),
    };
    let word = match flaw.has(Fault::BannedShowsType) {
        true => pair.item.type_id,
        false => pair.group,
    };
    match () {
        () if flaw.has(Fault::BannedShowsNothing) => entries.add(target, rule, 0, &[]),
        () if flaw.has(Fault::BannedShowsPoints) => {
            entries.add(target, rule, 0, &[word as u32, BAN]);
        }
        () => entries.add(target, rule, 0, &[word as u32]),
    }
}

/// What the fitted pairs cost together.
fn used(profile: Profile, pairs: &[Pair], context: &Context) -> u64 {
    let flaw = profile.flaw;
    let mut used = 0u64;
    let mut seen: Vec<i32> = Vec::new();
    for pair in pairs {
        if !is_judged(pair, flaw, [Fault::PointsUnfitted, Fault::PointsInCargo]) {
            continue;
        }
        if seen.contains(&pair.group) && flaw.has(Fault::PointsOncePerGroup) {
            continue;
        }
        seen.push(pair.group);
        let cost = cost(profile, pair);
        used = match () {
            () if flaw.has(Fault::PointsByQuantity) => used + cost * u64::from(pair.item.quantity),
            () if flaw.has(Fault::PointsLargestAlone) => used.max(cost),
            () => used + cost,
        };
    }
    if flaw.has(Fault::PointsUnpaired) {
        let points = unpaired(context).into_iter();
        let points = points.filter_map(|(_, group)| profile.points_of(group));
        used += points.filter(|it| *it != BAN).map(u64::from).sum::<u64>();
    }
    if flaw.has(Fault::PointsOfShip) {
        used += profile.points_of(context.ship_group()).map_or(0, u64::from);
    }
    used & u64::from(u32::MAX)
}

/// The number and the group of every item that would be fitted and has no
/// result: these are no pairs.
fn unpaired(context: &Context) -> Vec<(usize, i32)> {
    let fit = context.fit;
    let items = (fit.pairs()..fit.items()).map(|number| (number, fit.item(number)));
    let fitted = items.filter(|(_, item)| item.kind <= 5);
    let groups = fitted.map(|(number, item)| {
        let row = context.catalogue.type_of(item.type_id);
        (number, row.map_or(0, |row| row.group))
    });
    groups.collect()
}

/// What one pair costs: nothing where its group is banned or not listed.
fn cost(profile: Profile, pair: &Pair) -> u64 {
    let flaw = profile.flaw;
    if flaw.has(Fault::PointsMissingFree) && !pair.is_known {
        return 0;
    }
    match profile.points_of(profile.asked(pair)) {
        Some(BAN) if flaw.has(Fault::PointsOfBan) => u64::from(BAN),
        Some(BAN) if flaw.has(Fault::PointsOfBanMost) => 1_000_000,
        Some(BAN) => 0,
        Some(points) => flaw.number(Number::Points, points as usize) as u64,
        None if flaw.has(Fault::PointsUnlisted) => 1,
        None => 0,
    }
}

impl<'a> Profile<'a> {
    fn open(image: &'a [u8], flaw: Flaw) -> Result<Option<Profile<'a>>, u8> {
        if image.is_empty() && !flaw.has(Fault::ProfileNoneRefused) {
            return Ok(None);
        }
        if image.len() < 4 {
            return match flaw.has(Fault::ProfileShortIsNone) {
                true => Ok(None),
                false => Err(11),
            };
        }
        let groups = u32_at(image, 0) as usize;
        let profile = Profile {
            image,
            groups,
            flaw,
        };
        let whole = Profile {
            groups: groups.min((image.len() - 4) / 8),
            ..profile
        };
        if flaw.has(Fault::PricesBeforeLength) && !whole.is_fine() {
            return Err(12);
        }
        if !profile.length_is_right() {
            return Err(11);
        }
        // A flaw may have let a profile through that is shorter than its size.
        match whole.is_fine() {
            true => Ok(Some(whole)),
            false => Err(12),
        }
    }

    fn length_is_right(&self) -> bool {
        let flaw = self.flaw;
        let most = match () {
            () if flaw.has(Fault::Profile4097) => 4_097,
            () if flaw.has(Fault::Profile4096Refused) => 4_095,
            () if flaw.has(Fault::ProfileUnlimited) => usize::MAX,
            () => 4_096,
        };
        if self.groups > most
            || (self.groups == 0 && flaw.has(Fault::ProfileEmptyRefused))
            || flaw.refuses(Measure::ProfileBytes, self.image.len())
        {
            return false;
        }
        let given = self.image.len();
        let expected = match flaw.has(Fault::ProfileUnlimited) {
            true => (4 + 8 * self.groups) as u32 as usize,
            false => 4 + 8 * self.groups,
        };
        given == expected
            || (given > expected && flaw.has(Fault::ProfileMayBeLonger))
            || (given + 1 == expected && flaw.has(Fault::ProfileMayBeShorter))
    }

    /// Whether the groups ascend and every price is one.
    fn is_fine(&self) -> bool {
        let flaw = self.flaw;
        let ascends = |row: usize| {
            let (before, group) = (self.group(row - 1), self.group(row));
            match () {
                () if flaw.has(Fault::GroupsUnsigned) => (before as u32) < group as u32,
                () if flaw.has(Fault::GroupsMayRepeat) => before <= group,
                () => before < group,
            }
        };
        let last = match flaw.has(Fault::GroupsLastUnjudged) {
            true => self.groups.saturating_sub(1),
            false => self.groups,
        };
        let judged = match flaw.has(Fault::PricesFirstAlone) {
            true => self.groups.min(1),
            false => self.groups,
        };
        (flaw.has(Fault::GroupsUnordered) || (1..last).all(ascends))
            && (0..judged).all(|row| self.is_price(self.points(row)))
    }

    fn is_price(&self, points: u32) -> bool {
        let flaw = self.flaw;
        match points {
            BAN => !flaw.has(Fault::BanRefused),
            0xFFFF_FFFE if flaw.has(Fault::BanOneLess) => true,
            1_000_001 if flaw.has(Fault::Points1000001) => true,
            1_000_000 if flaw.has(Fault::Points1000000Refused) => false,
            0 if flaw.has(Fault::PointsZeroRefused) => false,
            _ => points <= 1_000_000 || flaw.has(Fault::PointsUnlimited),
        }
    }

    fn group(&self, row: usize) -> i32 {
        match self.flaw.has(Fault::PricesInterleaved) {
            true => i32_at(self.image, 4 + 8 * row),
            false => i32_at(self.image, 4 + 4 * row),
        }
    }

    fn points(&self, row: usize) -> u32 {
        let size = u32_at(self.image, 0) as usize;
        let at = match self.flaw.has(Fault::PricesInterleaved) {
            true => 8 + 8 * row,
            false => 4 + 4 * size + 4 * row,
        };
        match self.image.get(at..at + 4) {
            Some(bytes) => u32_at(bytes, 0),
            None => 0,
        }
    }

    /// The id that is looked for.
    fn asked(&self, pair: &Pair) -> i32 {
        match () {
            () if self.flaw.has(Fault::PricesByType) => pair.item.type_id,
            () if self.flaw.has(Fault::PricesByCategory) => pair.category,
            () => pair.group,
        }
    }

    fn is_banned(&self, pair: &Pair) -> bool {
        let flaw = self.flaw;
        match self.points_of(self.asked(pair)) {
            Some(0) => flaw.has(Fault::BannedForNothing),
            Some(points) => points == BAN || (points == BAN - 1 && flaw.has(Fault::BanOneLess)),
            None => flaw.has(Fault::BannedUnlisted),
        }
    }

    /// The points of a group that is listed.
    fn points_of(&self, group: i32) -> Option<u32> {
        let flaw = self.flaw;
        if group < 0 && flaw.has(Fault::GroupsNegativeLost) {
            return None;
        }
        if group == 0 && flaw.has(Fault::GroupZeroLost) {
            return None;
        }
        let group = flaw.id(Number::GroupId, group);
        let (mut low, mut high) = (0, flaw.rows(Rows::Prices, self.groups));
        while low < high {
            let middle = (low + high) / 2;
            let here = self.group(middle);
            if here == group {
                return Some(self.points(flaw.number(Number::PriceRow, middle)));
            }
            let before = match flaw.has(Fault::GroupsByDifference) {
                true => here.wrapping_sub(group) < 0,
                false => here < group,
            };
            match before {
                true => low = middle + 1,
                false => high = middle,
            }
        }
        None
    }
}
