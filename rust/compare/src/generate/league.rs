//! What list calls bring beside their images: profiles whose groups are those
//! of the fit, good and bad ones, and allowances around what the fit costs.

use std::collections::BTreeMap;

use crate::case::{Case, Plant};
use crate::model::{Damage, Fit};
use crate::profile::{BANNED, DEAREST, League, MOST_GROUPS, Price, Profile, cost, groups};
use crate::rng::Rng;

/// Gives a case a league, so that its list calls bring a profile, or none. A
/// case in which another refusal is planted gets a good one.
pub fn bring(rng: &mut Rng, case: &mut Case) {
    let is_about_profiles = |plant: &Plant| matches!(plant.cause.number(), 11 | 12);
    if case.fits.is_empty() || case.planted.iter().any(is_about_profiles) {
        return;
    }
    let profile = match rng.below(100) {
        0..=24 => None,
        25..=29 => Some(Profile::default()),
        30..=32 => Some(long(rng, case, MOST_GROUPS)),
        33..=44 if case.planted.is_empty() => Some(bad(rng, case)),
        _ => Some(good(rng, case)),
    };
    let prices = profile.as_ref().map_or(&[][..], |profile| &profile.prices);
    let used = cost(&case.catalogue, &case.fits[0], prices) as u32;
    let allowance = match rng.below(9) {
        0 | 1 => used,
        2 | 3 => used.saturating_sub(1),
        4 => used + 1,
        5 => 0,
        6 => u32::MAX,
        7 => used / 2,
        _ => rng.draw() as u32,
    };
    case.league = League { profile, allowance };
}

/// Some of the groups that the fit and what it grows by have, and others.
fn good(rng: &mut Rng, case: &Case) -> Profile {
    let mut prices: BTreeMap<i32, u32> = BTreeMap::new();
    let listed = rng.pick(&[300, 700, 1000]);
    let dear = rng.pick(&[&FEW[..], &ANY[..], &[BANNED], &[DEAREST]]);
    for group in pool(case) {
        if rng.chance(listed) {
            prices.insert(group, rng.pick(dear));
        }
        if rng.chance(100) {
            prices.insert(group.wrapping_add(rng.pick(&[-1, 1])), rng.pick(dear));
        }
    }
    if rng.chance(300) {
        for group in [i32::MIN, -1, 0, i32::MAX] {
            prices.insert(group, rng.pick(dear));
        }
    }
    of(prices)
}

/// Points that a host would give.
const FEW: [u32; 6] = [1, 2, 5, 10, 25, BANNED];

/// Points at the ends of what may be.
const ANY: [u32; 7] = [0, 1, 999_999, DEAREST, DEAREST, BANNED, BANNED];

fn of(prices: BTreeMap<i32, u32>) -> Profile {
    let price = |(group, points)| Price { group, points };
    Profile {
        prices: prices.into_iter().map(price).collect(),
        ..Profile::default()
    }
}

/// The groups of all that may be fitted: 0 where the catalogue lacks a type.
fn pool(case: &Case) -> Vec<i32> {
    let mut pool = groups(&case.catalogue, &case.fits[0]);
    let grown = Fit {
        items: case.growth.items.clone(),
        ..Fit::default()
    };
    pool.extend(groups(&case.catalogue, &grown));
    pool.sort();
    pool.dedup();
    pool
}

/// So many groups, those of the fit among them.
fn long(rng: &mut Rng, case: &Case, count: usize) -> Profile {
    let good = good(rng, case).prices.into_iter();
    let mut prices: BTreeMap<i32, u32> = good.map(|price| (price.group, price.points)).collect();
    while prices.len() < count {
        let group = match rng.below(3) {
            0 => rng.draw() as i32,
            _ => rng.between(-6_000, 6_000) as i32,
        };
        prices.entry(group).or_insert(rng.pick(&ANY));
    }
    of(prices)
}

/// A profile that may be refused, in any way.
fn bad(rng: &mut Rng, case: &Case) -> Profile {
    let mut profile = good(rng, case);
    let length = profile.image().len();
    let row = rng.below(profile.prices.len() + 1);
    let prices = &mut profile.prices;
    match rng.below(10) {
        0 => profile.damage.cut = 1,
        1 => profile.damage.extra.push(rng.draw() as u8),
        2 => {
            profile.damage = Damage {
                cut: usize::MAX,
                extra: vec![rng.draw() as u8; rng.between(1, 3) as usize],
                ..Damage::default()
            }
        }
        3 => return long(rng, case, MOST_GROUPS + 1),
        4 if row < prices.len() => prices.insert(row, prices[row]),
        5 => prices.reverse(),
        6 if prices.len() > 1 => prices.swap(0, 1),
        7 if row < prices.len() => {
            let any = rng.draw() as u32;
            prices[row].points = rng.pick(&[1_000_001, BANNED - 1, any]);
        }
        8 => profile.damage.sizes.push((0, rng.below(6) as u32)),
        _ => {
            let place = (rng.below(length), rng.draw() as u8);
            profile.damage.patches.push(place);
        }
    }
    profile
}
