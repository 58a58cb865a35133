//! What a list call brings beside its images, as rows that can be read, changed
//! and dropped one by one: a league's profile, which may be malformed on
//! purpose, and the allowance.

use crate::model::Catalogue;
use crate::model::{Damage, Fit};

/// The points that ban a group.
pub const BANNED: u32 = 4_294_967_295;

/// The most points that a group may cost.
pub const DEAREST: u32 = 1_000_000;

/// The most groups of a profile.
pub const MOST_GROUPS: usize = 4_096;

/// A league's profile, if one is brought, and its allowance.
#[derive(Clone, Debug, Default, PartialEq)]
pub struct League {
    /// None is no bytes at all.
    pub profile: Option<Profile>,
    pub allowance: u32,
}

/// A profile's rows.
#[derive(Clone, Debug, Default, PartialEq)]
pub struct Profile {
    pub prices: Vec<Price>,
    pub damage: Damage,
}

/// A group and its points.
#[derive(Clone, Copy, Debug, PartialEq, Eq, PartialOrd, Ord)]
pub struct Price {
    pub group: i32,
    pub points: u32,
}

impl League {
    /// A profile of these prices, as they stand.
    pub fn of(prices: &[(i32, u32)], allowance: u32) -> League {
        League {
            profile: Some(Profile::of(prices)),
            allowance,
        }
    }

    /// The profile's bytes; none where none is brought.
    pub fn image(&self) -> Vec<u8> {
        self.profile.as_ref().map_or(Vec::new(), Profile::image)
    }
}

impl Profile {
    /// These prices, as they stand.
    pub fn of(prices: &[(i32, u32)]) -> Profile {
        let price = |&(group, points)| Price { group, points };
        Profile {
            prices: prices.iter().map(price).collect(),
            ..Profile::default()
        }
    }

    /// The image: the size, all groups, all points.
    pub fn image(&self) -> Vec<u8> {
        let mut image = (self.prices.len() as u32).to_le_bytes().to_vec();
        for price in &self.prices {
            image.extend(price.group.to_le_bytes());
        }
        for price in &self.prices {
            image.extend(price.points.to_le_bytes());
        }
        self.damage.apply(&mut image);
        image
    }
}

/// The groups of a fit's items: 0 where the catalogue lacks the type.
pub fn groups(catalogue: &Catalogue, fit: &Fit) -> Vec<i32> {
    let group = |type_id: i32| {
        let row = catalogue.types.iter().find(|row| row.id == type_id);
        row.map_or(0, |row| row.group)
    };
    fit.items.iter().map(|item| group(item.type_id)).collect()
}

/// What the fitted pairs of a fit cost, where its images are as they should be.
pub fn cost(catalogue: &Catalogue, fit: &Fit, prices: &[Price]) -> u64 {
    let pairs = fit
        .items
        .iter()
        .zip(groups(catalogue, fit))
        .zip(&fit.results);
    let fitted = pairs.filter(|((item, _), _)| item.kind <= 5);
    let costs = fitted.map(|((_, group), _)| {
        let price = prices.iter().find(|price| price.group == group);
        price.map_or(0, |price| price.points)
    });
    costs
        .filter(|points| *points != BANNED)
        .map(u64::from)
        .sum()
}

#[cfg(test)]
mod tests {
    use super::*;

    #[test]
    fn all_groups_and_then_all_points() {
        assert_eq!(League::default().image(), []);
        assert_eq!(League::of(&[], 7).image(), [0; 4]);
        let image = League::of(&[(-2, 5), (7, BANNED)], 0).image();
        let words: Vec<i32> = image
            .chunks_exact(4)
            .map(|word| i32::from_le_bytes([word[0], word[1], word[2], word[3]]))
            .collect();
        assert_eq!(words, [2, -2, 7, 5, -1]);
    }
}
