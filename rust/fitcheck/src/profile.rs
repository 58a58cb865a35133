//! A league's profile: which groups a tournament bans, and what others cost.

use std::collections::BTreeMap;
use std::error::Error;
use std::fmt;

use crate::Refusal;

/// The most groups that a profile may list.
pub const MOST_GROUPS: usize = 4_096;

/// The most points that a group may cost.
pub const MOST_POINTS: u32 = 1_000_000;

/// The points that ban a group.
const BANNED: u32 = u32::MAX;

/// What a league says of a group that it lists.
#[non_exhaustive]
#[derive(Debug, Clone, Copy, PartialEq, Eq)]
pub enum Price {
    /// Nothing of the group may be fitted.
    Banned,
    /// Each fitted item of the group costs so many points.
    Points(u32),
}

/// A league's profile: groups that are banned, and groups that cost points. A
/// group that it does not list is free.
///
/// Whatever is put in, the image is well formed: none is refused by 11 or 12.
/// [`ListOptions::league`] takes the image with the allowance.
///
/// [`ListOptions::league`]: crate::ListOptions::league
///
/// ```
/// use fitcheck::{ListOptions, Profile, ProfileError, Reader};
///
/// let mut profile = Profile::new();
/// profile.ban(464)?.price(60, 47)?;
/// let image = profile.to_bytes();
/// assert_eq!(image.len(), 4 + 8 * 2);
/// assert_eq!(Profile::from_bytes(&image), Ok(profile.clone()));
/// let options = ListOptions::new(Reader::Pilot).league(&image, 120);
///
/// // A group is spoken of once, and costs at most 1,000,000.
/// assert_eq!(profile.price(464, 5), Err(ProfileError::GroupTwice { group_id: 464 }));
/// assert!(profile.price(61, 1_000_001).is_err());
/// # Ok::<(), ProfileError>(())
/// ```
#[derive(Debug, Clone, Default, PartialEq, Eq)]
pub struct Profile {
    prices: BTreeMap<i32, Price>,
}

/// Why a profile takes no more of this.
#[non_exhaustive]
#[derive(Debug, Clone, Copy, PartialEq, Eq)]
pub enum ProfileError {
    /// The group is banned or has a price already.
    GroupTwice {
        /// Its id.
        group_id: i32,
    },
    /// The group would cost more than [`MOST_POINTS`].
    TooDear {
        /// Its id.
        group_id: i32,
        /// What it would cost.
        points: u32,
    },
    /// [`MOST_GROUPS`] groups are listed already.
    TooManyGroups,
}

impl fmt::Display for ProfileError {
    fn fmt(&self, formatter: &mut fmt::Formatter<'_>) -> fmt::Result {
        match self {
            ProfileError::GroupTwice { group_id } => {
                write!(formatter, "group {group_id} stands twice")
            }
            ProfileError::TooDear { group_id, points } => write!(
                formatter,
                "group {group_id} costs {points} points: the most is {MOST_POINTS}"
            ),
            ProfileError::TooManyGroups => write!(formatter, "over {MOST_GROUPS} groups"),
        }
    }
}

impl Error for ProfileError {}

impl Profile {
    /// A profile that bans nothing and prices nothing.
    pub fn new() -> Profile {
        Profile::default()
    }

    /// Bans a group.
    ///
    /// # Errors
    ///
    /// Where the group is listed already, or too many are. Nothing changes.
    pub fn ban(&mut self, group_id: i32) -> Result<&mut Profile, ProfileError> {
        self.list(group_id, Price::Banned)
    }

    /// Has each fitted item of a group cost so many points; 0 is a price too.
    ///
    /// # Errors
    ///
    /// Where the group is listed already, the points are over [`MOST_POINTS`],
    /// or too many groups are listed. Nothing changes.
    pub fn price(&mut self, group_id: i32, points: u32) -> Result<&mut Profile, ProfileError> {
        match points {
            ..=MOST_POINTS => self.list(group_id, Price::Points(points)),
            _ => Err(ProfileError::TooDear { group_id, points }),
        }
    }

    fn list(&mut self, group_id: i32, price: Price) -> Result<&mut Profile, ProfileError> {
        if self.prices.contains_key(&group_id) {
            return Err(ProfileError::GroupTwice { group_id });
        }
        if self.prices.len() == MOST_GROUPS {
            return Err(ProfileError::TooManyGroups);
        }
        self.prices.insert(group_id, price);
        Ok(self)
    }

    /// What it says of a group; nothing where the group is not listed.
    pub fn of(&self, group_id: i32) -> Option<Price> {
        self.prices.get(&group_id).copied()
    }

    /// Every group that it lists, by ascending id.
    pub fn groups(&self) -> impl Iterator<Item = (i32, Price)> + '_ {
        self.prices.iter().map(|(group, price)| (*group, *price))
    }

    /// The image, as `docs/FORMAT.md` describes it.
    pub fn to_bytes(&self) -> Vec<u8> {
        // At most 4,096.
        let mut image = (self.prices.len() as u32).to_le_bytes().to_vec();
        for group_id in self.prices.keys() {
            image.extend(group_id.to_le_bytes());
        }
        for price in self.prices.values() {
            let points = match price {
                Price::Banned => BANNED,
                Price::Points(points) => *points,
            };
            image.extend(points.to_le_bytes());
        }
        image
    }

    /// The profile of an image.
    ///
    /// # Errors
    ///
    /// The refusal that the list call gives it: [`Refusal::ProfileLength`] or
    /// [`Refusal::ProfilePrices`]. No bytes are no profile, which the call
    /// takes as none; here they are [`Refusal::ProfileLength`].
    pub fn from_bytes(image: &[u8]) -> Result<Profile, Refusal> {
        let (words, rest) = image.as_chunks::<4>();
        let words: Vec<u32> = words.iter().map(|word| u32::from_le_bytes(*word)).collect();
        let (size, rows) = words.split_first().ok_or(Refusal::ProfileLength)?;
        let size = *size as usize;
        if size > MOST_GROUPS || rows.len() != 2 * size || !rest.is_empty() {
            return Err(Refusal::ProfileLength);
        }
        let (groups, points) = rows.split_at(size);
        let groups: Vec<i32> = groups.iter().map(|word| word.cast_signed()).collect();
        if !groups.is_sorted_by(|a, b| a < b) {
            return Err(Refusal::ProfilePrices);
        }
        let mut profile = Profile::new();
        for (group_id, points) in groups.into_iter().zip(points) {
            let listed = match *points {
                BANNED => profile.ban(group_id),
                points => profile.price(group_id, points),
            };
            listed.map_err(|_| Refusal::ProfilePrices)?;
        }
        Ok(profile)
    }
}

/// In the words that [`text::profile`](crate::text::profile) reads.
impl fmt::Display for Profile {
    fn fmt(&self, formatter: &mut fmt::Formatter<'_>) -> fmt::Result {
        for (group_id, price) in &self.prices {
            match price {
                Price::Banned => writeln!(formatter, "ban {group_id}")?,
                Price::Points(points) => writeln!(formatter, "price {points} {group_id}")?,
            }
        }
        Ok(())
    }
}

#[cfg(test)]
mod tests {
    use super::*;

    #[test]
    fn groups_ascend_and_points_follow() {
        let mut profile = Profile::new();
        profile.price(7, 0).unwrap().ban(-2).unwrap();
        let image = profile.to_bytes();
        let words = [2, 0xFFFF_FFFE, 7, 0xFFFF_FFFF, 0u32];
        let expected: Vec<u8> = words.iter().flat_map(|word| word.to_le_bytes()).collect();
        assert_eq!(image, expected);
        assert_eq!(Profile::from_bytes(&image).as_ref(), Ok(&profile));
        assert_eq!(profile.of(-2), Some(Price::Banned));
        assert_eq!(profile.of(7), Some(Price::Points(0)));
        assert_eq!(profile.of(8), None);
        assert_eq!(Profile::new().to_bytes(), [0; 4]);
        assert_eq!(profile.to_string(), "ban -2\nprice 0 7\n");
    }

    #[test]
    fn what_would_be_refused_is_not_taken() {
        let mut profile = Profile::new();
        assert!(profile.price(1, 1_000_000).is_ok());
        for points in [1_000_001, u32::MAX - 1, u32::MAX] {
            let error = ProfileError::TooDear {
                group_id: 2,
                points,
            };
            assert_eq!(profile.price(2, points), Err(error));
        }
        let twice = Err(ProfileError::GroupTwice { group_id: 1 });
        assert_eq!(profile.ban(1), twice);
        assert_eq!(profile.price(1, 1_000_000), twice);
        for group_id in 2..=4_096 {
            profile.ban(group_id).unwrap();
        }
        assert_eq!(profile.ban(0), Err(ProfileError::TooManyGroups));
        assert_eq!(profile.to_bytes().len(), 4 + 8 * 4_096);
    }

    #[test]
    fn bytes_are_judged_as_the_call_judges_them() {
        let image = |words: &[u32]| {
            let bytes = words.iter().flat_map(|word| word.to_le_bytes());
            bytes.collect::<Vec<u8>>()
        };
        for length in [0, 1, 3, 5, 12] {
            let bytes = vec![0; length];
            assert_eq!(Profile::from_bytes(&bytes), Err(Refusal::ProfileLength));
        }
        let long: Vec<u32> = [4_097].into_iter().chain(0..2 * 4_097).collect();
        assert_eq!(
            Profile::from_bytes(&image(&long)),
            Err(Refusal::ProfileLength)
        );
        for words in [
            [2, 5, 5, 0, 0],
            [2, 5, 4, 0, 0],
            [2, 5, u32::MAX, 0, 0],
            [2, 5, 6, 0, 1_000_001],
            [2, 5, 6, u32::MAX - 1, 0],
        ] {
            assert_eq!(
                Profile::from_bytes(&image(&words)),
                Err(Refusal::ProfilePrices),
                "{words:?}"
            );
        }
        assert!(Profile::from_bytes(&image(&[2, u32::MAX, 5, 0, u32::MAX])).is_ok());
    }
}
