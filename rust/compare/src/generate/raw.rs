//! Bytes without plan: images with single bytes changed, cut off or put
//! behind, and images of random words with sizes that are right.

use super::fit::fit;
use super::world::{Style, World};
use super::{a_room, asks};
use crate::case::{Ask, Case};
use crate::model::{Catalogue, Damage, Fit};
use crate::rng::Rng;

/// A good case with a few bytes wrong.
pub fn flipped(rng: &mut Rng) -> Case {
    let style = Style::realistic(rng);
    let world = World::new(rng, style);
    let mut made = fit(rng, &world, style, 10);
    let mut catalogue = world.catalogue;
    if rng.chance(500) {
        let length = catalogue.image().len();
        catalogue.damage = harm(rng, length);
    } else {
        let length = made.image().len();
        made.damage = harm(rng, length);
    }
    let asks = asks(rng, &made);
    Case {
        title: "bytes changed".to_string(),
        catalogue,
        fits: vec![made],
        asks,
        ..Case::default()
    }
}

fn harm(rng: &mut Rng, length: usize) -> Damage {
    let mut damage = Damage::default();
    match rng.below(6) {
        0 => damage.cut = rng.below(length + 1),
        1 => damage.extra = bytes(rng, 40),
        2 => {
            // The header, where a byte decides most.
            damage.patches.push((rng.below(28), rng.draw() as u8));
        }
        _ => {
            for _ in 0..rng.between(1, 4) {
                let value = match rng.below(3) {
                    0 => rng.draw() as u8,
                    1 => rng.below(5) as u8,
                    _ => 255,
                };
                damage.patches.push((rng.below(length), value));
            }
        }
    }
    damage
}

fn bytes(rng: &mut Rng, most: usize) -> Vec<u8> {
    (0..rng.between(1, most as i64))
        .map(|_| rng.draw() as u8)
        .collect()
}

/// Random bytes, or random small words behind sizes that are right.
pub fn noise(rng: &mut Rng) -> Case {
    let mut catalogue = Catalogue::default();
    let mut fit = Fit::default();
    match rng.below(3) {
        0 => {
            catalogue.damage = replaced(bytes(rng, 120));
            fit.damage = replaced(bytes(rng, 120));
        }
        1 => {
            let sizes: Vec<u32> = (0..5).map(|_| rng.below(3) as u32).collect();
            // Of the new form, or of the old one.
            let base = rng.pick(&[16, 12]);
            let front = 8 * sizes[0] + 8 * sizes[1] + 20 * sizes[2] + 8 * sizes[3];
            let length = front + base * sizes[4];
            catalogue.damage = replaced(words(rng, &sizes, length as usize));
        }
        _ => {
            let sizes: Vec<u32> = (0..4).map(|_| rng.below(3) as u32).collect();
            let length = 20 + 5 * sizes[0] + 12 * sizes[1] + 4 * sizes[2] + 12 * sizes[3];
            fit.damage = replaced(words(rng, &sizes, length as usize));
        }
    }
    let result = rng.below(4) as u32;
    let room = a_room(rng);
    Case {
        title: "noise".to_string(),
        catalogue,
        fits: vec![fit],
        asks: vec![Ask::List(room), Ask::Skill(result, room), Ask::Hall],
        ..Case::default()
    }
}

/// The whole image is these bytes.
fn replaced(bytes: Vec<u8>) -> Damage {
    Damage {
        cut: usize::MAX,
        extra: bytes,
        ..Damage::default()
    }
}

/// Sizes, then bytes that are mostly zero.
fn words(rng: &mut Rng, sizes: &[u32], length: usize) -> Vec<u8> {
    let mut image: Vec<u8> = sizes.iter().flat_map(|size| size.to_le_bytes()).collect();
    for _ in 0..length {
        let byte = match rng.below(6) {
            0 => rng.below(4) as u8,
            _ => 0,
        };
        image.push(byte);
    }
    image
}
