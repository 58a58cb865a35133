//! Document 02's P10 in plain code: what a new catalogue is made of an old one.

use super::{Catalogue, Refusal};

/// What every NaN becomes.
const NAN: u64 = 0x7FF8_0000_0000_0000;

/// The new catalogue, or the first refusal of 1 to 3 that the old form
/// deserves.
pub fn widen(old: &[u8]) -> Result<Vec<u8>, Refusal> {
    Catalogue::decode_old(old)?;
    let bases = u32::from_le_bytes([old[16], old[17], old[18], old[19]]);
    let (front, values) = old.split_at(old.len() - 8 * bases as usize);
    let mut new = front.to_vec();
    for value in values.chunks_exact(8) {
        let (attribute, single) = value.split_at(4);
        let single = f32::from_le_bytes([single[0], single[1], single[2], single[3]]);
        let bits = match single.is_nan() {
            true => NAN,
            false => f64::from(single).to_bits(),
        };
        new.extend(attribute);
        new.extend(bits.to_le_bytes());
    }
    Ok(new)
}
