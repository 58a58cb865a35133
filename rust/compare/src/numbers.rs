//! Numbers that break careless code: NaN patterns, zeros, infinities,
//! subnormals, the ends of every cast and the edge of `over`.

use crate::rng::Rng;

/// Bits of f64 values that no arithmetic expects.
const ODD: [u64; 16] = [
    0x7FF8_0000_0000_0000, // NaN
    0xFFF8_0000_0000_0000, // NaN with the sign set
    0x7FF0_0000_0000_0001, // a signalling NaN
    0xFFFF_FFFF_FFFF_FFFF, // NaN, every bit set
    0x0000_0000_0000_0000, // +0
    0x8000_0000_0000_0000, // -0
    0x7FF0_0000_0000_0000, // +infinity
    0xFFF0_0000_0000_0000, // -infinity
    0x0000_0000_0000_0001, // the smallest subnormal
    0x8000_0000_0000_0001,
    0x000F_FFFF_FFFF_FFFF, // the largest subnormal
    0x0010_0000_0000_0000, // the smallest normal
    0x7FEF_FFFF_FFFF_FFFF, // the largest number
    0xFFEF_FFFF_FFFF_FFFF,
    0x3FEF_FFFF_FFFF_FFFF, // just below 1
    0xBFEF_FFFF_FFFF_FFFF, // just above -1
];

/// Bits of f32 values of the same kinds.
const ODD_SINGLE: [u32; 14] = [
    0x7FC0_0000,
    0xFFC0_0000,
    0x7F80_0001,
    0x0000_0000,
    0x8000_0000,
    0x7F80_0000,
    0xFF80_0000,
    0x0000_0001,
    0x8000_0001,
    0x007F_FFFF,
    0x7F7F_FFFF,
    0xFF7F_FFFF,
    0x3F80_0000,
    0xBF80_0000,
];

/// Bits of available amounts whose limit comes out differently where product
/// and sum are rounded once together: the exact product ends within 2^-31 of
/// half a step. (Found by solving for such mantissas; random ones meet this
/// once in a thousand million.)
pub const FUSED_DIFFERS: [u64; 4] = [
    0x4088_2C9B_A886_9100,
    0x408E_7AEB_5730_34FF,
    0x4081_A8C8_AFC6_1100,
    0x4085_04ED_F086_0900,
];

/// The bits of an f32 as those of the f64 that is the same number. A NaN keeps
/// its sign, its payload in the upper bits, and whether it signals.
pub fn widened(single: u32) -> u64 {
    let value = f32::from_bits(single);
    if value.is_nan() {
        let sign = u64::from(single >> 31) << 63;
        return sign | 0x7FF0_0000_0000_0000 | u64::from(single & 0x007F_FFFF) << 29;
    }
    f64::from(value).to_bits()
}

/// The bits of the nearest f32; those of a NaN lead back to it.
pub fn narrowed(bits: u64) -> u32 {
    let value = f64::from_bits(bits);
    if value.is_nan() {
        let sign = (bits >> 63) as u32;
        let payload = (bits >> 29) as u32 & 0x007F_FFFF;
        return sign << 31 | 0x7F80_0000 | payload.max(1);
    }
    (value as f32).to_bits()
}

/// Whether an f64 is a number that no f32 is.
pub fn is_fine(value: f64) -> bool {
    !value.is_nan() && f64::from(value as f32) != value
}

/// A range that a cast stops at.
#[derive(Clone, Copy, Debug, PartialEq, Eq, PartialOrd, Ord)]
pub enum Width {
    U8,
    U16,
    U32,
    I32,
}

impl Width {
    pub const ALL: [Width; 4] = [Width::U8, Width::U16, Width::U32, Width::I32];

    pub fn low(self) -> f64 {
        match self {
            Width::I32 => -2_147_483_648.0,
            _ => 0.0,
        }
    }

    pub fn high(self) -> f64 {
        match self {
            Width::U8 => 255.0,
            Width::U16 => 65_535.0,
            Width::U32 => 4_294_967_295.0,
            Width::I32 => 2_147_483_647.0,
        }
    }
}

/// Any of the odd values, as bits.
pub fn odd(rng: &mut Rng) -> u64 {
    match rng.below(5) {
        0 => rng.draw(),
        _ => rng.pick(&ODD),
    }
}

/// Any of the odd f32 values, as bits.
pub fn odd_single(rng: &mut Rng) -> u32 {
    match rng.below(6) {
        0 => rng.draw() as u32,
        1 => (rng.between(-300, 300) as f32 / 2.0).to_bits(),
        _ => rng.pick(&ODD_SINGLE),
    }
}

/// A value at or near one end of a cast, or an odd one, as bits.
pub fn near_cast(rng: &mut Rng, width: Width) -> u64 {
    let end = rng.pick(&[width.low(), width.high()]);
    let value = match rng.below(10) {
        0 => return odd(rng),
        1 => end,
        2 => end + 0.9,
        3 => end - 0.9,
        4 => end + 1.0,
        5 => end - 1.0,
        6 => end.next_up(),
        7 => end.next_down(),
        8 => end + 0.5,
        _ => -2.7,
    };
    value.to_bits()
}

/// The largest number that is not over what is available.
pub fn limit(available: f64) -> f64 {
    available + available.abs() * 1e-9
}

/// A used amount at or near the edge of `over`.
pub fn around_limit(rng: &mut Rng, available: f64) -> f64 {
    let limit = limit(available);
    match rng.below(7) {
        0 => limit,
        1 => limit.next_up(),
        2 => limit.next_down(),
        3 => available,
        4 => available.next_up(),
        5 => limit + 1.0,
        _ => limit.next_up().next_up(),
    }
}

/// An available amount whose edge is worth meeting.
pub fn available(rng: &mut Rng) -> f64 {
    match rng.below(8) {
        0 => f64::from_bits(odd(rng)),
        1 => rng.pick(&[1e9, -1e9, 1e-9, 1.0, -1.0, 0.1, 1e300, -1e300]),
        2 => rng.between(-1_000_000, 1_000_000) as f64 * 1_000.0,
        3 => f64::from_bits(rng.draw() & 0x43FF_FFFF_FFFF_FFFF),
        4 => f64::from_bits(rng.pick(&FUSED_DIFFERS)) * rng.pick(&[1.0, -1.0, 8.0, 0.25]),
        _ => rng.between(0, 400_000) as f64 / 16.0,
    }
}

#[cfg(test)]
mod tests {
    use super::*;

    #[test]
    fn a_fused_limit_differs_where_it_is_said_to() {
        for bits in FUSED_DIFFERS {
            let available = f64::from_bits(bits);
            assert_ne!(available.abs().mul_add(1e-9, available), limit(available));
        }
    }

    #[test]
    fn every_kind_of_f32_widens_and_comes_back() {
        for single in ODD_SINGLE {
            let wide = f64::from_bits(widened(single));
            assert_eq!(narrowed(widened(single)), single, "{single:#010x}");
            assert_eq!(wide.is_nan(), f32::from_bits(single).is_nan());
            assert!(!is_fine(wide));
        }
        assert_eq!(widened(0x0000_0001), 0x36A0_0000_0000_0000);
        assert_eq!(widened(0x8000_0000), 0x8000_0000_0000_0000);
        assert_eq!(widened(0xFF80_0000), 0xFFF0_0000_0000_0000);
        assert_eq!(widened(0x7F80_0001), 0x7FF0_0000_2000_0000);
    }

    #[test]
    fn finer_than_an_f32() {
        for value in [0.1, 16_777_217.0, 1e300, 5e-324, 2f64.next_down()] {
            assert!(is_fine(value), "{value}");
        }
        for value in [0.0, -0.0, 0.5, 16_777_218.0, f64::INFINITY, f64::NAN] {
            assert!(!is_fine(value), "{value}");
        }
    }

    #[test]
    fn document_01s_slack_is_1e_9_to_the_bit() {
        assert_eq!(1e-9f64.to_bits(), 0x3E11_2E0B_E826_D695);
    }
}
