//! Little-endian numbers at a place of a slice, and document 01's casts.

pub fn u16_at(image: &[u8], at: usize) -> u16 {
    u16::from(image[at]) + 256 * u16::from(image[at + 1])
}

pub fn u32_at(image: &[u8], at: usize) -> u32 {
    u32::from(u16_at(image, at)) + 65_536 * u32::from(u16_at(image, at + 2))
}

pub fn i32_at(image: &[u8], at: usize) -> i32 {
    u32_at(image, at) as i32
}

pub fn f32_at(image: &[u8], at: usize) -> f32 {
    f32::from_bits(u32_at(image, at))
}

pub fn f64_at(image: &[u8], at: usize) -> f64 {
    let low = u64::from(u32_at(image, at));
    let high = u64::from(u32_at(image, at + 4));
    f64::from_bits(low + (high << 32))
}

/// Truncated toward zero, stopped at the ends of the range, NaN gives 0.
pub fn cast(value: f64, low: i64, high: i64) -> i64 {
    if value.is_nan() {
        0
    } else if value <= low as f64 {
        low
    } else if value >= high as f64 {
        high
    } else {
        value.trunc() as i64
    }
}

pub fn to_u8(value: f64) -> u8 {
    cast(value, 0, 255) as u8
}

pub fn to_u16(value: f64) -> u16 {
    cast(value, 0, 65_535) as u16
}

pub fn to_u32(value: f64) -> u32 {
    cast(value, 0, 4_294_967_295) as u32
}

pub fn to_i32(value: f64) -> i32 {
    cast(value, -2_147_483_648, 2_147_483_647) as i32
}

/// The same, but that what is over the range wraps.
pub fn to_i32_wrapping(value: f64) -> i32 {
    match value < 0.0 {
        true => to_i32(value),
        false => value as u64 as u32 as i32,
    }
}

#[cfg(test)]
mod tests {
    use super::*;

    #[test]
    fn document_01s_casts() {
        assert_eq!(to_u8(f64::NAN), 0);
        assert_eq!(to_u8(-1.0), 0);
        assert_eq!(to_u8(255.9), 255);
        assert_eq!(to_u8(256.0), 255);
        assert_eq!(to_i32(-2.7), -2);
    }

    #[test]
    fn both_ends_of_every_width() {
        assert_eq!(to_u8(254.999), 254);
        assert_eq!(to_u16(65_535.9), 65_535);
        assert_eq!(to_u16(65_534.9), 65_534);
        assert_eq!(to_u16(f64::INFINITY), 65_535);
        assert_eq!(to_u32(4_294_967_294.5), 4_294_967_294);
        assert_eq!(to_u32(1e300), 4_294_967_295);
        assert_eq!(to_u32(-0.9), 0);
        assert_eq!(to_i32(2_147_483_646.9), 2_147_483_646);
        assert_eq!(to_i32(2_147_483_648.0), i32::MAX);
        assert_eq!(to_i32(-2_147_483_647.9), -2_147_483_647);
        assert_eq!(to_i32(f64::NEG_INFINITY), i32::MIN);
    }

    #[test]
    fn numbers_are_little_endian() {
        let bytes = [1, 2, 3, 4, 0, 0, 0xF0, 0x3F];
        assert_eq!(u16_at(&bytes, 0), 0x0201);
        assert_eq!(u32_at(&bytes, 0), 0x0403_0201);
        assert_eq!(i32_at(&[0xFE, 0xFF, 0xFF, 0xFF], 0), -2);
        assert_eq!(f64_at(&[0, 0, 0, 0, 0, 0, 0xF0, 0x3F], 0), 1.0);
        assert_eq!(f32_at(&[0, 0, 0x80, 0x3F], 0), 1.0);
    }
}
