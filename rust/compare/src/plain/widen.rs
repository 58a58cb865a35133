//! Document 02's P10: an old catalogue in the new form. Bit by bit, where the
//! reference converts.

use super::bytes::u32_at;
use super::catalogue::{Catalogue, OLD};
use super::fault::Fault;
use super::{Flaw, Measure, Number, Rows, write};
use crate::checker::refused;

pub fn widen(old: &[u8], out: &mut [u8], flaw: Flaw) -> u64 {
    let new = match opened(old, out, flaw) {
        Ok(new) => new,
        Err(number) => {
            if flaw.has(Fault::RefusalClears) {
                out.fill(0);
            }
            return refused(number);
        }
    };
    if flaw.has(Fault::WidenLimit) && new.len() > 16_777_216 {
        return refused(1);
    }
    let needed = match () {
        () if flaw.has(Fault::WidenRoomOld) => old.len(),
        () if flaw.has(Fault::RoomMustExceed) => new.len() + 1,
        () if flaw.has(Fault::RoomOneShort) => new.len() - 1,
        () => new.len(),
    };
    if out.len() < needed || flaw.refuses(Measure::OutBytes, out.len()) {
        return refused(10);
    }
    write(&new, out, flaw);
    if flaw.has(Fault::WidenCountsBases) {
        return u64::from(u32_at(old, 16));
    }
    flaw.number(Number::WideCount, new.len()) as u64
}

/// The new catalogue, or the refusal before the buffer's.
fn opened(old: &[u8], out: &[u8], flaw: Flaw) -> Result<Vec<u8>, u8> {
    if flaw.has(Fault::WidenRoomFirst) && out.len() < old.len() {
        return Err(10);
    }
    if flaw.refuses(Measure::OldBytes, old.len()) {
        return Err(1);
    }
    let width = if flaw.has(Fault::WidenJudgesNew) {
        12
    } else {
        OLD
    };
    let catalogue = match Catalogue::open_as(old, width, flaw) {
        Err(2 | 3) if flaw.has(Fault::WidenLengthOnly) => Catalogue::unjudged(old, flaw),
        Err(3) if flaw.has(Fault::WidenFieldsUnjudged) => Catalogue::unjudged(old, flaw),
        opened => opened?,
    };
    let mut front = old.to_vec();
    let (values, bases) = catalogue.base_values();
    front.truncate(values);
    volumes(&mut front, &catalogue, flaw);
    let mut new = front;
    let bases = flaw.rows(Rows::Widened, bases);
    for base in 0..bases {
        let at = flaw.number(Number::WidenPlace, values + OLD * base);
        let attribute = &old[at..at + 4];
        let bits = wide(u32_at(old, at + 4), flaw).to_le_bytes();
        match flaw.has(Fault::WidenValueFirst) {
            true => new.extend(bits.iter().chain(attribute)),
            false => new.extend(attribute.iter().chain(&bits)),
        }
    }
    Ok(new)
}

/// Volumes are no base values: they stay, whatever their bits.
fn volumes(front: &mut [u8], catalogue: &Catalogue, flaw: Flaw) {
    let (values, types) = catalogue.type_values();
    for row in 0..types {
        let at = values + 16 * row;
        let (flag, bits) = (u32_at(front, at + 8), u32_at(front, at + 12));
        let is_nan = bits & 0x7FFF_FFFF > 0x7F80_0000;
        let changed = match () {
            () if flaw.has(Fault::WidenVolumes) && is_nan => 0x7FC0_0000u32,
            () if flaw.has(Fault::WidenFlagless) && flag == 0 => 0,
            () => continue,
        };
        front[at + 12..at + 16].copy_from_slice(&changed.to_le_bytes());
    }
}

/// The f64 of an f32, by its sign, exponent and fraction.
fn wide(single: u32, flaw: Flaw) -> u64 {
    let sign = u64::from(single >> 31) << 63;
    let exponent = single >> 23 & 0xFF;
    let fraction = single & 0x007F_FFFF;
    let parts = |exponent: u32, fraction: u32| {
        sign | u64::from(exponent) << 52 | u64::from(fraction & 0x007F_FFFF) << 29
    };
    match (exponent, fraction) {
        (0xFF, 0) if flaw.has(Fault::WidenInfinity) => sign | 0x7FEF_FFFF_FFFF_FFFF,
        (0xFF, 0) => parts(0x7FF, 0),
        (0xFF, _) => nan(single, flaw),
        (0, 0) if flaw.has(Fault::WidenZeroSign) => 0,
        (0, 0) => sign,
        (0, _) if flaw.has(Fault::WidenSubnormalLost) => sign,
        (0, _) if flaw.has(Fault::WidenSubnormalPlain) => parts(896, fraction),
        // The highest bit becomes the one that is not written.
        (0, _) => {
            let shift = fraction.leading_zeros() - 8;
            parts(897 - shift, fraction << shift)
        }
        _ => parts(exponent + 896, fraction),
    }
}

/// One NaN for all.
fn nan(single: u32, flaw: Flaw) -> u64 {
    const NAN: u64 = 0x7FF8_0000_0000_0000;
    let sign = u64::from(single >> 31) << 63;
    let payload = u64::from(single & 0x007F_FFFF) << 29;
    let is_quiet = single & 0x0040_0000 != 0;
    match () {
        () if flaw.has(Fault::WidenNanPayload) => NAN | payload,
        () if flaw.has(Fault::WidenNanSign) => NAN | sign,
        () if flaw.has(Fault::WidenNanSignals) && !is_quiet => 0x7FF0_0000_0000_0000 | payload,
        () => NAN,
    }
}

#[cfg(test)]
mod tests {
    use super::*;

    #[test]
    fn bit_by_bit_is_the_conversion() {
        let mut single = 0x9E37u32;
        for _ in 0..200_000 {
            single = single.wrapping_mul(1_664_525).wrapping_add(1_013_904_223);
            let value = f32::from_bits(single);
            let expected = match value.is_nan() {
                true => 0x7FF8_0000_0000_0000,
                false => f64::from(value).to_bits(),
            };
            assert_eq!(wide(single, Flaw::None), expected, "{single:#010x}");
            // The lowest numbers are rare among all.
            let low = f32::from_bits(single >> 9);
            assert_eq!(wide(single >> 9, Flaw::None), f64::from(low).to_bits());
        }
    }
}
