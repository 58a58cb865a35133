//! The least reading that refusals 1 to 6 ask for, in plain Rust: every key,
//! mark, flag, count and small field of both images, once each; and the least
//! work of a widening.
//!
//! No loop leaves early: faults are gathered with `|`, so that the compiler can
//! take many numbers at once. It says whether the images are accepted, not
//! which refusal they deserve.

/// Whether a catalogue is accepted.
pub fn catalogue(image: &[u8]) -> bool {
    let Some((sizes, rest)) = image.split_at_checked(20) else {
        return false;
    };
    let sizes = words(sizes);
    let [n, e, t, l, b] = [0, 1, 2, 3, 4].map(|block| unsigned(sizes[block]) as usize);
    if image.len() > 16_777_216 || rest.len() != 8 * n + 8 * e + 20 * t + 8 * l + 16 * b {
        return false;
    }
    let (names, rest) = rest.split_at(8 * n);
    let (effects, rest) = rest.split_at(8 * e);
    let (types, rest) = rest.split_at(20 * t);
    let (links, bases) = rest.split_at(8 * l);

    let name_keys = words(&names[..4 * n]);
    let effect_keys = words(&effects[..4 * e]);
    let type_keys = words(&types[..4 * t]);
    let link_keys = words(&links[..4 * l]);
    let base_keys = words(&bases[..4 * b]);
    let disorder = pairs(name_keys, |x, y| unsigned(x) >= unsigned(y))
        | pairs(effect_keys, |x, y| signed(x) >= signed(y))
        | pairs(type_keys, |x, y| signed(x) >= signed(y))
        | pairs(link_keys, |x, y| signed(x) > signed(y))
        | pairs(base_keys, |x, y| signed(x) > signed(y));

    let above = any(name_keys, |number| unsigned(number) > 87)
        | any(words(&effects[4 * e..]), |mark| unsigned(mark) > 8)
        | any(types[4 * t..].as_chunks::<16>().0, |row| {
            unsigned([row[8], row[9], row[10], row[11]]) > 1
        });
    disorder | above == 0
}

/// An old catalogue in the new form: all up to the base values copied, each of
/// those converted. It judges nothing, and `out` is as long as the new form.
pub fn widened(old: &[u8], out: &mut [u8]) {
    let bases = unsigned(words(old)[4]) as usize;
    let (front, values) = old.split_at(old.len() - 8 * bases);
    let (copied, room) = out.split_at_mut(front.len());
    copied.copy_from_slice(front);
    let room = room.as_chunks_mut::<12>().0;
    for (value, place) in values.as_chunks::<8>().0.iter().zip(room) {
        let single = f32::from_le_bytes([value[4], value[5], value[6], value[7]]);
        let bits = match single.is_nan() {
            true => 0x7FF8_0000_0000_0000,
            false => f64::from(single).to_bits(),
        };
        place[..4].copy_from_slice(&value[..4]);
        place[4..].copy_from_slice(&bits.to_le_bytes());
    }
}

/// Whether a fit is accepted.
pub fn fit(image: &[u8]) -> bool {
    let Some((sizes, rest)) = image.split_at_checked(28) else {
        return false;
    };
    let sizes = words(sizes);
    let [s, f, r, a] = [0, 1, 2, 3].map(|block| unsigned(sizes[block]) as usize);
    if s > 1_024 || f > 256 || r > 256 || a > 30_000 {
        return false;
    }
    if image.len() != 36 + 5 * s + 12 * f + 4 * r + 12 * a {
        return false;
    }
    let (flag, mode) = (unsigned(sizes[5]), unsigned(sizes[6]));
    let (skills, rest) = rest.split_at(4 * s);
    let (_levels, rest) = rest.split_at(s);
    let (items, rest) = rest.split_at(12 * f);
    let (results, rest) = rest.split_at(4 * (r + 2));
    let ids = words(&rest[..4 * a]);
    let items = items.as_chunks::<12>().0;
    let results = results.as_chunks::<4>().0;

    let count = |result: &[u8; 4]| usize::from(u16::from_le_bytes([result[2], result[3]]));
    if results.iter().map(count).sum::<usize>() != a {
        return false;
    }

    let mut disorder = pairs(words(skills), |x, y| signed(x) >= signed(y));
    let mut start = 0;
    for result in results {
        let end = start + count(result);
        disorder |= pairs(&ids[start..end], |x, y| signed(x) >= signed(y));
        start = end;
    }

    let fields = u32::from(flag > 1 || (flag == 0 && mode != 0))
        | any(items, |item| {
            let index = u16::from_le_bytes([item[10], item[11]]);
            let kind = item[8];
            (kind > 11)
                | (item[9] != 0)
                | ((index > 255) & (kind != 9))
                | ((index != 0) & ((kind == 7) | (kind == 10) | (kind == 11)))
        })
        | any(results, |result| (result[0] > 3) | (result[1] != 0));
    disorder | fields == 0
}

fn words(bytes: &[u8]) -> &[[u8; 4]] {
    bytes.as_chunks().0
}

fn unsigned(word: [u8; 4]) -> u32 {
    u32::from_le_bytes(word)
}

fn signed(word: [u8; 4]) -> i32 {
    i32::from_le_bytes(word)
}

/// 1 where the test holds of a neighbouring pair, else 0.
fn pairs(keys: &[[u8; 4]], test: impl Fn([u8; 4], [u8; 4]) -> bool) -> u32 {
    let next = keys.get(1..).unwrap_or(&[]);
    keys.iter()
        .zip(next)
        .fold(0, |found, (x, y)| found | u32::from(test(*x, *y)))
}

/// 1 where the test holds of a row, else 0.
fn any<const N: usize>(rows: &[[u8; N]], test: impl Fn([u8; N]) -> bool) -> u32 {
    rows.iter()
        .fold(0, |found, row| found | u32::from(test(*row)))
}

#[cfg(test)]
mod tests {
    use compare::reference::{Catalogue, Fit};

    #[test]
    fn the_scan_accepts_what_is_not_refused_by_1_to_6() {
        let mut refused = 0;
        for number in 0..3_000 {
            let case = compare::cases::case(1, number);
            let catalogue = case.catalogue.image();
            let accepted = Catalogue::decode(&catalogue).is_ok();
            assert_eq!(super::catalogue(&catalogue), accepted, "case {number}");
            refused += u32::from(!accepted);
            for fit in &case.fits {
                let fit = fit.image();
                let accepted = Fit::decode(&fit).is_ok();
                assert_eq!(super::fit(&fit), accepted, "case {number}");
                refused += u32::from(!accepted);
            }
        }
        assert!(refused > 300, "{refused} refusals only");
    }
}
