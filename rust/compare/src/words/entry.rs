//! Entries and floats in words.

use super::tables::{LIMITS, RACKS, RESOURCES, RULES, named};
use crate::checker::{ENTRY, Entry};

/// What the payload's words of a rule are, in their order.
fn fields(rule: u8) -> &'static [&'static str] {
    match rule {
        2 => &["used", "available"],
        9 => &["expected"],
        11 => &["skill", "required", "trained"],
        12 => &["ship", "rig"],
        17 => &["group", "used", "allowed"],
        18 => &["type", "used", "allowed"],
        21 => &["type"],
        24 => &["group"],
        25 => &["used", "allowed"],
        26 => &["type"],
        _ => &[],
    }
}

/// An entry in words; whatever should be zero and is not stands at the end.
pub fn entry(entry: &Entry) -> String {
    let word = |number: usize| {
        let at = 8 + 4 * number;
        u32::from_le_bytes([entry[at], entry[at + 1], entry[at + 2], entry[at + 3]])
    };
    let index = u32::from_le_bytes([entry[4], entry[5], entry[6], entry[7]]);
    let (rule, sub) = (entry[1], entry[2]);
    let mut text = match entry[0] {
        0 if index == 0 => "ship: ".to_string(),
        1 => format!("item {index}: "),
        other => format!("target {other}, index {index}: "),
    };
    text += &named(&RULES, rule);
    match rule {
        1 => text += &format!(" {}", named(&RESOURCES, sub)),
        2 | 3 => text += &format!(" {}", named(&RACKS, sub)),
        17 => text += &format!(" {}", named(&LIMITS, sub)),
        _ if sub != 0 => text += &format!(", sub {sub}"),
        _ => {}
    }
    if rule == 1 {
        let number =
            |first: usize| double(u64::from(word(first)) + (u64::from(word(first + 1)) << 32));
        text += &format!(", used {}, available {}", number(0), number(2));
    } else {
        for (number, field) in fields(rule).iter().enumerate() {
            let value = match *field {
                "skill" | "group" | "type" => format!("{}", word(number) as i32),
                _ => format!("{}", word(number)),
            };
            text += &format!(", {field} {value}");
        }
        for number in fields(rule).len()..4 {
            if word(number) != 0 {
                text += &format!(", word {number} is {}", word(number));
            }
        }
    }
    if entry[3] != 0 {
        text += &format!(", fourth byte {}", entry[3]);
    }
    text
}

/// The entries that a buffer begins with.
pub fn entries(bytes: &[u8]) -> Vec<String> {
    bytes
        .chunks_exact(ENTRY)
        .filter_map(|chunk| chunk.first_chunk::<ENTRY>())
        .map(entry)
        .collect()
}

/// An f64 with its bits where the number alone does not tell.
pub fn double(bits: u64) -> String {
    let value = f64::from_bits(bits);
    if value.is_nan() || value == 0.0 || value.is_subnormal() {
        format!("{value:?} (0x{bits:016X})")
    } else {
        format!("{value:?}")
    }
}

pub fn single(bits: u32) -> String {
    let value = f32::from_bits(bits);
    if value.is_nan() || value == 0.0 || value.is_subnormal() {
        format!("{value:?} (0x{bits:08X})")
    } else {
        format!("{value:?}")
    }
}

#[cfg(test)]
mod tests {
    use super::*;

    #[test]
    fn an_entry_reads_as_a_sentence() {
        let mut bytes = [0; 24];
        bytes[1] = 19;
        assert_eq!(entry(&bytes), "ship: NotAHull");

        let mut bytes = [0; 24];
        bytes[..3].copy_from_slice(&[0, 1, 11]);
        bytes[8..16].copy_from_slice(&2.5f64.to_le_bytes());
        bytes[16..].copy_from_slice(&(-1f64).to_le_bytes());
        assert_eq!(
            entry(&bytes),
            "ship: Resource CargoBay, used 2.5, available -1.0"
        );

        let mut bytes = [0; 24];
        bytes[..5].copy_from_slice(&[1, 17, 2, 0, 3]);
        bytes[8..12].copy_from_slice(&(-8i32).to_le_bytes());
        bytes[12] = 2;
        bytes[20] = 9;
        assert_eq!(
            entry(&bytes),
            "item 3: MaxGroup Active, group -8, used 2, allowed 0, word 3 is 9"
        );
    }

    #[test]
    fn zeros_show_their_sign() {
        assert_eq!(double((-0.0f64).to_bits()), "-0.0 (0x8000000000000000)");
        assert_eq!(double(1.5f64.to_bits()), "1.5");
    }
}
