//! JSON for other programs: entries as the original writes its violations,
//! with the sentence beside them. `docs/CALLING.md` has the shapes; the objects
//! that stand for themselves begin with `"version"`, which is [`VERSION`].
//!
//! ```
//! use fitcheck::{Entry, Rule, Target, json};
//!
//! let entry = Entry { target: Target::Item { index: 3 }, rule: Rule::SlotTaken };
//! assert_eq!(
//!     json::entry(&entry, "two guns share a slot").to_string(),
//!     "{\"target\":{\"type\":\"item\",\"index\":3},\"rule\":{\"type\":\"slot_taken\"},\
//!      \"sentence\":\"two guns share a slot\"}",
//! );
//! ```

use std::fmt::{self, Display, Formatter, Write};

use crate::{Cause, Entry, Passed, Refusal, Rule, Target, Unchecked, Unpaired, Verdict};

/// The version of the shapes. It rises where a field goes away or means
/// something else; fields, rules and refusals may be added without.
pub const VERSION: u32 = 2;

/// A JSON value. As text it stands on one line.
#[non_exhaustive]
#[derive(Debug, Clone, PartialEq)]
pub enum Json {
    /// A whole number.
    Integer(i64),
    /// A number. JSON has no NaN and no infinity: they are the texts `"NaN"`,
    /// `"Infinity"` and `"-Infinity"`. Any other reads back as the same bits.
    Double(f64),
    /// A text.
    Text(String),
    /// Values in order.
    List(Vec<Json>),
    /// Fields in order.
    Object(Vec<(&'static str, Json)>),
}

impl Json {
    /// A text.
    pub fn text(text: impl Into<String>) -> Json {
        Json::Text(text.into())
    }

    /// A number of things.
    pub fn count(count: usize) -> Json {
        // No list is anywhere near so long.
        Json::Integer(i64::try_from(count).unwrap_or(i64::MAX))
    }
}

impl Display for Json {
    fn fmt(&self, formatter: &mut Formatter<'_>) -> fmt::Result {
        match self {
            Json::Integer(number) => write!(formatter, "{number}"),
            Json::Double(number) => double(formatter, *number),
            Json::Text(text) => quoted(formatter, text),
            Json::List(values) => {
                formatter.write_char('[')?;
                for (number, value) in values.iter().enumerate() {
                    separated(formatter, number)?;
                    write!(formatter, "{value}")?;
                }
                formatter.write_char(']')
            }
            Json::Object(fields) => {
                formatter.write_char('{')?;
                for (number, (name, value)) in fields.iter().enumerate() {
                    separated(formatter, number)?;
                    quoted(formatter, name)?;
                    write!(formatter, ":{value}")?;
                }
                formatter.write_char('}')
            }
        }
    }
}

fn separated(formatter: &mut Formatter<'_>, number: usize) -> fmt::Result {
    match number {
        0 => Ok(()),
        _ => formatter.write_char(','),
    }
}

/// The shortest text that reads as this number. JSON has no NaN and no
/// infinity; they become strings that JavaScript's `Number` reads.
fn double(formatter: &mut Formatter<'_>, number: f64) -> fmt::Result {
    if number.is_nan() {
        formatter.write_str("\"NaN\"")
    } else if number == f64::INFINITY {
        formatter.write_str("\"Infinity\"")
    } else if number == f64::NEG_INFINITY {
        formatter.write_str("\"-Infinity\"")
    } else {
        write!(formatter, "{number:?}")
    }
}

fn quoted(formatter: &mut Formatter<'_>, text: &str) -> fmt::Result {
    formatter.write_char('"')?;
    for character in text.chars() {
        match character {
            '"' => formatter.write_str("\\\"")?,
            '\\' => formatter.write_str("\\\\")?,
            '\n' => formatter.write_str("\\n")?,
            '\r' => formatter.write_str("\\r")?,
            '\t' => formatter.write_str("\\t")?,
            '\u{0}'..='\u{1F}' => write!(formatter, "\\u{:04x}", u32::from(character))?,
            _ => formatter.write_char(character)?,
        }
    }
    formatter.write_char('"')
}

/// The fields that an object which stands for itself begins with.
pub fn versioned(status: &str) -> Vec<(&'static str, Json)> {
    vec![
        ("version", Json::Integer(VERSION.into())),
        ("status", Json::text(status)),
    ]
}

/// A refused image: version, status and refusal.
pub fn refused(refused: Refusal) -> Json {
    let mut fields = versioned("refused");
    fields.push(("refusal", refusal(refused)));
    Json::Object(fields)
}

/// What became of one fit of a hall, behind what it is called.
pub fn verdict(file: &str, verdict: &Verdict) -> Json {
    let mut fields = vec![("file", Json::text(file))];
    fields.extend(match verdict {
        Verdict::Clear => vec![("status", Json::text("clear"))],
        Verdict::Faulted {
            entries,
            unpaired: left,
        } => {
            let mut faulted = vec![
                ("status", Json::text("faulted")),
                ("entries", Json::count(*entries)),
            ];
            faulted.extend(left.map(|left| ("unpaired", unpaired(left))));
            faulted
        }
        Verdict::Refused(number) => vec![
            ("status", Json::text("refused")),
            ("refusal", refusal(*number)),
        ],
    });
    Json::Object(fields)
}

/// What a catalogue leaves unchecked, by rule, in words, and what is missing.
pub fn unchecked(unchecked: &[Unchecked]) -> Json {
    let one = |it: &Unchecked| {
        let names = it.names.iter().map(|name| Json::text(name.name()));
        let marks = it.marks.iter().map(|mark| Json::text(mark.name()));
        Json::Object(vec![
            ("rule", Json::text(it.rule)),
            ("what", Json::text(&it.what)),
            ("names", Json::List(names.collect())),
            ("marks", Json::List(marks.collect())),
        ])
    };
    Json::List(unchecked.iter().map(one).collect())
}

/// How many items have no result and how many results no item, one of which is
/// 0, and the sentence.
pub fn unpaired(unpaired: Unpaired) -> Json {
    let (items, results) = match unpaired {
        Unpaired::Items(count) => (count, 0),
        Unpaired::Results(count) => (0, count),
    };
    Json::Object(vec![
        ("items", Json::count(items)),
        ("results", Json::count(results)),
        ("sentence", Json::text(unpaired.to_string())),
    ])
}

/// A refusal by number and sentence; of a page's limit with what passes it, how
/// many there are and how many the page takes.
pub fn refusal(refusal: Refusal) -> Json {
    let mut fields = vec![
        ("number", Json::Integer(refusal.number().into())),
        ("reason", Json::text(refusal.to_string())),
    ];
    if let Refusal::PageLimit(Some(passed)) = refusal {
        let (what, count, limit) = match passed {
            Passed::Pairs { pairs, limit } => ("pairs", pairs, limit),
            Passed::Skills { wanted, limit } => ("skills", wanted, limit),
        };
        fields.extend([
            ("passed", Json::text(what)),
            ("count", Json::Integer(count.into())),
            ("limit", Json::Integer(limit.into())),
        ]);
    }
    if let Refusal::CargoVolume(Some(bad)) = refusal {
        fields.extend([
            ("item", Json::count(bad.item)),
            ("type_id", Json::Integer(bad.type_id.into())),
            ("volume", Json::Double(as_written(bad.volume()))),
        ]);
    }
    Json::Object(fields)
}

/// A number that is written as the f32 is, and not with the digits of its f64.
fn as_written(value: f32) -> f64 {
    let written = value.to_string();
    written.parse().unwrap_or(value.into())
}

/// An entry with the items that make it.
pub fn caused(cause: &Cause<'_>, sentence: &str) -> Json {
    let items = cause.items().iter().map(|item| Json::count(*item));
    let mut fields = entry_fields(&cause.entry(), sentence);
    fields.push(("items", Json::List(items.collect())));
    Json::Object(fields)
}

/// An entry: target and rule as the original writes them, and the sentence.
pub fn entry(entry: &Entry, sentence: &str) -> Json {
    Json::Object(entry_fields(entry, sentence))
}

fn entry_fields(entry: &Entry, sentence: &str) -> Vec<(&'static str, Json)> {
    vec![
        ("target", target(entry.target)),
        ("rule", rule(&entry.rule)),
        ("sentence", Json::text(sentence)),
    ]
}

fn target(target: Target) -> Json {
    Json::Object(match target {
        Target::Ship => vec![("type", Json::text("ship"))],
        Target::Item { index } => {
            vec![("type", Json::text("item")), ("index", Json::count(index))]
        }
        Target::Unknown { target, index } => vec![
            ("type", Json::text("unknown")),
            ("target", Json::Integer(target.into())),
            ("index", Json::Integer(index.into())),
        ],
    })
}

fn rule(rule: &Rule) -> Json {
    let mut fields = vec![("type", Json::text(rule.name()))];
    fields.extend(match *rule {
        Rule::Resource {
            resource,
            used,
            available,
        } => vec![
            ("resource", Json::text(resource.name())),
            ("used", Json::Double(used)),
            ("available", Json::Double(available)),
        ],
        Rule::Slots {
            slot,
            used,
            available,
        } => vec![
            ("slot", Json::text(slot.name())),
            ("used", Json::Integer(used.into())),
            ("available", Json::Integer(available.into())),
        ],
        Rule::WrongSlot { expected } => vec![("expected", Json::text(expected.name()))],
        Rule::WrongSlotIndex { expected } => vec![("expected", Json::Integer(expected.into()))],
        Rule::Skill {
            type_id,
            required,
            level,
        } => vec![
            ("type_id", Json::Integer(type_id.into())),
            ("required", Json::Integer(required.into())),
            ("level", Json::Integer(level.into())),
        ],
        Rule::RigSize { ship, item } => vec![
            ("ship", Json::Integer(ship.into())),
            ("item", Json::Integer(item.into())),
        ],
        Rule::MaxGroup {
            group_id,
            limit,
            used,
            allowed,
        } => vec![
            ("group_id", Json::Integer(group_id.into())),
            ("limit", Json::text(limit.name())),
            ("used", Json::Integer(used.into())),
            ("allowed", Json::Integer(allowed.into())),
        ],
        Rule::MaxType {
            type_id,
            used,
            allowed,
        } => vec![
            ("type_id", Json::Integer(type_id.into())),
            ("used", Json::Integer(used.into())),
            ("allowed", Json::Integer(allowed.into())),
        ],
        Rule::NotASkill { type_id } | Rule::UnknownType { type_id } => {
            vec![("type_id", Json::Integer(type_id.into()))]
        }
        Rule::Banned { group_id } => vec![("group_id", Json::Integer(group_id.into()))],
        Rule::Points { used, allowed } => vec![
            ("used", Json::Integer(used.into())),
            ("allowed", Json::Integer(allowed.into())),
        ],
        Rule::Unknown {
            rule,
            sub,
            zero,
            words,
        } => vec![
            ("rule", Json::Integer(rule.into())),
            ("sub", Json::Integer(sub.into())),
            ("zero", Json::Integer(zero.into())),
            (
                "words",
                Json::List(words.map(|word| Json::Integer(word.into())).into()),
            ),
        ],
        Rule::NotAModule
        | Rule::NotADrone
        | Rule::NotAFighter
        | Rule::NotAnImplant
        | Rule::SlotTaken
        | Rule::SubsystemTaken
        | Rule::ShipRestricted
        | Rule::CapitalItem
        | Rule::StructureItem
        | Rule::ShipItem
        | Rule::NotAHull
        | Rule::NotAMode => Vec::new(),
    });
    Json::Object(fields)
}

#[cfg(test)]
mod tests {
    use super::*;

    /// RFC 8259, section 7: quotation mark, reverse solidus and U+0000 to
    /// U+001F are escaped, and nothing else has to be.
    #[test]
    fn text_is_escaped() {
        let text = "a\"b\\c\n\r\t\u{0}\u{1F}\u{7F}é\u{2028}";
        assert_eq!(
            Json::text(text).to_string(),
            "\"a\\\"b\\\\c\\n\\r\\t\\u0000\\u001f\u{7F}é\u{2028}\""
        );
    }

    /// RFC 8259, section 6: no infinity and no NaN; a fraction and an exponent
    /// have a digit before them.
    #[test]
    fn numbers_are_jsons() {
        let shown = |number: f64| Json::Double(number).to_string();
        assert_eq!(shown(512.5), "512.5");
        assert_eq!(shown(500.0), "500.0");
        assert_eq!(shown(-0.0), "-0.0");
        assert_eq!(shown(1e300), "1e300");
        assert_eq!(shown(5e-324), "5e-324");
        assert_eq!(shown(f64::NAN), "\"NaN\"");
        assert_eq!(shown(f64::INFINITY), "\"Infinity\"");
        assert_eq!(shown(f64::NEG_INFINITY), "\"-Infinity\"");
    }

    #[test]
    fn lists_and_objects_nest() {
        let value = Json::Object(vec![
            ("none", Json::List(Vec::new())),
            (
                "two",
                Json::List(vec![Json::Integer(-1), Json::Object(vec![])]),
            ),
        ]);
        assert_eq!(value.to_string(), "{\"none\":[],\"two\":[-1,{}]}");
    }
}
