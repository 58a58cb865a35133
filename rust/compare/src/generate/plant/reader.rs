//! Refusals 19 and 20, planted: a reader that there is not, and a guest who asks
//! for skills. No plant brings about any other refusal.

use super::table::Dig;
use crate::reader::Reader;

/// A reader above 2.
pub const ABOVE: &[(&str, Dig)] = &[
    ("a reader of 3", |g, _| g.reader = Reader(3)),
    ("a reader of 255", |g, _| g.reader = Reader(255)),
    ("a reader of 256", |g, _| g.reader = Reader(256)),
    ("a reader of 257", |g, _| g.reader = Reader(257)),
    ("a reader of 258", |g, _| g.reader = Reader(258)),
    ("a reader of 65,536", |g, _| g.reader = Reader(65_536)),
    ("a reader of 65,537", |g, _| g.reader = Reader(65_537)),
    ("a reader of 2,147,483,648", |g, _| {
        g.reader = Reader(0x8000_0000)
    }),
    ("a reader of 4,294,967,295", |g, _| {
        g.reader = Reader(u32::MAX)
    }),
];

/// A guest; the call is made for skills.
pub const GUESTS: &[(&str, Dig)] = &[("a guest asks for skills", |g, _| g.reader = Reader::GUEST)];
