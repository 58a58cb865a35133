//! Bytes lent to a checker with guard bytes on both sides.
//!
//! Every call is made twice, with two different fills of guards and buffer:
//! what depends on bytes outside the images, or on the buffer's old content,
//! differs between the two.

/// Guard bytes on each side.
const GUARD: usize = 64;

/// Which of the two fills.
#[derive(Clone, Copy, Debug, PartialEq)]
pub enum Fill {
    First,
    Second,
}

impl Fill {
    /// The byte at a place; the second fill is the first one's complement.
    fn byte(self, at: usize) -> u8 {
        let first = (at as u8).wrapping_mul(29).wrapping_add(0x35);
        match self {
            Fill::First => first,
            Fill::Second => !first,
        }
    }
}

/// Bytes with guards around them. The bytes begin at an odd address or not,
/// as the length and the fill have it, so no alignment can be relied on.
pub struct Guarded {
    all: Vec<u8>,
    start: usize,
    length: usize,
    fill: Fill,
}

impl Guarded {
    /// An image.
    pub fn image(image: &[u8], fill: Fill) -> Guarded {
        let mut guarded = Guarded::buffer(image.len(), fill);
        guarded.bytes_mut().copy_from_slice(image);
        guarded
    }

    /// A buffer that holds the fill.
    pub fn buffer(length: usize, fill: Fill) -> Guarded {
        let shift = match fill {
            Fill::First => 0,
            Fill::Second => 1 + length % 7,
        };
        let start = GUARD + shift;
        let all = (0..start + length + GUARD)
            .map(|at| fill.byte(at))
            .collect();
        Guarded {
            all,
            start,
            length,
            fill,
        }
    }

    pub fn fill(&self) -> Fill {
        self.fill
    }

    pub fn bytes(&self) -> &[u8] {
        &self.all[self.start..self.start + self.length]
    }

    pub fn bytes_mut(&mut self) -> &mut [u8] {
        &mut self.all[self.start..self.start + self.length]
    }

    /// The place of the first byte from `from` on that no longer holds the
    /// fill, counted from the start of the bytes.
    pub fn first_written(&self, from: usize) -> Option<usize> {
        (from..self.length).find(|at| self.bytes()[*at] != self.fill.byte(self.start + at))
    }

    /// Whether both guards hold what they held.
    pub fn guards_hold(&self) -> bool {
        let end = self.start + self.length;
        let holds = |at: usize| self.all[at] == self.fill.byte(at);
        (0..self.start).all(holds) && (end..self.all.len()).all(holds)
    }
}

/// An image, and the copies of it that the checker gets.
pub struct Held {
    pub image: Vec<u8>,
    copies: [(Fill, Guarded); 2],
}

impl Held {
    pub fn new(image: Vec<u8>) -> Held {
        let copies = [Fill::First, Fill::Second].map(|fill| (fill, Guarded::image(&image, fill)));
        Held { image, copies }
    }

    pub fn copy(&self, fill: Fill) -> &Guarded {
        let [(first, one), (_, other)] = &self.copies;
        if fill == *first { one } else { other }
    }

    /// Whether a copy is as it was, and the bytes beside it too.
    pub fn unharmed(&self, fill: Fill, what: &str) -> Result<(), String> {
        let copy = self.copy(fill);
        if copy.bytes() != self.image {
            return Err(format!("the checker changed the {what}"));
        }
        if !copy.guards_hold() {
            return Err(format!("the checker wrote beside the {what}"));
        }
        Ok(())
    }
}

#[cfg(test)]
mod tests {
    use super::*;

    #[test]
    fn a_written_byte_and_a_broken_guard_are_noticed() {
        for fill in [Fill::First, Fill::Second] {
            let mut buffer = Guarded::buffer(30, fill);
            assert_eq!(buffer.first_written(0), None);
            assert!(buffer.guards_hold());
            buffer.bytes_mut()[24] ^= 1;
            assert_eq!(buffer.first_written(0), Some(24));
            assert_eq!(buffer.first_written(25), None);
            let start = buffer.start;
            buffer.all[start - 1] ^= 1;
            assert!(!buffer.guards_hold());
        }
    }

    #[test]
    fn no_byte_is_the_same_in_both_fills() {
        assert!((0..600).all(|at| Fill::First.byte(at) != Fill::Second.byte(at)));
    }
}
