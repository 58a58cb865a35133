//! Stand-in for `flatbuffers`: a vector is a borrowed part of a table.

/// Rows of one type, in stored order.
#[derive(Clone, Copy)]
pub struct Vector<'a, T>(&'a [T]);

impl<'a, T> Vector<'a, T> {
    pub fn new(rows: &'a [T]) -> Vector<'a, T> {
        Vector(rows)
    }
}

impl<'a, T> IntoIterator for Vector<'a, T> {
    type Item = &'a T;
    type IntoIter = std::slice::Iter<'a, T>;

    fn into_iter(self) -> Self::IntoIter {
        self.0.iter()
    }
}
