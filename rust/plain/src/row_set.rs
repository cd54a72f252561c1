//! Sets of rows: row k is bit k.

use crate::sizes::{ELEMENT, MOST_ROWS};
use std::fmt;

/// A set of rows, at most 64 of them. It prints as hexadecimal digits, the highest row first.
#[derive(Clone, Copy, Debug, Default, PartialEq, Eq)]
pub struct RowSet(u64);

impl RowSet {
    /// The set without a row.
    pub const EMPTY: RowSet = RowSet(0);

    /// Is the row in the set?
    pub fn contains(self, row: usize) -> bool {
        self.0 >> row & 1 == 1
    }

    /// The set with one more row.
    pub fn with(self, row: usize) -> RowSet {
        RowSet(self.0 | 1 << row)
    }

    /// The set without that row.
    pub fn without(self, row: usize) -> RowSet {
        RowSet(self.0 & !(1 << row))
    }

    /// The rows of either set.
    pub fn union(self, other: RowSet) -> RowSet {
        RowSet(self.0 | other.0)
    }

    /// The rows that the other set lacks.
    pub fn difference(self, other: RowSet) -> RowSet {
        RowSet(self.0 & !other.0)
    }

    /// The rows of the set, rising.
    pub fn rows(self) -> impl Iterator<Item = usize> {
        (0..MOST_ROWS).filter(move |&row| self.contains(row))
    }

    /// An element's record: low byte first.
    pub fn record(self) -> [u8; ELEMENT] {
        self.0.to_le_bytes()
    }
}

impl FromIterator<usize> for RowSet {
    fn from_iter<I: IntoIterator<Item = usize>>(rows: I) -> RowSet {
        rows.into_iter().fold(RowSet::EMPTY, RowSet::with)
    }
}

impl fmt::Display for RowSet {
    fn fmt(&self, f: &mut fmt::Formatter) -> fmt::Result {
        write!(f, "{:016x}", self.0)
    }
}
