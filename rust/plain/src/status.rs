//! The status of a node and the two constant tables of status pairs.

/// Document 01's words are none, open, yes, never, small.
#[derive(Clone, Copy, Debug, PartialEq, Eq)]
pub enum Status {
    Unset,
    Open,
    Sat,
    Unsat,
    TooSmall,
}

use Status::{Open, Sat, TooSmall, Unsat, Unset};

/// The entry of a pair; row and column in the order yes, open, small, never.
pub type StatusTable = [[Status; 4]; 4];

/// Document 01's table headed "branch".
#[rustfmt::skip]
pub const BRANCH: StatusTable = [
    [Sat, Sat, Sat, Sat],
    [Sat, Open, Open, Open],
    [Sat, Open, TooSmall, TooSmall],
    [Sat, Open, TooSmall, Unsat],
];

/// Document 01's table headed "state".
pub const STATE: StatusTable = [
    [Sat, Open, TooSmall, Unsat],
    [Open, Open, TooSmall, Unsat],
    [TooSmall, TooSmall, TooSmall, Unsat],
    [Unsat, Unsat, Unsat, Unsat],
];

impl Status {
    /// Not yet settled: none or open.
    pub fn is_live(self) -> bool {
        matches!(self, Unset | Open)
    }

    /// The row and the column in the tables; none counts as open.
    fn rank(self) -> usize {
        match self {
            Sat => 0,
            Open | Unset => 1,
            TooSmall => 2,
            Unsat => 3,
        }
    }
}

/// Folds the statuses by a table, from one on.
pub fn fold(table: &StatusTable, from: Status, statuses: impl Iterator<Item = Status>) -> Status {
    statuses.fold(from, |a, b| table[a.rank()][b.rank()])
}
