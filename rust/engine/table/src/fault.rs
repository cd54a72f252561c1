//! What is wrong with a file, and where.

use crate::row::trouble;
use crate::table::{LONGEST_FILE, MOST_ROWS, MOST_RULES, TRAILER};
use std::fmt;

/// Why a file is refused with 1 to 8 or 16, and where. The number is the engine's, which tests hold to it; the place is
/// told here alone, outside the proved call.
///
/// ```
/// # use gumbyra_table as gumbyra;
/// use gumbyra::{Place, Table};
///
/// // Rows: some along role 0: row 1; is a pump. Row 0 names a row that is not lower.
/// let file = [6, 0, 1, 0, 1, 0, 0, 0, 0, 0, 2, 0, 0, b'F', b'I', b'T'];
/// let fault = Table::read(&file).unwrap_err();
/// assert_eq!((fault.number(), fault.place()), (6, Place::Row(0)));
/// assert_eq!(fault.to_string(), "row 0 names row 1, which is not lower than itself");
/// assert_eq!(format!("{fault:?}"), "REFUSED 6: row 0 names row 1, which is not lower than itself");
/// ```
#[derive(Clone, Copy, PartialEq, Eq, Hash)]
pub struct Fault(Why);

/// Where a file is wrong. Rows and rules count from 0.
#[derive(Clone, Copy, Debug, PartialEq, Eq, Hash)]
pub enum Place {
    /// 1 to 4: the file as a whole.
    File,
    /// 5, 6 and 16: the first row that is wrong.
    Row(u8),
    /// 7: two equal rows. The second is the first row that repeats one.
    Rows(u8, u8),
    /// 8 and 16: the first rule of the list that is wrong.
    Rule(usize),
    /// 8 and 16: the wanted row; where a list takes its place, one of that.
    Wanted,
}

/// What there is instead of what should be.
#[derive(Clone, Copy, Debug, PartialEq, Eq, Hash)]
pub(crate) enum Why {
    Length(usize),
    Mark([u8; 3]),
    Counts { rows: usize, rules: usize },
    Extent { told: usize, length: usize },
    Malformed { row: u8, bytes: [u8; 4] },
    OfDraft { row: u8, kind: u8 },
    NotLower { row: u8, argument: u8 },
    Repeat { first: u8, second: u8, bytes: [u8; 4] },
    RuleIsNone { at: usize, row: u8, rows: usize },
    WantedIsNone { row: u8, rows: usize },
    Argument { row: u8, argument: u8 },
    Rule { at: usize, row: u8 },
    Wanted { row: u8 },
}

impl From<Why> for Fault {
    fn from(why: Why) -> Fault {
        Fault(why)
    }
}

impl Fault {
    /// The refusal: 1 to 8 or 16.
    pub fn number(&self) -> u8 {
        self.entry().0
    }

    /// Where the file is wrong.
    pub fn place(&self) -> Place {
        self.entry().1
    }

    fn entry(&self) -> (u8, Place) {
        match self.0 {
            Why::Length(_) => (1, Place::File),
            Why::Mark(_) => (2, Place::File),
            Why::Counts { .. } => (3, Place::File),
            Why::Extent { .. } => (4, Place::File),
            Why::Malformed { row, .. } | Why::OfDraft { row, .. } => (5, Place::Row(row)),
            Why::NotLower { row, .. } => (6, Place::Row(row)),
            Why::Repeat { first, second, .. } => (7, Place::Rows(first, second)),
            Why::RuleIsNone { at, .. } => (8, Place::Rule(at)),
            Why::WantedIsNone { .. } => (8, Place::Wanted),
            Why::Argument { row, .. } => (16, Place::Row(row)),
            Why::Rule { at, .. } => (16, Place::Rule(at)),
            Why::Wanted { .. } => (16, Place::Wanted),
        }
    }
}

/// Four bytes as docs/RULE-FILES.md writes them.
struct Bytes([u8; 4]);

impl fmt::Display for Bytes {
    fn fmt(&self, f: &mut fmt::Formatter) -> fmt::Result {
        let [kind, role, left, right] = self.0;
        write!(f, "{kind} {role} {left} {right}")
    }
}

/// One line in plain words, with the numbers that matter.
impl fmt::Display for Fault {
    fn fmt(&self, f: &mut fmt::Formatter) -> fmt::Result {
        const OF_ROLES: &str = "which is of kind 7 and speaks of roles";
        match self.0 {
            Why::Length(length) => {
                write!(f, "the file has {length} bytes, and has to have {TRAILER} to {LONGEST_FILE}")
            }
            Why::Mark([a, b, c]) => write!(f, "the file ends in {a:02x} {b:02x} {c:02x}, and has to end in 46 49 54"),
            Why::Counts { rows, rules } => {
                write!(f, "the file has {rows} rows and {rules} rules")?;
                write!(f, ", and has to have 1 to {MOST_ROWS} and 0 to {MOST_RULES}")
            }
            Why::Extent { told, length } => {
                write!(f, "text, rows, rules and trailer are told to have {told} bytes, and the file has {length}")
            }
            Why::Malformed { row, bytes } => write!(f, "row {row} ({}): {}", Bytes(bytes), trouble(bytes)),
            Why::OfDraft { row, kind } => {
                write!(f, "row {row} is of kind {kind}: that is for drafts, and ./convert makes a rule file of one")
            }
            Why::NotLower { row, argument } => {
                write!(f, "row {row} names row {argument}, which is not lower than itself")
            }
            Why::Repeat { first, second, bytes } => {
                write!(f, "rows {first} and {second} have the same four bytes, {}", Bytes(bytes))
            }
            Why::RuleIsNone { at, row, rows } => {
                write!(f, "rule {at} of the list is row {row}, and there are {rows} rows")
            }
            Why::WantedIsNone { row, rows } => write!(f, "row {row} is wanted, and there are {rows} rows"),
            Why::Argument { row, argument } => write!(f, "row {row} names row {argument}, {OF_ROLES}"),
            Why::Rule { at, row } => write!(f, "rule {at} of the list is row {row}, {OF_ROLES}"),
            Why::Wanted { row } => write!(f, "row {row} is wanted, {OF_ROLES}"),
        }
    }
}

/// The number too: a `main` that gives an error prints it by this.
impl fmt::Debug for Fault {
    fn fmt(&self, f: &mut fmt::Formatter) -> fmt::Result {
        write!(f, "REFUSED {}: {self}", self.number())
    }
}

impl std::error::Error for Fault {}

#[cfg(test)]
mod tests {
    use super::*;

    const FAULTS: [(Why, u8, Place, &str); 13] = [
        (Why::Length(7), 1, Place::File, "the file has 7 bytes, and has to have 8 to 4096"),
        (Why::Mark([0, 73, 255]), 2, Place::File, "the file ends in 00 49 ff, and has to end in 46 49 54"),
        (
            Why::Counts { rows: 65, rules: 3 },
            3,
            Place::File,
            "the file has 65 rows and 3 rules, and has to have 1 to 64 and 0 to 64",
        ),
        (
            Why::Extent { told: 20, length: 19 },
            4,
            Place::File,
            "text, rows, rules and trailer are told to have 20 bytes, and the file has 19",
        ),
        (Why::Malformed { row: 2, bytes: [1, 0, 64, 0] }, 5, Place::Row(2), "row 2 (1 0 64 0): the name is above 63"),
        (
            Why::OfDraft { row: 4, kind: 9 },
            5,
            Place::Row(4),
            "row 4 is of kind 9: that is for drafts, and ./convert makes a rule file of one",
        ),
        (Why::NotLower { row: 5, argument: 7 }, 6, Place::Row(5), "row 5 names row 7, which is not lower than itself"),
        (
            Why::Repeat { first: 3, second: 8, bytes: [4, 0, 1, 2] },
            7,
            Place::Rows(3, 8),
            "rows 3 and 8 have the same four bytes, 4 0 1 2",
        ),
        (
            Why::RuleIsNone { at: 2, row: 9, rows: 7 },
            8,
            Place::Rule(2),
            "rule 2 of the list is row 9, and there are 7 rows",
        ),
        (Why::WantedIsNone { row: 9, rows: 7 }, 8, Place::Wanted, "row 9 is wanted, and there are 7 rows"),
        (
            Why::Argument { row: 5, argument: 1 },
            16,
            Place::Row(5),
            "row 5 names row 1, which is of kind 7 and speaks of roles",
        ),
        (
            Why::Rule { at: 0, row: 1 },
            16,
            Place::Rule(0),
            "rule 0 of the list is row 1, which is of kind 7 and speaks of roles",
        ),
        (Why::Wanted { row: 1 }, 16, Place::Wanted, "row 1 is wanted, which is of kind 7 and speaks of roles"),
    ];

    #[test]
    fn each_fault_has_its_number_its_place_and_its_line() {
        for (why, number, place, line) in FAULTS {
            let fault = Fault::from(why);
            assert_eq!((fault.number(), fault.place(), fault.to_string()), (number, place, line.to_string()));
        }
    }
}
