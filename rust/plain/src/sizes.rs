//! The sizes of document 01: how much a rule file may have ("The rule file"), and the records in lent areas ("Areas").

/// The most bytes of a rule file.
pub const LONGEST_FILE: usize = 4096;
/// The most rows, and so the bits of a set of rows.
pub const MOST_ROWS: usize = 64;
/// The most rules.
pub const MOST_RULES: usize = 64;
/// Names, "0 to 63".
pub const NAMES: u8 = 64;
/// Role codes, "0 to 31".
pub const CODES: u8 = 32;

/// Bytes of a record, of each kind.
pub const NODE: usize = 64;
pub const EDGE: usize = 16;
pub const ALTERNATIVE: usize = 16;
pub const ELEMENT: usize = 8;
pub const LINK: usize = 6;
/// Whole records count, and at most so many of each in the three work areas.
pub const MOST_RECORDS: usize = 4096;
