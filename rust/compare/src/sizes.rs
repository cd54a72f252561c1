//! The sizes of document 01 that files are made up to.

/// The most bytes of a rule file, and so of a conversion's result.
pub const LONGEST_FILE: usize = 4096;
/// The most rows of a table.
pub const MOST_ROWS: usize = 64;
/// Names, "0 to 63".
pub const NAMES: u8 = 64;
/// Role codes, "0 to 31".
pub const CODES: u8 = 32;
