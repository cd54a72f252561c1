//! The sizes of document 01: how much a rule file may have ("The rule file"), and the records of an example ("Areas").

/// The most bytes of a rule file.
pub const LONGEST_FILE: usize = 4096;
/// The most rows.
pub const MOST_ROWS: usize = 64;
/// The most rules.
pub const MOST_RULES: usize = 64;
/// How many names there are.
pub const NAMES: usize = 64;
/// How many roles there are.
pub const ROLES: usize = 16;
/// Role codes: of each role one forwards and one backwards.
pub const CODES: u8 = 2 * ROLES as u8;

/// Bytes of an element's record: the row set, row k as bit k, low byte first.
pub const ELEMENT: usize = 8;
/// Bytes of a link's record: from, role code, to, two bytes each, low byte first.
pub const LINK: usize = 6;
