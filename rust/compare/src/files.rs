//! Rule files and drafts: here written row by row.
//!
//! [`random`], [`drafts`], [`wanted`] and [`kinds`] make them at random, [`parts`], [`inclusions`] and [`misplaced`] change them. Large ones
//! are in [`chains`], [`wide`] and, with the [`orders`] of their records, in [`long_runs`]. [`lent`] has areas for them.

pub mod chains;
pub mod drafts;
pub mod inclusions;
pub mod kinds;
pub mod lent;
pub mod long_runs;
pub mod misplaced;
pub mod orders;
pub mod parts;
pub mod random;
pub mod wanted;
pub mod wide;

pub use gumbyra_table::Table;
pub use plain::concept::Row;
pub use plain::rulefile::encode;

/// What the bytes of a row say.
///
/// # Panics
/// If it is no row.
pub fn said(row: Row) -> gumbyra_table::Row {
    gumbyra_table::Row::of_bytes(row).unwrap_or_else(|| panic!("no row: {row:?}"))
}

/// A table of these rows, to which more can be added.
///
/// # Panics
/// If one of them is no row.
pub fn table_of(rows: &[Row]) -> Table {
    Table { rows: rows.iter().map(|&row| said(row)).collect(), ..Table::default() }
}

/// The file that a table is with these rules and this wanted row.
///
/// # Panics
/// If the checks refuse it.
pub fn file_of(table: &Table, rules: &[u8], wanted: u8) -> Vec<u8> {
    let file = Table { rules: rules.to_vec(), wanted, ..table.clone() }.encode();
    file.unwrap_or_else(|fault| panic!("no rule file: {fault}"))
}
