//! Rule files and drafts as tables: to read and write them, to tell where a refused one is wrong, and to put their
//! words to an answer.
//!
//! Nothing here is proved, and nothing here decides: the engine takes the bytes of a file, and what it promises is said
//! of these. Tests hold this crate against the engine.
//!
//! ```
//! # use gumbyra_table as gumbyra;
//! use gumbyra::Table;
//!
//! // A peristaltic pump (name 1) is a dosing pump (name 0). Wanted: a peristaltic pump that isn't one.
//! let mut table = Table::default();
//! let [dosing, not_dosing] = [table.name(0), table.not_name(0)];
//! let [peristaltic, not_peristaltic] = [table.name(1), table.not_name(1)];
//! let rule = table.either(not_peristaltic, dosing);
//! table.rule(rule);
//! table.wanted = table.both(peristaltic, not_dosing);
//!
//! let file = table.encode()?;
//! assert_eq!(Table::read(&file), Ok(table));
//! # Ok::<(), gumbyra::Fault>(())
//! ```
//!
//! In order: what a row says ([`Row`]), the table ([`Table`]), what is wrong and where ([`Fault`]), the words of a text
//! ([`Words`]), which rows of a draft a row of its rule file stands for ([`origins`](origins())).

#![warn(missing_docs)]

mod fault;
mod origins;
mod row;
mod table;
mod words;

pub use fault::{Fault, Place};
pub use origins::{origins, Origin};
pub use row::{Row, NAMES, ROLE_CODES};
pub use table::{Table, LONGEST_FILE};
pub use words::Words;
