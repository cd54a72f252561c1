//! A plain Rust program that follows document 01, with vectors and linear search, and document 02 as far as it is landed.
//!
//! It is what the proved engine is compared with. The modules stand in the order of document 01: the rule file
//! ([`rulefile`]) with the roles that it says are narrower than others ([`hierarchy`]), the procedure ([`status`], [`set_tests`],
//! [`graph`], [`tableau`]), the example ([`example`]) with every row that holds in it ([`evaluate`](mod@evaluate)), and the whole run
//! with its printing ([`answer`](mod@answer)). Drafts ([`draft`]) pass the checks of a rule file, and [`convert`](mod@convert) turns
//! them into one. [`catalogue`](mod@catalogue) tells which of a file's names are which, by a run for each two of them. [`sizes`] has
//! the numbers. Names follow source document 001; where document 01 has a word of its own, a comment at the definition gives it.

pub mod answer;
pub mod catalogue;
pub mod concept;
pub mod convert;
pub mod draft;
pub mod evaluate;
pub mod example;
pub mod graph;
pub mod hierarchy;
pub mod row_set;
pub mod rulefile;
pub mod set_tests;
pub mod sizes;
pub mod status;
pub mod tableau;

pub use answer::{answer, answer_as_placed, answer_wanting, print, records, Answer, Lent, Used};
pub use catalogue::{catalogue, Page};
pub use convert::convert;
pub use evaluate::evaluate;
pub use graph::Area;
pub use hierarchy::RoleHierarchy;
pub use row_set::RowSet;
pub use rulefile::{text, text_wanting, Draft, RuleFile};
