//! What the tests share, by subject.
//!
//! - [`files`] makes rule files and drafts: row by row, at random, damaged, large; and areas for them.
//! - [`protocol`] has the questions of tests/vectors with their answers, and reads and writes such lines.
//! - [`checks`] says what is true of an answering, a cataloguing or a converting function, whichever it is.
//! - [`counts`] tells how often things happened in a check, which fails if a case was rare.
//! - [`suite`](mod@suite) lists the tests that `plain` and the engine have in common, once for both.

pub mod checks;
pub mod counts;
pub mod files;
pub mod protocol;
pub mod sizes;
pub mod suite;

pub use checks::judging::{check_example, whole_answer};
pub use checks::{on_stack, Answering, AnsweringWanted, Cataloguing, Converting, STACK};
pub use counts::drafts::DraftCounts;
pub use files::drafts::{random_area, random_draft};
pub use files::encode;
pub use files::lent::{random_lent, with_broken_records};
pub use files::random::{damage, random_bytes, random_file, Prng, Shape};
pub use protocol::cases::{cases, draft_cases, vectors};
pub use protocol::questions::{conversion_line, one_line, page_line, Conversion, Convert, Fit, Kinds, Wanted};
pub use suite::{Plain, Side};
