//! Runs that are short of a record (document 02, \[4\]): stopped before each of a known order, or lent one more after each refusal.

pub mod climbs;
pub mod long_runs;
pub mod short_runs;
mod stops;
