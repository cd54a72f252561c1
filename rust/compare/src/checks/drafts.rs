//! Drafts (document 02, \[1\]): what becomes of small ones by hand, what random ones become, and what is then said of the kit.

pub mod results;
pub mod small;
pub mod verdicts;
