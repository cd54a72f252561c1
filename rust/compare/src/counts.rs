//! How often things happened in a check; a property that never came up was not tested.
//!
//! [`Tally`] counts cases by name. The other modules have the cases of a subject each, and [`needs`] which rows of a draft are needed.

pub mod catalogues;
pub mod drafts;
pub mod inclusions;
pub mod listings;
pub mod needs;
pub mod tally;
pub mod wanted;

pub use tally::{cases_of_checks, Tally};
