//! The engine, the catalogue and the converter in areas that they are watched in: between guard bytes, and full of noise before.
//!
//! [`area`] is one such area and what may become of it, [`lending`] the engine's five with runs in them, one after the other,
//! [`cataloguer`] the catalogue's four, [`converter`] the converter's one. There all are functions in the words of `plain`, and [`side`]
//! hands them to the tests that both pass. [`desk`] answers the questions of the line protocol.

pub mod area;
pub mod cataloguer;
pub mod converter;
pub mod desk;
pub mod lending;
pub mod side;

pub use cataloguer::Cataloguer;
pub use converter::Converter;
pub use desk::Desk;
pub use lending::Lending;
pub use side::Watched;
