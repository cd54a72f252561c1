//! The version of this crate and that of the library that it is linked with.

use crate::convention;

/// The version of this crate. It links only with a library of the same first two numbers.
pub const VERSION: &str = env!("CARGO_PKG_VERSION");

/// The version of the library, as C programs get it: 10000 * major + 100 * minor + patch, so 202 is 0.2.2.
///
/// ```
/// let (major, minor) = (gumbyra::library_version() / 10_000, gumbyra::library_version() / 100 % 100);
/// assert!(gumbyra::VERSION.starts_with(&format!("{major}.{minor}.")));
/// ```
pub fn library_version() -> u32 {
    convention::version()
}

/// The sentence that the library has for the number of a refusal, as C programs get it; empty for any other number.
///
/// ```
/// use gumbyra::{library_sentence, Refusal};
///
/// assert_eq!(library_sentence(7), Refusal::Repeat.sentence());
/// assert_eq!(library_sentence(9), "");
/// ```
pub fn library_sentence(refusal: u32) -> &'static str {
    convention::sentence(refusal)
}
