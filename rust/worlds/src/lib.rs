//! The meaning of ALCI over finite worlds (document 01, "The meaning of ALCI"), and a search through small worlds.
//!
//! Nothing here comes from the tableau or its graph, and nothing from a converter: rows are judged by what they mean, "not" and
//! "if" of a draft too, and kind 7 rows by the pairs of a world (document 02, \[6\]). [`ontology`] decodes an accepted rule file or draft,
//! [`world`] holds finite interpretations and evaluates rows over them, [`example`] reads one from the bytes of an example and judges
//! every bit of these, [`search`](mod@search) looks for a small world that obeys every rule and every kind 7 row and has a member of
//! the kit. [`sizes`] has the numbers of document 01.

pub mod example;
pub mod ontology;
mod partial;
pub mod search;
pub mod sizes;
pub mod world;

pub use example::Example;
pub use ontology::{Concept, Ontology};
pub use search::search;
pub use world::World;
