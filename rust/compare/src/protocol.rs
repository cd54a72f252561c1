//! The line protocol of tests/vectors, whose README tells how to read it.

pub mod cases;
pub mod questions;
