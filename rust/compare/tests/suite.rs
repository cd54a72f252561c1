//! The plain program through the tests that it shares with the engine; compare/src/suite.rs lists them.

compare::suite!(compare::Plain);
