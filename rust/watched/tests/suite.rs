//! The engine, in watched areas, through the tests that it shares with the plain program; compare/src/suite.rs lists them.

compare::suite!(watched::Watched);
