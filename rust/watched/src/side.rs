//! The engine in watched areas, for the tests that it shares with the plain program.

use crate::{Cataloguer, Converter, Lending};
use compare::{Answering, AnsweringWanted, Cataloguing, Converting, Side};
use plain::Lent;

/// The engine, its catalogue and its converter. A broken promise is a panic.
pub struct Watched;

impl Side for Watched {
    fn answering() -> impl Answering {
        let mut lending = Lending::new();
        move |file: &[u8], lent: &Lent| lending.answer(file, lent)
    }

    fn wanting() -> impl AnsweringWanted {
        let mut lending = Lending::new();
        move |file: &[u8], wanted: &[u8], lent: &Lent| lending.answer_wanted(file, wanted, lent)
    }

    fn cataloguing() -> impl Cataloguing {
        let mut cataloguer = Cataloguer::new();
        move |file: &[u8], area: usize, lent: &Lent| cataloguer.catalogue(file, area, lent)
    }

    fn converting() -> impl Converting {
        let mut converter = Converter::new();
        move |draft: &[u8], area: usize| converter.convert(draft, area)
    }
}
