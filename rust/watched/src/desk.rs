//! The line protocol of the tests: an answer for each question, by the engine, the converter or the catalogue in watched areas. One function
//! for each word.

use crate::cataloguer::Cataloguer;
use crate::converter::Converter;
use crate::lending::Lending;
use compare::{conversion_line, one_line, page_line, with_broken_records, Convert, Fit, Kinds, Prng, Wanted};

/// Why a question has no answer.
enum Trouble {
    /// It is no question; the text tells what would be one.
    Unknown(&'static str),
    /// A promise is broken; the text tells which.
    Broken(String),
}

const WORDS: &str = "the words are: fit, convert, wanted, catalogue";
const FIT: &str = "fit FILE N E A EB LB";
const CONVERT: &str = "convert DRAFT AREA";
const WANTED: &str = "wanted FILE ROWS N E A EB LB";
const CATALOGUE: &str = "catalogue FILE AREA N E A";

/// Where questions are answered.
pub struct Desk {
    lending: Lending,
    converter: Converter,
    cataloguer: Cataloguer,
}

impl Desk {
    /// A desk that asks this engine, this converter and this catalogue.
    pub fn new(lending: Lending, converter: Converter, cataloguer: Cataloguer) -> Desk {
        Desk { lending, converter, cataloguer }
    }

    /// The answer to a question, one line. It begins with `BROKEN` if a promise is broken, and with `UNKNOWN` if the line is no
    /// question.
    pub fn answer(&mut self, question: &[u8]) -> String {
        match self.answer_word(&String::from_utf8_lossy(question)) {
            Ok(answer) => answer,
            Err(Trouble::Unknown(instead)) => format!("UNKNOWN {instead}"),
            Err(Trouble::Broken(promise)) => format!("BROKEN {promise}"),
        }
    }

    /// Answers by the question's word.
    fn answer_word(&mut self, question: &str) -> Result<String, Trouble> {
        let (word, rest) = question.split_once(' ').unwrap_or((question, ""));
        match word {
            "fit" => self.fit(rest),
            "convert" => self.convert(rest),
            "wanted" => self.wanted(rest),
            "catalogue" => self.catalogue(rest),
            _ => Err(Trouble::Unknown(WORDS)),
        }
    }

    /// What the printing program prints with these sizes lent.
    fn fit(&mut self, rest: &str) -> Result<String, Trouble> {
        let Fit { file, lent } = Fit::parse(rest).ok_or(Trouble::Unknown(FIT))?;
        let lent = with_broken_records(lent, &mut Prng::of_bytes(rest.as_bytes()));
        let answer = self.lending.watch(&file, &lent).map_err(Trouble::Broken)?;
        Ok(one_line(&answer))
    }

    /// What is written in an area of this length, or the refusal.
    fn convert(&mut self, rest: &str) -> Result<String, Trouble> {
        let Convert { draft, area } = Convert::parse(rest).ok_or(Trouble::Unknown(CONVERT))?;
        let conversion = self.converter.watch(&draft, area).map_err(Trouble::Broken)?;
        Ok(conversion_line(&conversion))
    }

    /// What the printing program would print with these sizes lent and these rows wanted.
    fn wanted(&mut self, rest: &str) -> Result<String, Trouble> {
        let Wanted { file, rows, lent } = Wanted::parse(rest).ok_or(Trouble::Unknown(WANTED))?;
        let lent = with_broken_records(lent, &mut Prng::of_bytes(rest.as_bytes()));
        let answer = self.lending.watch_wanted(&file, &rows, &lent).map_err(Trouble::Broken)?;
        Ok(one_line(&answer))
    }

    /// The table in an area of this length, or the refusal.
    fn catalogue(&mut self, rest: &str) -> Result<String, Trouble> {
        let Kinds { file, area, lent } = Kinds::parse(rest).ok_or(Trouble::Unknown(CATALOGUE))?;
        let lent = with_broken_records(lent, &mut Prng::of_bytes(rest.as_bytes()));
        let page = self.cataloguer.watch(&file, area, &lent).map_err(Trouble::Broken)?;
        Ok(page_line(&page))
    }
}
