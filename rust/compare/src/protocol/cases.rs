//! The questions of tests/vectors with their answers; the README beside them tells how to read them.

use super::questions::{Convert, Fit, Kinds, Wanted};
use plain::Lent;
use std::path::PathBuf;

/// The vectors that are in force.
const VECTORS: &str = "../../tests/vectors/level-07.txt";

/// A question `fit` with its answer.
pub struct Case {
    pub question: String,
    pub file: Vec<u8>,
    pub lent: Lent,
    pub expected: String,
}

/// A question `convert` with its answer.
pub struct DraftCase {
    pub question: String,
    pub draft: Vec<u8>,
    pub area: usize,
    pub expected: String,
}

/// Every line of the vectors: question and answer.
pub fn vectors() -> Vec<(String, String)> {
    let path = PathBuf::from(env!("CARGO_MANIFEST_DIR")).join(VECTORS);
    let text = std::fs::read_to_string(&path).unwrap_or_else(|error| panic!("{}: {error}", path.display()));
    let lines = text.lines().map(|line| line.split_once(" => ").unwrap_or_else(|| panic!("no answer in `{line}`")));
    lines.map(|(question, answer)| (question.to_string(), answer.to_string())).collect()
}

/// The questions with this word and a space among them, each read by this; then the question itself and its answer.
fn asked<Q>(word: &str, parse: impl Fn(&str) -> Option<Q>) -> Vec<(Q, String, String)> {
    let asked = |(question, expected): (String, String)| {
        let read = parse(question.strip_prefix(word)?).unwrap_or_else(|| panic!("no question: `{question}`"));
        Some((read, question, expected))
    };
    vectors().into_iter().filter_map(asked).collect()
}

/// The questions `fit` among them.
pub fn cases() -> Vec<Case> {
    let case = |(Fit { file, lent }, question, expected)| Case { question, file, lent, expected };
    asked("fit ", Fit::parse).into_iter().map(case).collect()
}

/// The questions `convert` among them.
pub fn draft_cases() -> Vec<DraftCase> {
    let case = |(Convert { draft, area }, question, expected)| DraftCase { question, draft, area, expected };
    asked("convert ", Convert::parse).into_iter().map(case).collect()
}

/// The questions `wanted` among them, each with itself and its answer.
pub fn wanted_cases() -> Vec<(Wanted, String, String)> {
    asked("wanted ", Wanted::parse)
}

/// The questions `catalogue` among them, each with itself and its answer.
pub fn catalogue_cases() -> Vec<(Kinds, String, String)> {
    asked("catalogue ", Kinds::parse)
}
