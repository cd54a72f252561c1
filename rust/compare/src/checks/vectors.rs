//! The questions of tests/vectors, asked of each function that they are for.

use super::judging::{check_example, check_judged, whole_answer};
use super::{Answering, AnsweringWanted, Cataloguing, Converting};
use crate::protocol::cases::{cases, catalogue_cases, draft_cases, wanted_cases};
use crate::protocol::questions::{conversion_line, one_line, page_line, Kinds, Wanted};
use plain::Lent;
use worlds::Ontology;

/// Every question `fit` of tests/vectors: the answer is equal, every example is a model and lists what holds in it. After refusal 11
/// the example is asked for again.
pub fn check_cases(mut answer: impl Answering) {
    let cases = cases();
    assert!(cases.len() > 1000, "the vectors are there");
    let times = |start: &str| cases.iter().filter(|case| case.expected.starts_with(start)).count();
    let short = ["REFUSED 13 ", "REFUSED 14 ", "REFUSED 15 "].map(times);
    assert!(short.iter().all(|&times| times >= 20), "few cases are short of a record: {short:?}");
    for case in cases {
        let first = answer(&case.file, &case.lent);
        assert_eq!(one_line(&first), case.expected, "{}", case.question);
        check_example(&case.file, &whole_answer(&mut answer, &case.file, &case.lent, first));
    }
}

/// Every question `convert` of tests/vectors: the answer is equal.
pub fn check_draft_cases(mut convert: impl Converting) {
    let cases = draft_cases();
    assert!(cases.len() > 200, "the vectors are there");
    for case in cases {
        assert_eq!(conversion_line(&convert(&case.draft, case.area)), case.expected, "{}", case.question);
    }
}

/// Every question `wanted` of tests/vectors, as those of `fit`.
pub fn check_wanted_cases(mut answer: impl AnsweringWanted) {
    let cases = wanted_cases();
    assert!(cases.len() > 100, "the vectors are there");
    for (Wanted { file, rows, lent }, question, expected) in cases {
        let mut answer = |file: &[u8], lent: &Lent| answer(file, &rows, lent);
        let first = answer(&file, &lent);
        assert_eq!(one_line(&first), expected, "{question}");
        let whole = whole_answer(&mut answer, &file, &lent, first);
        check_judged(&file, Ontology::decode_wanting(&file, &rows).as_ref(), &whole);
    }
}

/// Every question `catalogue` of tests/vectors: the answer is equal.
pub fn check_catalogue_cases(mut catalogue: impl Cataloguing) {
    let cases = catalogue_cases();
    assert!(cases.len() > 50, "the vectors are there");
    for (Kinds { file, area, lent }, question, expected) in cases {
        assert_eq!(page_line(&catalogue(&file, area, &lent)), expected, "{question}");
    }
}
