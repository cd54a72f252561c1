//! How often things happened with lists of wanted rows.

use super::tally::{cases_of_checks, Tally};
use plain::{answer_wanting, Answer, Lent};

/// With how many lists each case happened.
#[derive(Default)]
pub struct WantedCounts(Tally);

impl WantedCounts {
    /// Counts what happened with a list, whose answer must be right.
    pub fn count(&mut self, asked: &Asked) {
        self.0.add([asked.cases_of_list(), asked.cases_of_checks(), asked.cases_of_answer()].concat());
    }

    /// Prints the counts and fails if a case was rare.
    pub fn assert_often(&self, least: usize) {
        self.0.assert_often("lists", least);
    }
}

/// A file and wanted rows, with the answers to both in the same areas.
pub struct Asked<'a> {
    pub file: &'a [u8],
    pub list: &'a [u8],
    pub lent: &'a Lent,
    pub answer: Answer,
    /// With the file's own wanted row.
    pub of_file: Answer,
}

impl Asked<'_> {
    /// The different rows of the list.
    fn distinct(&self) -> Vec<u8> {
        let mut distinct = self.list.to_vec();
        distinct.sort();
        distinct.dedup();
        distinct
    }

    fn is_accepted(&self) -> bool {
        !matches!(self.answer, Answer::Refused(_))
    }

    fn is_can(&self) -> bool {
        matches!(self.answer, Answer::Can { .. })
    }

    fn is_cannot(&self) -> bool {
        matches!(self.answer, Answer::Cannot { .. })
    }

    /// What the list is.
    fn cases_of_list(&self) -> Vec<(&'static str, bool)> {
        let (distinct, length) = (self.distinct().len(), self.list.len());
        vec![
            ("no row is wanted", length == 0),
            ("one row is wanted", length == 1),
            ("two rows or more are wanted", distinct > 1),
            ("a row is wanted twice", distinct < length),
            ("a hundred rows or more are listed", length >= 100),
        ]
    }

    /// Which check refuses the file, and whether it looks at the list and not at the file's own wanted row.
    fn cases_of_checks(&self) -> Vec<(&'static str, bool)> {
        let refused = |number: u8| self.answer == Answer::Refused(number);
        let file_refused = |number: u8| self.of_file == Answer::Refused(number);
        let is_file_accepted = !matches!(self.of_file, Answer::Refused(_));
        let by_list = [
            ("refusal 8 by the list only", refused(8) && is_file_accepted),
            ("refusal 16 by the list only", refused(16) && is_file_accepted),
            ("the file's own is no row, and the list is accepted", file_refused(8) && self.is_accepted()),
            ("the file's own is of kind 7, and the list is accepted", file_refused(16) && self.is_accepted()),
            (
                "the file's own is no row, and no row is wanted",
                file_refused(8) && self.is_accepted() && self.list.is_empty(),
            ),
        ];
        [cases_of_checks(refused), by_list.to_vec()].concat()
    }

    /// What the answer is, and what several rows have to do with it.
    fn cases_of_answer(&self) -> Vec<(&'static str, bool)> {
        let short = |number: u8| matches!(self.answer, Answer::Short { area, .. } if area.refusal() == number);
        let distinct = self.distinct();
        let can_alone = |&row: &u8| matches!(answer_wanting(self.file, &[row], &Lent::most()), Answer::Can { .. });
        let several = distinct.len() > 1;
        let is_other = matches!(self.of_file, Answer::Can { .. }) && self.is_cannot()
            || matches!(self.of_file, Answer::Cannot { .. }) && self.is_can();
        vec![
            ("can, no row being wanted", self.is_can() && self.list.is_empty()),
            ("cannot, no row being wanted", self.is_cannot() && self.list.is_empty()),
            ("can, several being wanted", self.is_can() && several),
            (
                "cannot, several being wanted, and can with each alone",
                self.is_cannot() && several && distinct.iter().all(can_alone),
            ),
            ("another verdict than with the file's own row", is_other),
            ("refusal 11", matches!(self.answer, Answer::TooLong { .. })),
            ("refusal 13", short(13)),
            ("refusal 14", short(14)),
            ("refusal 15", short(15)),
        ]
    }
}
