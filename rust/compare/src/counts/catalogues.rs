//! How often things happened with catalogue pages.

use super::tally::{cases_of_checks, Tally};
use plain::catalogue::{CAN, CANNOT, TABLE_SHORT, UNDECIDED};
use plain::{Answer, Page};

/// In how many pages each case happened.
#[derive(Default)]
pub struct CatalogueCounts(Tally);

/// A page, and what was asked for.
pub struct Seen<'a> {
    /// The length of the table's area.
    pub area: usize,
    /// How many names the file lists.
    pub names: usize,
    pub page: &'a Page,
    /// What each entry's two rows get in the same work areas and some example areas, row after row.
    pub answers: &'a [Answer],
    /// Rows of names that have only one of kind 1 and kind 2.
    pub one_row: [bool; 2],
}

impl CatalogueCounts {
    /// Counts what happened with a page, which must be right.
    pub fn count(&mut self, seen: &Seen) {
        self.0.add([seen.cases_of_refusal(), seen.cases_of_entries(), seen.cases_of_order()].concat());
    }

    /// Prints the counts and fails if a case was rare.
    pub fn assert_often(&self, least: usize) {
        self.0.assert_often("pages", least);
    }
}

impl Seen<'_> {
    /// The table and the number of names; none of a page that is refused.
    fn table(&self) -> (&[u8], usize) {
        match self.page {
            Page::Filled { names, table } => (table, names.len()),
            Page::Refused(_) => (&[], 0),
        }
    }

    /// Which refusal comes, and how long the area is.
    fn cases_of_refusal(&self) -> Vec<(&'static str, bool)> {
        let (table, names) = self.table();
        let is_filled = matches!(self.page, Page::Filled { .. });
        let is_short = *self.page == Page::Refused(TABLE_SHORT);
        let others = [
            ("refusal 17", is_short),
            ("refusal 17, for one byte", is_short && self.area + 1 == self.names * self.names),
            ("no names", is_filled && names == 0),
            ("no names, in an area of no bytes", is_filled && names == 0 && self.area == 0),
            ("one name", names == 1),
            ("five names or more", names >= 5),
            ("an area just as long as the table", names > 0 && self.area == table.len()),
            ("an area longer than the table", names > 0 && self.area > table.len()),
            ("a name that has no kind 2 row", is_filled && self.one_row[0]),
            ("a name that has no kind 1 row", is_filled && self.one_row[1]),
        ];
        [cases_of_checks(|number| *self.page == Page::Refused(number)), others.to_vec()].concat()
    }

    /// Which entries there are.
    fn cases_of_entries(&self) -> Vec<(&'static str, bool)> {
        let (table, names) = self.table();
        let has = |entry: u8| table.contains(&entry);
        let apart = |&(a, b): &(usize, usize)| a != b && table[a * names + b] == CANNOT;
        let pairs = || (0..names).flat_map(|a| (0..names).map(move |b| (a, b)));
        let all_ones = |a: usize| (0..names).all(|b| table[a * names + b] == CANNOT);
        let any_run = |passes: &dyn Fn(&Answer) -> bool| self.answers.iter().any(passes);
        let cannot = |run: &Answer| if let Answer::Cannot { used } = run { Some(*used) } else { None };
        vec![
            ("an entry 0", has(CAN)),
            ("an entry 1", has(CANNOT)),
            ("an entry 1 of two names", pairs().any(|two| apart(&two))),
            ("an entry 2", has(UNDECIDED)),
            ("each of 0, 1 and 2", has(CAN) && has(CANNOT) && has(UNDECIDED)),
            ("only entries 2", names > 0 && table.iter().all(|&entry| entry == UNDECIDED)),
            ("a row of entries 1", names > 1 && (0..names).any(all_ones)),
            ("an entry 0 that would be refused with 11", any_run(&|run| matches!(run, Answer::TooLong { .. }))),
            ("an entry 1 by a run of twenty nodes or more", any_run(&|run| cannot(run).is_some_and(|u| u.nodes >= 20))),
            ("an entry 1 by a run with alternatives", any_run(&|run| cannot(run).is_some_and(|u| u.alternatives > 0))),
        ]
    }

    /// What the entries say together.
    fn cases_of_order(&self) -> Vec<(&'static str, bool)> {
        let (table, names) = self.table();
        let entry = |a: usize, b: usize| table[a * names + b];
        let any_two =
            |passes: &dyn Fn(usize, usize) -> bool| (0..names).any(|a| (0..names).any(|b| a != b && passes(a, b)));
        let is_under = |a: usize, b: usize| entry(a, b) == CANNOT && entry(b, a) == CAN;
        let three = any_two(&|a, b| is_under(a, b) && (0..names).any(|c| c != a && is_under(b, c)));
        let unequal = |a: usize, b: usize| entry(a, b) == CAN && entry(b, a) == CAN;
        vec![
            ("an a is a b, and a b need not be an a", any_two(&is_under)),
            ("an a is a b, and a b is an a", any_two(&|a, b| entry(a, b) == CANNOT && entry(b, a) == CANNOT)),
            ("neither", any_two(&unequal)),
            ("an a is a b, that is a c, and neither the other way", three),
            (
                "an a is a b, and the other way is not decided",
                any_two(&|a, b| entry(a, b) == CANNOT && entry(b, a) == UNDECIDED),
            ),
        ]
    }
}
