//! A file or draft in its parts, to be changed and written again; with kind 7 rows (document 02, \[6\]) added, and without them.

use super::random::Prng;
use super::{encode, Row};

/// The kind of a row that says of two roles which is narrower.
pub const INCLUSION: u8 = 7;

/// A file or draft whose trailer points back to its rows.
#[derive(Clone, Debug, PartialEq, Eq)]
pub struct Parts {
    pub text: Vec<u8>,
    pub rows: Vec<Row>,
    pub rules: Vec<u8>,
    pub wanted: u8,
}

impl Parts {
    /// The parts of a file or draft that passes checks 1 to 4.
    pub fn of(file: &[u8]) -> Parts {
        let (body, trailer) = file.split_last_chunk::<8>().expect("a trailer");
        let text = usize::from(trailer[0]) + 256 * usize::from(trailer[1]);
        let (text, rest) = body.split_at(text);
        let (rows, rules) = rest.split_at(4 * usize::from(trailer[2]));
        Parts { text: text.to_vec(), rows: rows.as_chunks().0.to_vec(), rules: rules.to_vec(), wanted: trailer[4] }
    }

    /// Its bytes.
    pub fn bytes(&self) -> Vec<u8> {
        encode(&self.text, &self.rows, &self.rules, self.wanted)
    }

    /// The kind 7 rows.
    pub fn inclusions(&self) -> Vec<Row> {
        self.rows.iter().copied().filter(|row| row[0] == INCLUSION).collect()
    }

    /// The same, with the numbers of rows that it names changed.
    fn renumbered(&self, rows: Vec<Row>, number: impl Fn(u8) -> u8) -> Parts {
        let rules = self.rules.iter().map(|&rule| number(rule)).collect();
        Parts { text: self.text.clone(), rows, rules, wanted: number(self.wanted) }
    }

    /// The same with these kind 7 rows before all others.
    pub fn after(&self, inclusions: &[Row]) -> Parts {
        let number = |row: u8| row + inclusions.len() as u8;
        let own = self.rows.iter().map(|&row| with_arguments(row, number));
        self.renumbered(inclusions.iter().copied().chain(own).collect(), number)
    }

    /// The same with these kind 7 rows among its own, at random places and in their order.
    pub fn among(&self, prng: &mut Prng, inclusions: &[Row]) -> Parts {
        let (mut own, mut others) = (self.rows.iter(), inclusions.iter());
        let (mut merged, mut places) = (Vec::new(), Vec::new());
        while own.len() + others.len() > 0 {
            if prng.below(own.len() + others.len()) < others.len() {
                merged.extend(others.next());
            } else {
                places.push(merged.len() as u8);
                merged.extend(own.next());
            }
        }
        let number = |row: u8| places[usize::from(row)];
        self.renumbered(merged.iter().map(|&row| with_arguments(row, number)).collect(), number)
    }

    /// The same without its kind 7 rows, which serve as nothing.
    pub fn without_inclusions(&self) -> Parts {
        let is_own = |row: &&Row| row[0] != INCLUSION;
        let number = |row: u8| self.rows[..usize::from(row)].iter().filter(is_own).count() as u8;
        let own = self.rows.iter().filter(is_own).map(|&row| with_arguments(row, number));
        self.renumbered(own.collect(), number)
    }
}

/// The row with other numbers for its arguments.
fn with_arguments(row: Row, number: impl Fn(u8) -> u8) -> Row {
    match row {
        [kind @ (3 | 4 | 9), role, left, right] => [kind, role, number(left), number(right)],
        [kind @ (5 | 6 | 8), role, left, right] => [kind, role, number(left), right],
        literal_or_inclusion => literal_or_inclusion,
    }
}
