//! A rule file or a draft, taken apart and put together.
//!
//! In order: reading and writing; the checks of the parts; writing row by row; finding rows.

use crate::fault::{Fault, Why};
use crate::row::Row;
use crate::words::Words;

/// The most bytes of a rule file or a draft. An area of so many suffices for every conversion.
pub const LONGEST_FILE: usize = 4096;
pub(crate) const MOST_ROWS: usize = 64;
pub(crate) const MOST_RULES: usize = 64;
const ROW_BYTES: usize = 4;
pub(crate) const TRAILER: usize = 8;
const MARK: [u8; 3] = *b"FIT";

/// A rule file or a draft, taken apart. It can hold what no file may; [`encode`](Table::encode) and the engine refuse
/// that. Each call that adds a row borrows the table, so a row stands in a line of its own; and the wanted row is row 0
/// unless it is set.
///
/// ```
/// # use gumbyra_table as gumbyra;
/// use gumbyra::{Row, Table};
///
/// // Codes: 0 is fitted to, 1 has fitted to it. Rule: a dosing pump has some flush valve fitted to it. Wanted: a
/// // dosing pump.
/// let mut draft = Table { text: b"Pumps\nNames:\n0 dosing pump\n1 flush valve\n".to_vec(), ..Table::default() };
/// let (pump, valve) = (draft.name(0), draft.name(1));
/// let has_valve = draft.some(1, valve);
/// let rule = draft.if_then(pump, has_valve);
/// draft.rule(rule);
/// draft.wanted = pump;
///
/// assert_eq!(draft.rows, [Row::Name(0), Row::Name(1), Row::Some { role: 1, row: 1 }, Row::If(0, 2)]);
/// assert!(draft.is_draft() && draft.is_rule(3));
/// assert_eq!(draft.row_of_name(1), Some(1));
/// assert_eq!(Table::read_draft(&draft.encode()?)?, draft);
/// assert_eq!(Table::read(&draft.encode()?).unwrap_err().number(), 5, "a draft is no rule file");
/// # Ok::<(), gumbyra::Fault>(())
/// ```
#[derive(Clone, Debug, Default, PartialEq, Eq, Hash)]
pub struct Table {
    /// The text before the rows: any bytes.
    pub text: Vec<u8>,
    /// The rows; they count from 0.
    pub rows: Vec<Row>,
    /// The rules: numbers of rows, repeats allowed.
    pub rules: Vec<u8>,
    /// The wanted row.
    pub wanted: u8,
}

impl Table {
    /// Reads a rule file: rows of kinds 1 to 7. It is refused exactly if the engine refuses it with 1 to 8 or 16, and
    /// with that number.
    pub fn read(file: &[u8]) -> Result<Table, Fault> {
        let table = Table::read_rows(file, false)?;
        table.check(&[table.wanted])?;
        Ok(table)
    }

    /// Reads a draft: rows of kinds 1 to 9. It is refused exactly if the converter refuses it with 1 to 8 or 16, and
    /// with that number.
    pub fn read_draft(draft: &[u8]) -> Result<Table, Fault> {
        let table = Table::read_rows(draft, true)?;
        table.check(&[table.wanted])?;
        Ok(table)
    }

    /// Reads a rule file with a list of wanted rows in place of its own, which may be any byte then and is not looked
    /// at.
    ///
    /// ```
    /// # use gumbyra_table as gumbyra;
    /// use gumbyra::{Place, Table};
    ///
    /// // One row, "is a pump". The file's own wanted row is 9, which is no row.
    /// let file = [1, 0, 0, 0, 0, 0, 1, 0, 9, b'F', b'I', b'T'];
    /// assert_eq!(Table::read(&file).unwrap_err().to_string(), "row 9 is wanted, and there are 1 rows");
    /// assert_eq!(Table::read_wanted(&file, &[0])?.wanted, 9);
    /// assert_eq!(Table::read_wanted(&file, &[0, 5]).unwrap_err().place(), Place::Wanted);
    /// # Ok::<(), gumbyra::Fault>(())
    /// ```
    pub fn read_wanted(file: &[u8], wanted: &[u8]) -> Result<Table, Fault> {
        let table = Table::read_rows(file, false)?;
        table.check(wanted)?;
        Ok(table)
    }

    /// Checks 1 to 5, and what the file then holds.
    fn read_rows(file: &[u8], is_draft: bool) -> Result<Table, Fault> {
        check_length(file.len())?;
        let (body, trailer) = file.split_last_chunk::<TRAILER>().expect("8 bytes or more");
        let &[low, high, rows, rules, wanted, mark @ ..] = trailer;
        require(mark == MARK, || Why::Mark(mark))?;
        let (rows, rules) = (usize::from(rows), usize::from(rules));
        check_counts(rows, rules)?;
        let place = usize::from(u16::from_le_bytes([low, high]));
        let told = place + ROW_BYTES * rows + rules + TRAILER;
        require(told == file.len(), || Why::Extent { told, length: file.len() })?;
        let (text, rest) = body.split_at(place);
        let (rows, rules) = rest.split_at(ROW_BYTES * rows);
        let rows = (0..=u8::MAX).zip(rows.as_chunks().0).map(|(number, &bytes)| check_row(number, bytes, is_draft));
        Ok(Table { text: text.to_vec(), rows: rows.collect::<Result<_, _>>()?, rules: rules.to_vec(), wanted })
    }

    /// The bytes of the table, if they pass the checks: as a draft if there is a row of kind 8 or 9, else as a rule
    /// file. Reading them gives the table again.
    pub fn encode(&self) -> Result<Vec<u8>, Fault> {
        let length = self.text.len() + ROW_BYTES * self.rows.len() + self.rules.len() + TRAILER;
        check_length(length)?;
        check_counts(self.rows.len(), self.rules.len())?;
        for (number, row) in self.numbered() {
            check_row(number, row.bytes(), true)?;
        }
        self.check(&[self.wanted])?;
        let mut file = Vec::with_capacity(length);
        file.extend(&self.text);
        file.extend(self.rows.iter().flat_map(|row| row.bytes()));
        file.extend(&self.rules);
        // Checks 1 and 3: two bytes hold the text's length, and one each the counts.
        file.extend((self.text.len() as u16).to_le_bytes());
        file.extend([self.rows.len() as u8, self.rules.len() as u8, self.wanted]);
        file.extend(MARK);
        Ok(file)
    }
}

// ---- the checks of the parts

impl Table {
    /// Checks 6, 7, 8 and 16, each over the whole table before the next, with these wanted rows.
    fn check(&self, wanted: &[u8]) -> Result<(), Fault> {
        self.check_arguments()?;
        self.check_repeats()?;
        let rows = self.rows.len();
        let is_row = |row: u8| usize::from(row) < rows;
        self.check_named(wanted, is_row, |at, row| match at {
            Some(at) => Why::RuleIsNone { at, row, rows },
            None => Why::WantedIsNone { row, rows },
        })?;
        let is_of_parts = |row: u8| !matches!(self.rows[usize::from(row)], Row::Within { .. });
        for (row, argument) in self.arguments() {
            require(is_of_parts(argument), || Why::Argument { row, argument })?;
        }
        self.check_named(wanted, is_of_parts, |at, row| match at {
            Some(at) => Why::Rule { at, row },
            None => Why::Wanted { row },
        })
    }

    /// Check 6: each argument is lower than its row.
    fn check_arguments(&self) -> Result<(), Fault> {
        self.arguments().try_for_each(|(row, argument)| require(argument < row, || Why::NotLower { row, argument }))
    }

    /// Check 7: no two rows are equal.
    fn check_repeats(&self) -> Result<(), Fault> {
        self.numbered().try_for_each(|(second, row)| {
            let first = self.find(row).expect("itself at least");
            require(first == second, || Why::Repeat { first, second, bytes: row.bytes() })
        })
    }

    /// Each rule passes, then each wanted row; what doesn't is told with its place in the list of rules.
    fn check_named(
        &self,
        wanted: &[u8],
        passes: impl Fn(u8) -> bool,
        why: impl Fn(Option<usize>, u8) -> Why,
    ) -> Result<(), Fault> {
        let rules = self.rules.iter().enumerate().map(|(at, &row)| (Some(at), row));
        let mut named = rules.chain(wanted.iter().map(|&row| (None, row)));
        named.try_for_each(|(at, row)| require(passes(row), || why(at, row)))
    }

    /// Each row that names another, and the other.
    fn arguments(&self) -> impl Iterator<Item = (u8, u8)> + '_ {
        self.numbered().flat_map(|(number, row)| row.arguments().map(move |argument| (number, argument)))
    }
}

/// Check 1.
fn check_length(length: usize) -> Result<(), Fault> {
    require((TRAILER..=LONGEST_FILE).contains(&length), || Why::Length(length))
}

/// Check 3.
fn check_counts(rows: usize, rules: usize) -> Result<(), Fault> {
    require((1..=MOST_ROWS).contains(&rows) && rules <= MOST_RULES, || Why::Counts { rows, rules })
}

/// Check 5 of one row.
fn check_row(number: u8, bytes: [u8; 4], is_draft: bool) -> Result<Row, Fault> {
    let row = Row::of_bytes(bytes).ok_or(Why::Malformed { row: number, bytes })?;
    require(is_draft || !row.is_of_draft(), || Why::OfDraft { row: number, kind: row.kind() })?;
    Ok(row)
}

/// Refuses unless the condition holds.
fn require(condition: bool, why: impl FnOnce() -> Why) -> Result<(), Fault> {
    if condition {
        Ok(())
    } else {
        Err(why().into())
    }
}

// ---- writing row by row

impl Table {
    /// The number of a row, which is added unless an equal one is there. From the 256th row on all are told as 255: no
    /// file has so many, and [`encode`](Table::encode) refuses them.
    pub fn row(&mut self, row: Row) -> u8 {
        let number = self.rows.iter().position(|&other| other == row).unwrap_or_else(|| {
            self.rows.push(row);
            self.rows.len() - 1
        });
        u8::try_from(number).unwrap_or(u8::MAX)
    }

    /// The row "it has the name".
    pub fn name(&mut self, name: u8) -> u8 {
        self.row(Row::Name(name))
    }

    /// The row "it hasn't the name".
    pub fn not_name(&mut self, name: u8) -> u8 {
        self.row(Row::NotName(name))
    }

    /// The row "both are true of it".
    pub fn both(&mut self, left: u8, right: u8) -> u8 {
        self.row(Row::Both(left, right))
    }

    /// The row "at least one is true of it".
    pub fn either(&mut self, left: u8, right: u8) -> u8 {
        self.row(Row::Either(left, right))
    }

    /// The row "a row is true of all parts the role leads to".
    pub fn all(&mut self, role: u8, row: u8) -> u8 {
        self.row(Row::All { role, row })
    }

    /// The row "a row is true of at least one part the role leads to".
    pub fn some(&mut self, role: u8, row: u8) -> u8 {
        self.row(Row::Some { role, row })
    }

    /// The row "every pair of the role is a pair of the wider one". It holds as it stands: no row, rule or wanted row
    /// may be this one.
    pub fn within(&mut self, role: u8, wider: u8) -> u8 {
        self.row(Row::Within { role, wider })
    }

    /// The row of a draft "the row isn't true of it".
    pub fn not(&mut self, row: u8) -> u8 {
        self.row(Row::Not(row))
    }

    /// The row of a draft "if the left row is true of it, the right one is".
    pub fn if_then(&mut self, left: u8, right: u8) -> u8 {
        self.row(Row::If(left, right))
    }

    /// Adds a rule.
    pub fn rule(&mut self, row: u8) {
        self.rules.push(row);
    }

    /// Writes these words into the text, with the rules and the wanted row that there are by now, in the form that
    /// programs read: under the headings of a draft if there is a row of kind 8 or 9, or they are a draft's words.
    ///
    /// ```
    /// # use gumbyra_table as gumbyra;
    /// use gumbyra::{Table, Words};
    ///
    /// let mut draft = Table::default();
    /// let (pump, valve) = (draft.name(0), draft.name(1));
    /// let has_valve = draft.some(1, valve);
    /// draft.wanted = draft.if_then(pump, has_valve);
    /// let words = Words::titled("Pumps").with_name(0, "dosing pump").with_role(1, "has fitted to it");
    /// draft.tell(&words.with_row(pump, "is a dosing pump").with_row(draft.wanted, "has its valve, if it is a pump"));
    ///
    /// assert!(draft.text.starts_with(b"Pumps\nNames:\n0 dosing pump\nRole codes:\n1 has fitted to it\nRows of the draft:\n"));
    /// assert_eq!(draft.words().row_of_draft(pump), Some("is a dosing pump"));
    /// assert_eq!(draft.words().wanted_in_draft(), Some([draft.wanted].as_slice()));
    /// ```
    pub fn tell(&mut self, words: &Words) {
        self.text = words.text(self.is_draft(), &self.rules, self.wanted).into_bytes();
    }
}

// ---- finding rows

impl Table {
    /// The number of this row; of the first, should there be two.
    pub fn find(&self, row: Row) -> Option<u8> {
        self.rows.iter().position(|&other| other == row).and_then(|number| u8::try_from(number).ok())
    }

    /// The row that says that a part has the name.
    pub fn row_of_name(&self, name: u8) -> Option<u8> {
        self.find(Row::Name(name))
    }

    /// The row that says that a part hasn't the name.
    pub fn row_of_not_name(&self, name: u8) -> Option<u8> {
        self.find(Row::NotName(name))
    }

    /// The row that the text has these words for, the lowest if there are several. In a rule file the list `Rows:`
    /// counts; in a draft `Rows of the draft:`, or else `Rows:`. A rule file that was converted has the list of its
    /// draft, but other numbers: if that is headed `Rows:`, a wrong row is found.
    pub fn row_called(&self, words: &str) -> Option<u8> {
        let of_text = self.words();
        let called = |row: u8| match self.is_draft() {
            true => of_text.row_of_draft(row).or(of_text.row(row)),
            false => of_text.row(row),
        };
        (0..=u8::MAX).take(self.rows.len()).find(|&row| called(row) == Some(words))
    }

    /// The rows, each with its number.
    pub fn numbered(&self) -> impl Iterator<Item = (u8, Row)> + '_ {
        (0..=u8::MAX).zip(self.rows.iter().copied())
    }

    /// Is the row a rule?
    pub fn is_rule(&self, row: u8) -> bool {
        self.rules.contains(&row)
    }

    /// Is there a row of kind 8 or 9?
    pub fn is_draft(&self) -> bool {
        self.rows.iter().any(|row| row.is_of_draft())
    }

    /// The words of its text.
    pub fn words(&self) -> Words {
        Words::of_text(&self.text)
    }
}

#[cfg(test)]
mod tests;
