//! The rule file and its checks, refusals 1 to 8 and then 16 (document 01, "The rule file" and "Refusals, in checking order"; document
//! 02, \[6\]). Wanted rows may be given in place of the file's own (document 02, \[7\]), and a draft passes the same checks with two kinds of
//! row more (document 02, \[1\]): so the wanted rows and what a row can say are parameters.

use crate::concept::{Concept, Kinds, Row, ROW};
use crate::draft::DraftConcept;
use crate::sizes::{LONGEST_FILE, MOST_ROWS, MOST_RULES};

const TRAILER: usize = 8;
const MARK: [u8; 3] = [0x46, 0x49, 0x54];

/// What an accepted file or draft holds.
#[derive(Clone, Debug, PartialEq, Eq)]
pub struct Accepted<'a, C> {
    /// The text before the rows.
    pub text: &'a [u8],
    /// The rows.
    pub concepts: Vec<C>,
    /// The rules: numbers of rows, repeats allowed.
    pub tbox: Vec<usize>,
    /// The wanted rows, a member being a member of all of them: the file's own one, or those given in its place.
    pub wanted: Vec<usize>,
}

/// An accepted rule file: kinds 1 to 7.
pub type RuleFile<'a> = Accepted<'a, Concept>;

/// An accepted draft: kinds 8 and 9 too.
pub type Draft<'a> = Accepted<'a, DraftConcept>;

impl<'a, C: Kinds> Accepted<'a, C> {
    /// Reads a file or draft, or gives the number of the first check that refuses it.
    pub fn read(bytes: &'a [u8]) -> Result<Accepted<'a, C>, u8> {
        Accepted::of_parts(Parts::of(bytes)?)
    }

    /// The same with these wanted rows in place of its own, which is not looked at (document 02, \[7\]).
    pub fn read_wanting(bytes: &'a [u8], wanted: &'a [u8]) -> Result<Accepted<'a, C>, u8> {
        Accepted::of_parts(Parts { wanted, ..Parts::of(bytes)? })
    }

    /// Checks 5 to 8 and 16.
    fn of_parts(parts: Parts<'a>) -> Result<Accepted<'a, C>, u8> {
        let concepts = check_rows::<C>(&parts.rows)?;
        check_rules(&parts, concepts.len())?;
        check_inclusions(&parts, &concepts)?;
        Ok(Accepted {
            text: parts.text,
            concepts,
            tbox: parts.rules.iter().map(|&rule| usize::from(rule)).collect(),
            wanted: parts.wanted.iter().map(|&row| usize::from(row)).collect(),
        })
    }
}

/// The text of a file: the part before the rows; of a refused file the empty part at its start.
pub fn text(file: &[u8]) -> &[u8] {
    RuleFile::read(file).map_or(&file[..0], |read| read.text)
}

/// The text of a file that is read with these wanted rows in place of its own; of one that is then refused the empty part at its start.
pub fn text_wanting<'a>(file: &'a [u8], wanted: &[u8]) -> &'a [u8] {
    let length = RuleFile::read_wanting(file, wanted).map_or(0, |read| read.text.len());
    &file[..length]
}

/// The bytes of a rule file: text, rows, rule list, trailer.
pub fn encode(text: &[u8], rows: &[Row], rules: &[u8], wanted: u8) -> Vec<u8> {
    let count = |n: usize| u8::try_from(n).expect("a count of one byte");
    let place = u16::try_from(text.len()).expect("a place of two bytes").to_le_bytes();
    let mut file = [text, rows.as_flattened(), rules].concat();
    file.extend([place[0], place[1], count(rows.len()), count(rules.len()), wanted]);
    file.extend(MARK);
    file
}

/// The parts of a file that passes checks 1 to 4.
struct Parts<'a> {
    text: &'a [u8],
    rows: Vec<Row>,
    rules: &'a [u8],
    wanted: &'a [u8],
}

impl<'a> Parts<'a> {
    /// Checks 1 to 4: the trailer points back to the rows.
    fn of(bytes: &'a [u8]) -> Result<Parts<'a>, u8> {
        require((TRAILER..=LONGEST_FILE).contains(&bytes.len()), 1)?;
        let (body, trailer) = bytes.split_at(bytes.len() - TRAILER);
        require(trailer[5..] == MARK, 2)?;
        let first_row = usize::from(u16::from_le_bytes([trailer[0], trailer[1]]));
        let (rows, rules) = (usize::from(trailer[2]), usize::from(trailer[3]));
        require((1..=MOST_ROWS).contains(&rows) && rules <= MOST_RULES, 3)?;
        require(first_row + ROW * rows + rules == body.len(), 4)?;
        let (text, rest) = body.split_at(first_row);
        let (table, rules) = rest.split_at(ROW * rows);
        let rows = table.chunks_exact(ROW).map(|r| [r[0], r[1], r[2], r[3]]).collect();
        Ok(Parts { text, rows, rules, wanted: &trailer[4..5] })
    }
}

/// Checks 5 to 7, each over all rows before the next.
fn check_rows<C: Kinds>(rows: &[Row]) -> Result<Vec<C>, u8> {
    let concepts: Option<Vec<C>> = rows.iter().map(|&row| C::of_row(row)).collect();
    let concepts = concepts.ok_or(5)?;
    let lower = |(k, c): (usize, &C)| c.arguments_pass(|argument| argument < k);
    require(concepts.iter().enumerate().all(lower), 6)?;
    require(rows.iter().enumerate().all(|(k, row)| !rows[..k].contains(row)), 7)?;
    Ok(concepts)
}

/// Check 8: the rules and the wanted rows are rows.
fn check_rules(parts: &Parts, rows: usize) -> Result<(), u8> {
    require(parts.rules.iter().chain(parts.wanted).all(|&row| usize::from(row) < rows), 8)
}

/// Check 16: no argument, no rule and no wanted row is of kind 7. All of them are rows by now.
fn check_inclusions<C: Kinds>(parts: &Parts, concepts: &[C]) -> Result<(), u8> {
    let may_serve = |row: usize| concepts[row].inclusion().is_none();
    let arguments = concepts.iter().all(|c| c.arguments_pass(may_serve));
    let mut named = parts.rules.iter().chain(parts.wanted);
    require(arguments && named.all(|&row| may_serve(row.into())), 16)
}

/// Refuses with the number unless the condition holds.
fn require(condition: bool, number: u8) -> Result<(), u8> {
    if condition {
        Ok(())
    } else {
        Err(number)
    }
}
