//! What a table can begin with (document 02, \[3\] and \[6\]): with a row of kind 1 or 2, since row 0 has no lower row to name, or with one of
//! kind 7; "but an accepted table still holds a row of kind 1 or 2". An answering and a converting function on every first row that
//! tells kinds and bounds apart, and on random tables that document 01's check 9 was for: well-formed rows, none of kind 1 or 2.

use crate::files::inclusions::random_inclusions;
use crate::files::parts::INCLUSION;
use crate::files::random::random_row;
use crate::files::{encode, Row};
use crate::sizes::LONGEST_FILE;
use crate::{Answering, Converting, Prng, Shape};
use plain::{Answer, Lent};

/// A row that may stand in any table, and in no other place of those made here.
const NAME: Row = [1, 0, 40, 0];

/// The refusal of a table for its row 0, in the words of the documents: 5 if it is malformed, 6 if it names a row, 16 if it is of kind 7
/// and wanted.
fn refusal(row: Row, is_draft: bool, is_wanted: bool) -> Option<u8> {
    let [kind, role, left, right] = row;
    match kind {
        1 | 2 if role == 0 && left < 64 && right == 0 => None,
        3 | 4 if role == 0 => Some(6),
        5 | 6 if role < 32 && right == 0 => Some(6),
        7 if role < 32 && left < 32 && right == 0 => is_wanted.then_some(16),
        8 if is_draft && role == 0 && right == 0 => Some(6),
        9 if is_draft && role == 0 => Some(6),
        _ => Some(5),
    }
}

/// Checks that a table gets these refusals, as a rule file and as a draft.
fn check(answer: &mut impl Answering, convert: &mut impl Converting, table: &[u8], expected: [Option<u8>; 2]) {
    let of_file = match answer(table, &Lent::by_program()) {
        Answer::Refused(number) => Some(number),
        _ => None,
    };
    assert_eq!([of_file, convert(table, LONGEST_FILE).err()], expected, "{table:02x?}");
}

/// Checks each first row: each kind, with roles, left and right bytes on both sides of each bound; alone, before a name, and before a name
/// that is wanted.
pub fn check_first_rows(mut answer: impl Answering, mut convert: impl Converting) {
    let mut came = [[0; 17]; 2];
    for kind in 0..=255 {
        for role in [0, 1, 31, 32, 255] {
            for left in [0, 1, 31, 32, 63, 64, 255] {
                for right in [0, 1, 63, 255] {
                    let row = [kind, role, left, right];
                    let [wanted, unwanted] =
                        [true, false].map(|is_wanted| [false, true].map(|is_draft| refusal(row, is_draft, is_wanted)));
                    check(&mut answer, &mut convert, &encode(b"", &[row], &[], 0), wanted);
                    check(&mut answer, &mut convert, &encode(b"", &[row, NAME], &[1], 0), wanted);
                    check(&mut answer, &mut convert, &encode(b"", &[row, NAME], &[1], 1), unwanted);
                    for (came, expected) in came.iter_mut().zip([wanted, unwanted]) {
                        expected.iter().for_each(|number| came[usize::from(number.unwrap_or(0))] += 1);
                    }
                }
            }
        }
    }
    let told = came.map(|came| [0, 5, 6, 16].map(|number| came[number]));
    println!("first rows of files and drafts, wanted and not: accepted, refused with 5, 6, 16: {told:?}");
    // Ten rows pass, in files and in drafts: kind 1 or 2 with name 0, 1, 31, 32 or 63. 6: of kinds 3 and 4 twenty-eight each, of 5 and 6
    // twenty-one each, twice; and of kinds 8 and 9 in drafts seven and twenty-eight. 16: nine rows of kind 7, twice, which pass if another
    // row is wanted.
    assert_eq!(told.map(|[accepted, _, six, sixteen]| [accepted, six, sixteen]), [[20, 231, 18], [38, 231, 0]]);
}

/// Checks tables of well-formed rows whose arguments are lower, but for row 0, which is of another kind than 1 and 2: refused with 6
/// although all else is right, for with a name in its place the table is accepted. Most of them have no name at all.
pub fn check_tables_without_names(mut answer: impl Answering, mut convert: impl Converting) {
    let mut prng = Prng::new(91);
    let mut without_names = 0;
    for _ in 0..20_000 {
        let is_draft = prng.below(2) == 0;
        let mut rows = rows_without_names(&mut prng, is_draft);
        let late_name = prng.below(4) == 0 && rows.len() > 1;
        if late_name {
            let place = 1 + prng.below(rows.len() - 1);
            rows[place] = [2, 0, 41, 0];
        }
        without_names += usize::from(!late_name);
        let wanted = prng.byte_below(rows.len());
        let rules: Vec<u8> = (0..prng.below(3)).map(|_| prng.byte_below(rows.len())).collect();
        let of_file = |rows: &[Row]| rows.iter().any(|row| row[0] > 6).then_some(5);
        let table = encode(b"", &rows, &rules, wanted);
        check(&mut answer, &mut convert, &table, [of_file(&rows).or(Some(6)), Some(6)]);
        rows[0] = NAME;
        let table = encode(b"", &rows, &rules, wanted);
        let converted = convert(&table, LONGEST_FILE);
        assert!(matches!(converted, Ok(_) | Err(12)), "{table:02x?}");
        check(&mut answer, &mut convert, &table, [of_file(&rows), converted.err()]);
    }
    println!("tables refused for their first row: 20000, of these without a name {without_names}");
    assert!(without_names >= 10_000);
}

/// Checks tables of well-formed rows of which some are of kind 7 and none of kind 1 or 2. Of the others the lowest has only kind 7 rows below
/// it to name: the table is refused with 16, or with 6 if a row names one that isn't lower.
pub fn check_tables_of_inclusions(mut answer: impl Answering, mut convert: impl Converting) {
    let mut prng = Prng::new(92);
    let mut came = [0; 17];
    for _ in 0..20_000 {
        let (is_draft, is_lower) = (prng.below(2) == 0, prng.below(2) == 0);
        let own = rows_without_names(&mut prng, is_draft);
        let count = 1 + prng.below(8);
        let mut rows = random_inclusions(&mut prng, 16, count);
        // The rows that they name are numbered as if no kind 7 row came first, so each of them is one or a row above it.
        rows.extend(&own[usize::from(is_lower)..]);
        let wanted = prng.byte_below(rows.len());
        let table = encode(b"", &rows, &[], wanted);
        let is_higher = |(number, row): (usize, &Row)| highest_argument(row).is_some_and(|argument| argument >= number);
        let expected = if rows.iter().enumerate().any(is_higher) { 6 } else { 16 };
        let of_file = if rows.iter().any(|row| row[0] > INCLUSION) { 5 } else { expected };
        check(&mut answer, &mut convert, &table, [Some(of_file), Some(expected)]);
        came[usize::from(expected)] += 1;
    }
    println!("tables without a name, with kind 7 rows: refused with 6 {}, with 16 {}", came[6], came[16]);
    assert!(came[6] >= 5000 && came[16] >= 5000);
}

/// The highest row that a row names.
fn highest_argument(row: &Row) -> Option<usize> {
    match *row {
        [3 | 4 | 9, _, left, right] => Some(usize::from(left.max(right))),
        [5 | 6 | 8, _, left, _] => Some(usize::from(left)),
        _ => None,
    }
}

/// Up to twelve different rows of kinds 3 to 6, in a draft 8 and 9 too; each but row 0 names lower rows.
fn rows_without_names(prng: &mut Prng, is_draft: bool) -> Vec<Row> {
    let shape = Shape { names: 0, roles: 16, compound: 0, rules: 0, text: 0 };
    let mut rows: Vec<Row> = Vec::new();
    for _ in 0..1 + prng.below(12) {
        let row = random_row(prng, shape, if rows.is_empty() { 256 } else { rows.len() });
        let row = match (is_draft, prng.below(4), row) {
            (true, 0, [_, _, left, _]) => [8, 0, left, 0],
            (true, 1, [_, _, left, right]) => [9, 0, left, right],
            _ => row,
        };
        if !rows.contains(&row) {
            rows.push(row);
        }
    }
    rows
}
