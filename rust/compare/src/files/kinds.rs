//! Rule files for catalogues (document 02, \[7\]): random ones in which some kinds follow from others, and large ones with their tables.
//!
//! In order: random files; 32 names over 64 rows; a chain of names.

use super::inclusions::with_inclusions;
use super::parts::{Parts, INCLUSION};
use super::random::{damage, random_bytes, random_row, random_text, Prng, Shape};
use super::{file_of, said, table_of, Row, Table};
use crate::sizes::{MOST_ROWS, NAMES};
use gumbyra_table::Row as Said;

// ---- random files

/// A file with up to so many names, of all 64, most with both rows. Among its rules are some by which an a is a b: at once, or since it has
/// along some role what only a b has. Half of the files have kind 7 rows.
pub fn random_kinds(prng: &mut Prng, shape: Shape) -> Vec<u8> {
    let mut table = table_of(&random_literals(prng, shape.names));
    let mut rules = Vec::new();
    for _ in 0..prng.below(shape.names + 2) {
        rules.extend(random_implication(prng, &mut table, shape.roles));
    }
    for _ in 0..prng.below(shape.compound + 1) {
        let row = random_row(prng, shape, table.rows.len());
        table.row(said(row));
    }
    rules.extend((0..prng.below(shape.rules + 1)).map(|_| prng.byte_below(table.rows.len())));
    table.text = random_text(prng, shape.text);
    let file = file_of(&table, &rules, prng.byte_below(table.rows.len()));
    match prng.below(2) {
        0 => with_inclusions(prng, &file, shape.roles),
        _ => file,
    }
}

/// Rows of kinds 1 and 2 in no order. One name of four has only one of them.
fn random_literals(prng: &mut Prng, most: usize) -> Vec<Row> {
    let mut rows: Vec<Row> = Vec::new();
    for _ in 0..1 + prng.below(most).max(prng.below(most)) {
        let name = prng.byte_below(NAMES.into());
        let kinds: &[u8] = [[1, 2].as_slice(), &[1, 2], &[2, 1], &[2, 1], &[2, 1], &[1, 2], &[1], &[2]][prng.below(8)];
        for row in kinds.iter().map(|&kind| [kind, 0, name, 0]) {
            if !rows.contains(&row) {
                rows.insert(prng.below(rows.len() + 1), row);
            }
        }
    }
    rows
}

/// Rules by which what a name's row says follows from another's, which has a kind 2 row; none if there is no such.
fn random_implication(prng: &mut Prng, table: &mut Table, roles: usize) -> Vec<u8> {
    let is_literal = |row: &Said| matches!(row, Said::Name(_) | Said::NotName(_));
    let literals: Vec<u8> = (0..).zip(&table.rows).filter(|(_, row)| is_literal(row)).map(|(row, _)| row).collect();
    let [if_not, then, via] = [(); 3].map(|()| literals[prng.below(literals.len())]);
    let opposite = match table.rows[usize::from(via)] {
        Said::Name(name) => table.row_of_not_name(name),
        Said::NotName(name) => table.row_of_name(name),
        _ => None,
    };
    match (prng.below(2), opposite) {
        (0, Some(opposite)) => {
            let role = prng.byte_below(2 * roles);
            let (some, none) = (table.some(role, via), table.all(role, opposite));
            vec![table.either(if_not, some), table.either(none, then)]
        }
        _ => vec![table.either(if_not, then)],
    }
}

/// The same; or damaged, or with another own wanted row, which is of kind 7 or no row, or with a row that repeats another; or random bytes.
pub fn random_question(prng: &mut Prng, shape: Shape) -> Vec<u8> {
    let mut file = random_kinds(prng, shape);
    let mut parts = Parts::of(&file);
    match prng.below(16) {
        0 => return random_bytes(prng),
        1 => damage(prng, &mut file),
        2 => {
            let inclusion = parts.rows.iter().position(|row| row[0] == INCLUSION);
            parts.wanted = inclusion.unwrap_or(parts.rows.len() + prng.below(100)) as u8;
            return parts.bytes();
        }
        3 if parts.rows.len() < MOST_ROWS => {
            parts.rows.push(parts.rows[prng.below(parts.rows.len())]);
            return parts.bytes();
        }
        _ => (),
    }
    file
}

// ---- 32 names over 64 rows

/// 32 names, each with both rows, in no order of name. Every part has the names of the one list and none of the other: these are the rules.
pub fn most_names(every: &[u8], none: &[u8]) -> Vec<u8> {
    let mut table = Table::default();
    let name = |k: u8| k.wrapping_mul(37) % NAMES;
    for k in 0..32 {
        table.not_name(name(k));
        table.name(name(31 - k));
    }
    let mut rules: Vec<u8> = every.iter().map(|&name| table.name(name)).collect();
    rules.extend(none.iter().map(|&name| table.not_name(name)));
    file_of(&table, &rules, 0)
}

// ---- a chain of names

/// The most names of a chain: each takes two rows, and each but the last a third.
pub const LONGEST_CHAIN: u8 = 21;

/// So many names, of which each is the next, by a rule for every two.
pub fn chain(names: u8) -> Vec<u8> {
    let mut table = Table::default();
    let literals: Vec<[u8; 2]> = (0..names).map(|name| [table.name(name), table.not_name(name)]).collect();
    let rules: Vec<u8> = literals.windows(2).map(|two| table.either(two[0][1], two[1][0])).collect();
    file_of(&table, &rules, 0)
}
