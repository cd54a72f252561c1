//! Random drafts from fixed seeds, areas to convert them in, and drafts whose rows are reached in very many ways.

use super::random::{argument, random_row, random_text, Prng, Shape};
use super::{encode, Row};
use crate::sizes::{LONGEST_FILE, MOST_ROWS};

/// A draft that the checks accept. One of eight has no "not" and no "if", and one of four is about as long as a draft can be.
pub fn random_draft(prng: &mut Prng, shape: Shape) -> Vec<u8> {
    let rows = random_rows(prng, shape);
    let rules: Vec<u8> = (0..prng.below(shape.rules + 1)).map(|_| prng.byte_below(rows.len())).collect();
    let wanted = prng.byte_below(rows.len()).max(prng.byte_below(rows.len()));
    let text = match prng.below(4) {
        0 => {
            let room = LONGEST_FILE - encode(b"", &rows, &rules, wanted).len();
            let mut text = vec![0; room - prng.below(9)];
            prng.fill(&mut text);
            text
        }
        _ => random_text(prng, shape.text),
    };
    encode(&text, &rows, &rules, wanted)
}

/// Names, some with their negation, then other rows.
fn random_rows(prng: &mut Prng, shape: Shape) -> Vec<Row> {
    let mut rows: Vec<Row> = Vec::new();
    for name in 0..shape.names as u8 {
        rows.push([1 + prng.byte_below(2), 0, name, 0]);
        if prng.below(2) == 0 {
            rows.push([3 - rows[rows.len() - 1][0], 0, name, 0]);
        }
    }
    let plain = prng.below(8) == 0;
    let count = MOST_ROWS.min(rows.len() + 1 + prng.below(shape.compound));
    while rows.len() < count {
        let row = match prng.below(5) {
            0 if !plain => [8, 0, argument(prng, rows.len()), 0],
            1 if !plain => [9, 0, argument(prng, rows.len()), argument(prng, rows.len())],
            _ => random_row(prng, shape, rows.len()),
        };
        if !rows.contains(&row) {
            rows.push(row);
        }
    }
    rows
}

/// The length of an area: about as long as the draft's result, just that, one byte less, or longer than any file.
pub fn random_area(prng: &mut Prng, draft: &[u8]) -> usize {
    let needed = plain::convert(draft, usize::MAX).map_or(draft.len(), |file| file.len());
    match prng.below(8) {
        0 => prng.below(needed + 1),
        1 => needed.saturating_sub(1),
        2 => needed,
        3 => needed + prng.below(64),
        4 => LONGEST_FILE - prng.below(2),
        5 => LONGEST_FILE + prng.below(1000),
        _ => prng.below(2 * needed + 1),
    }
}

/// A name and rows of these kinds by turns, each with the row before as its argument or as both: as many ways lead down as two
/// to the power of the rows, nearly. The last row is wanted and the only rule.
pub fn tower(rows: u8, kinds: &[u8]) -> Vec<u8> {
    let row = |k: u8| match kinds[usize::from(k) % kinds.len()] {
        8 => [8, 0, k, 0],
        kind => [kind, 0, k, k],
    };
    let table: Vec<Row> = std::iter::once([1, 0, 0, 0]).chain((0..rows - 1).map(row)).collect();
    encode(b"", &table, &[rows - 1], rows - 1)
}
