//! Files of 64 rows whose examples are large, so that there is much to list; also with half of the rows of kind 7.
//!
//! In order: two lines of signals; the rows that nothing needs; the files.
//!
//! A link takes a special node and two edges, and the root's put takes two edges. So in 4,096 edges an example has at most 2,047 links,
//! and only if no set has to be branched over.

use super::inclusions::long_chain;
use super::parts::Parts;
use super::{file_of, Table};
use crate::sizes::MOST_ROWS;

/// Each element has two successors along role 0, one of them with a new signal, and so many others along roles 1 to 15, at most 45. The
/// set of a state tells at which of so many places there is a signal: two to the power of `places` elements.
pub fn line(places: usize, others: u8) -> Vec<u8> {
    let mut table = Table::default();
    let (name, end) = (table.name(0), table.name(1));
    let start = (1..places).fold(end, |row, _| table.all(0, row));
    let mut rules = vec![name, table.some(0, start), table.some(0, name)];
    rules.extend((0..others).map(|k| table.some(2 + 2 * (k % 15), [name, end, start][usize::from(k / 15)])));
    file_of(&table, &rules, name)
}

/// Each element has a successor along role 0 and, so many steps after one without a signal, a second one in which a signal starts. It
/// goes through so many places.
fn line_with_pause(places: usize, pause: usize) -> Vec<u8> {
    let mut table = Table::default();
    let (name, end) = (table.name(0), table.name(1));
    let signal = (1..places).fold(end, |row, _| table.all(0, row));
    let start = table.some(0, signal);
    let later = (0..pause).fold(start, |row, _| table.all(0, row));
    let next = table.some(0, later);
    file_of(&table, &[name, next], name)
}

/// The same file, with rows that nothing needs until it has so many: "some" and "all" along role 0, role 1 and their inverses, about all
/// lower rows by turns.
fn padded(file: &[u8], most: usize) -> Vec<u8> {
    let mut table = Table::read(file).expect("a rule file");
    for step in 0u8.. {
        if table.rows.len() == most {
            break;
        }
        let argument = 5 * step % table.rows.len() as u8;
        if step % 3 == 0 {
            table.all(step % 4, argument);
        } else {
            table.some(step % 4, argument);
        }
    }
    table.encode().expect("a rule file")
}

/// The lines. Their examples have 1,221 elements and 2,031 links; 512 and 1,536; 256 and 1,792; 128 and 1,920; 64 and 1,984.
fn lines() -> [Vec<u8>; 5] {
    [line_with_pause(13, 5), line(9, 1), line(8, 5), line(7, 13), line(6, 29)]
}

/// Files of 64 rows, 62 of them of kinds 5 and 6, with these examples.
pub fn wide() -> Vec<Vec<u8>> {
    lines().iter().map(|file| padded(file, MOST_ROWS)).collect()
}

/// The same lines with kind 2 rows of their two names, so that a catalogue lists both. By a rule every element is a 0; not every one is a 1,
/// and an example with one that isn't is at least as large as the line's.
pub fn wide_kinds() -> Vec<Vec<u8>> {
    let with_both = |file: &Vec<u8>| {
        let mut parts = Parts::of(&padded(file, MOST_ROWS - 2));
        parts.rows.extend([[2, 0, 0, 0], [2, 0, 1, 0]]);
        parts.bytes()
    };
    lines().iter().map(with_both).collect()
}

/// Files of 64 rows, half of them of kind 7 in one long chain of all roles, so that a pair belongs to up to 16 roles. Their examples have 256
/// elements and 1,792 links; 128 and 1,920.
pub fn wide_with_inclusions() -> Vec<Vec<u8>> {
    let chain = long_chain(0..16, MOST_ROWS / 2);
    let lines = [line(8, 5), line(7, 13)];
    lines.iter().map(|file| Parts::of(&padded(file, MOST_ROWS / 2)).after(&chain).bytes()).collect()
}
