//! The catalogue page of kinds (document 02, \[7\]): which names are such that every part of the one is a part of the other.

use crate::answer::{is_can, Lent};
use crate::concept::Concept;
use crate::graph::Capacity;
use crate::rulefile::RuleFile;
use crate::sizes::NAMES;
use crate::tableau::run;

/// The entries of a table: an a that isn't a b can exist, cannot, or the work areas did not suffice.
pub const CAN: u8 = 0;
pub const CANNOT: u8 = 1;
pub const UNDECIDED: u8 = 2;

/// The refusal of a table that is larger than its area. It comes after the file checks.
pub const TABLE_SHORT: u8 = 17;

/// What becomes of a file's catalogue page.
#[derive(Clone, Debug, PartialEq, Eq)]
pub enum Page {
    /// A file check refuses the file, 1 to 8 or 16, or the table is larger than its area, 17. No refusal tells more than its number.
    Refused(u8),
    /// The names, rising, and their square table, row after row.
    Filled { names: Vec<u8>, table: Vec<u8> },
}

/// The page of a file in work areas of these lengths, its table in an area of so many bytes. The example areas have no say.
pub fn catalogue(file: &[u8], area: usize, lent: &Lent) -> Page {
    let mut file = match RuleFile::read(file) {
        Ok(file) => file,
        Err(number) => return Page::Refused(number),
    };
    let listed = listed(&file.concepts);
    let names: Vec<u8> = listed.iter().map(|kind| kind.name).collect();
    if names.len() * names.len() > area {
        return Page::Refused(TABLE_SHORT);
    }
    let mut table = Vec::new();
    for a in &listed {
        for b in &listed {
            file.wanted = vec![a.is_one, b.is_none];
            table.push(entry(&file, lent.capacity()));
        }
    }
    Page::Filled { names, table }
}

/// A name with a kind 1 and a kind 2 row, and the numbers of these.
struct Kind {
    name: u8,
    is_one: usize,
    is_none: usize,
}

/// The names that have both rows, rising.
fn listed(concepts: &[Concept]) -> Vec<Kind> {
    let place = |row: Concept| concepts.iter().position(|&concept| concept == row);
    let kind = |name: u8| {
        let (is_one, is_none) = (place(Concept::Atomic(name))?, place(Concept::Negated(name))?);
        Some(Kind { name, is_one, is_none })
    };
    (0..NAMES).filter_map(kind).collect()
}

/// The entry by a run of its own.
fn entry(file: &RuleFile, capacity: Capacity) -> u8 {
    match run(file, capacity) {
        Ok(graph) if is_can(&graph) => CAN,
        Ok(_) => CANNOT,
        Err(_) => UNDECIDED,
    }
}
