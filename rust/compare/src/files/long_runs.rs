//! Long runs with the order of their records, as patterns that repeat, by hand from document 01's text.
//!
//! In order: signals; answers; branches; crowds of alternatives; the first records of a ladder.

use super::chains::{ladder, RUNGS};
use super::orders::{order, Order};
use super::wide::line;
use super::{file_of, Table};

/// A file, and its records in their order.
pub struct LongRun {
    pub file: Vec<u8>,
    pub records: Order,
}

/// Two successors along one role, one of them with a new signal, which goes through so many places (`wide::line`). The root puts the
/// state without signals, whose successors are a new state and itself. While the first signal is on its way each state has two new
/// successors; with each step there are twice as many. Where it is at the last place, every content of the line is there already.
/// Nothing is ever settled.
pub fn signals(places: usize) -> LongRun {
    let last = 1 << (places - 1);
    let records = order(&["N NNEE NNEE NEE", &"NNEE NNEE".repeat(last - 1), &"NEE NEE".repeat(last)].concat());
    LongRun { file: line(places, 0), records }
}

/// A chain of so many steps, at most 30: each element asks for a name at the one before. For each step there is the state without
/// the name, a branch, and the special node that asks for the name; then the state with it and again the branch. At last comes the
/// chain's end, and "yes" goes back without a record.
pub fn answers(steps: usize) -> LongRun {
    let (forward, inverse) = (0, 1);
    let mut table = Table::default();
    let (name, end) = (table.name(0), table.name(1));
    let asks = table.all(inverse, name);
    let wanted = (0..steps).fold(end, |rest, _| {
        let both = table.both(asks, rest);
        table.some(forward, both)
    });
    let records = order(&["N", &"NNEE NE NAE NNEE NE".repeat(steps), "NNEE"].concat());
    LongRun { file: file_of(&table, &[], wanted), records }
}

/// Rules: either of two names, so often, at most 21. The root puts a branch, and each branch puts two, one step after the other, until
/// there is a choice for every rule; the order is that of the branches.
pub fn branches(rules: usize) -> LongRun {
    let mut table = Table::default();
    let wanted = table.name(63);
    let choices: Vec<u8> = (0..rules as u8)
        .map(|k| {
            let (left, right) = (table.name(2 * k), table.name(2 * k + 1));
            table.either(left, right)
        })
        .collect();
    let records = order(&["N NE", &"NE NE".repeat((1 << (rules - 1)) - 1)].concat());
    LongRun { file: file_of(&table, &choices, wanted), records }
}

/// A kit of so many choices between two names and so many asking successors, with a successor that clashes. It takes a branch for each
/// part of the kit and then two for each choice so far; there is a state for each way to choose. Its asking successors want one row
/// each in it, and then it can never be: no alternative is ever put.
pub fn crowd(choices: usize, asking: usize) -> LongRun {
    let (forward, inverse, other) = (0, 1, 2);
    let mut table = Table::default();
    let (name, not_name) = (table.name(63), table.not_name(63));
    let mut parts = Vec::new();
    let mut row = name;
    for _ in 0..asking {
        row = table.all(inverse, row);
        parts.push(table.some(forward, row));
    }
    parts.extend([table.all(other, name), table.some(other, not_name)]);
    parts.extend((0..choices as u8).map(|k| {
        let (left, right) = (table.name(2 * k), table.name(2 * k + 1));
        table.either(left, right)
    }));
    let (count, last) = (parts.len(), 1 << (choices - 1));
    let wanted = parts.into_iter().reduce(|l, r| table.both(l, r)).expect("two parts or more");
    let kit = ["N", &"NE".repeat(count), &"NE NE".repeat(last - 1), &"NNEE NNEE".repeat(last)].concat();
    let states = ["NAE".repeat(asking), "NE".to_string()].concat().repeat(2 * last);
    LongRun { file: file_of(&table, &[], wanted), records: order(&(kit + &states)) }
}

/// A ladder (`chains::ladder`) and its first records: each state's successor asks for the next rung but one, until that is the lowest
/// row; then the successor has a state.
pub fn first_of_ladder() -> LongRun {
    let records = order(&["N NNEE", &"NAE NNEE".repeat(RUNGS.div_ceil(2)), "NNEE"].concat());
    LongRun { file: ladder(RUNGS, false), records }
}
