//! Files whose graphs have long ways, so that a cascade of updates goes far or nests deep; and files with many alternatives.
//!
//! In order: a shift register with feedback, the longest way; a delay line, with more states but shorter ways; a line with a
//! clock, in which updates nest deep; alternatives; a ladder of them, in which puts nest deep; the same for a catalogue.

use super::parts::Parts;
use super::{file_of, Table};
use crate::sizes::NAMES;

/// The two rows that say of a bit that it is not set, or set.
type Bit = [u8; 2];

/// Bits of the register: its contents but zero come in one cycle, since x^7 + x + 1 is primitive.
const BITS: usize = 7;
/// How many contents there are before one comes again.
pub const CONTENTS: usize = (1 << BITS) - 1;
/// The content after the one in which all bits are set; lowest bit first.
const START: [usize; BITS] = [1, 1, 1, 1, 1, 1, 0];
/// Kind 3 rows that every set must be finished for: with these a file has 64 rows.
const PADDING: usize = 16;

/// A shift register: each element has a successor along role 0 that holds the next content. If `forbid`, a run of seven set
/// bits is forbidden. It comes last of all, and "never" goes back state by state to the root, by way of some three thousand
/// nodes in a graph of 3,600.
pub fn shift_register(forbid: bool) -> Vec<u8> {
    let mut table = Table::default();
    let (lowest, second) = (literals(&mut table, 0), literals(&mut table, 1));
    let places = places(&mut table, lowest, second);
    let mut rules = feedback_rules(&mut table, lowest, second, places[BITS]);
    rules.push(table.some(0, rules[0]));
    rules.push(padding(&mut table));
    if forbid {
        rules.push(no_run(&mut table, lowest[0]));
    }
    let bits = (0..BITS).map(|k| places[k][START[k]]).collect::<Vec<u8>>();
    let wanted = bits.into_iter().reduce(|l, r| table.both(l, r)).expect("seven bits");
    file_of(&table, &rules, wanted)
}

fn literals(table: &mut Table, name: u8) -> Bit {
    [table.not_name(name), table.name(name)]
}

/// The bit at each place of the register, and the bit that enters it. A bit goes down one place with each step; at the lowest
/// two places a name tells it.
fn places(table: &mut Table, lowest: Bit, second: Bit) -> Vec<Bit> {
    let next = lowest.map(|bit| table.all(0, bit));
    let mut places = vec![lowest, [0, 1].map(|set| table.both(second[set], next[set]))];
    for k in 1..BITS {
        places.push(places[k].map(|bit| table.all(0, bit)));
    }
    places
}

/// Rules: the bit that enters is the exclusive or of the two lowest bits.
fn feedback_rules(table: &mut Table, lowest: Bit, second: Bit, entering: Bit) -> Vec<u8> {
    let pairs = [(0, 0), (0, 1), (1, 0), (1, 1)];
    let rule = |(a, b): (usize, usize)| {
        let rest = table.either(second[1 - b], entering[a ^ b]);
        table.either(lowest[1 - a], rest)
    };
    pairs.map(rule).to_vec()
}

/// Rule: names that hold anyway, nested so that each set takes many branch nodes to finish.
fn padding(table: &mut Table) -> u8 {
    let (name, last) = (table.name(2), table.name(3));
    (0..PADDING).fold(last, |rest, _| table.both(name, rest))
}

/// Rule: now or at one of the next elements the lowest bit is not set.
fn no_run(table: &mut Table, not_set: u8) -> u8 {
    (1..BITS).fold(not_set, |rest, _| {
        let later = table.all(0, rest);
        table.either(not_set, later)
    })
}

/// The lengths of a delay line.
#[derive(Clone, Copy, Debug)]
pub struct Delay {
    /// Steps along role 0 from a signal's start to its end.
    pub line: usize,
    /// Steps along role 0 from a step without a signal to the place where one may start.
    pub pause: usize,
    /// Steps along role 1 that the end of a signal asks for.
    pub tail: usize,
}

/// A thousand states and more in 4,096 edges.
pub const THOUSAND_STATES: Delay = Delay { line: 11, pause: 6, tail: 36 };

/// Each element has a successor along role 0, and now and then a second one in which a signal starts. A state's set tells
/// where on the line signals are, so there are about as many states as ways to place them. The end of a signal asks for a tail
/// of elements along role 1; if `forbid`, the tail's last element clashes. By then the states are all there and lead to each
/// other, and "never" goes from one to the next through more than half of them.
pub fn delay_line(delay: Delay, forbid: bool) -> Vec<u8> {
    let (step, tail) = (0, 2);
    let mut table = Table::default();
    let (name, not_name) = (table.name(0), table.not_name(0));
    let last = if forbid { not_name } else { name };
    let end = (0..delay.tail).fold(last, |row, _| table.some(tail, row));
    let signal = (0..delay.line).fold(end, |row, _| table.all(step, row));
    let start = table.some(step, signal);
    let pause = (0..delay.pause).fold(start, |row, _| table.all(step, row));
    let next = table.some(step, pause);
    file_of(&table, &[next, name], name)
}

/// The lengths of a clocked line.
#[derive(Clone, Copy, Debug)]
pub struct Clock {
    /// Steps from one tick to the next: the last goes along role 1, the others along role 0.
    pub period: usize,
    /// Steps from a signal's start to its end.
    pub line: usize,
    /// Steps along role 2 that the end of a signal asks for.
    pub tail: usize,
}

/// 706 nested updates; a search among irregular lines found no more than 712. Each takes a state with two special nodes, and
/// they take four edges; so in 4,096 edges there cannot be more than 1,024.
pub const DEEPEST: Clock = Clock { period: 6, line: 41, tail: 2 };

/// A line on which a signal may start with each tick of a clock. Each element asks twice for its successor along role 0, so two
/// special nodes are linked to the same state, and an update of the first nests. A step along role 1 starts the clock anew;
/// when it ticks, there are two successors along that role, one of them with a new signal. Signals go on in time with the clock
/// alone, so a state's set tells the time and which ticks started one: `period` times two to the power of the ticks on the line.
/// The end of a signal asks for a tail; if `forbid`, the tail's last element clashes. By then the states are all there, and
/// "never" goes through nearly all of them without coming back.
pub fn clocked_line(clock: Clock, forbid: bool) -> Vec<u8> {
    let (step, tick, tail) = (0, 2, 4);
    let mut table = Table::default();
    let (name, not_name) = (table.name(0), table.not_name(0));
    let once = table.some(step, name);
    let twice = table.some(step, once);
    let last = if forbid { not_name } else { name };
    let end = (0..clock.tail).fold(last, |row, _| table.some(tail, row));
    let signal = (0..clock.line).rev().fold(end, |row, before| {
        let ticks = before % clock.period == clock.period - 1;
        table.all(if ticks { tick } else { step }, row)
    });
    let mut at_tick = |row| {
        let successor = table.some(tick, row);
        (1..clock.period).fold(successor, |row, _| table.all(step, row))
    };
    let (with, without) = (at_tick(signal), at_tick(name));
    file_of(&table, &[name, once, twice, with, without], name)
}

/// An element with so many successors along role 0, each of which asks for another name where it comes from. Each name is an
/// alternative of every state that lacks it, so there is a state for each set of names.
pub fn alternatives(names: u8) -> Vec<u8> {
    let (forward, inverse) = (0, 1);
    let mut table = Table::default();
    let successors: Vec<u8> = (0..names)
        .map(|name| {
            let name = table.name(name);
            let all = table.all(inverse, name);
            table.some(forward, all)
        })
        .collect();
    let wanted = successors.into_iter().reduce(|l, r| table.both(l, r)).expect("one name or more");
    file_of(&table, &[], wanted)
}

/// The rungs of a ladder that has 64 rows: 32 nested puts.
pub const RUNGS: usize = 61;
/// The same if it is climbed again: 55 nested puts. Each adds a row, so there cannot be more than 64.
pub const RUNGS_AGAIN: usize = 59;

/// A ladder: rows "all" along role 0 and its inverse by turns, each about the next lower one. Every element has the top row and
/// a successor along role 0, which asks for one rung more where it comes from; so each state is small and has one alternative,
/// the next state. Where a set from the top is put when those below are small already, each put nests in the one before.
///
/// If `again`, the lowest rung is a successor along the inverse, which asks for the other rungs in the same way, and first for
/// a successor along role 1. That one has the top row only and climbs all the way, but 4,096 edges do not suffice.
pub fn ladder(rungs: usize, again: bool) -> Vec<u8> {
    let (forward, inverse, other) = (0, 1, 2);
    let mut table = Table::default();
    let name = table.name(0);
    let successor = table.some(forward, name);
    let lowest = if again {
        let from_top = table.some(other, name);
        let asks = table.all(forward, from_top);
        table.some(inverse, asks)
    } else {
        table.name(1)
    };
    let top =
        (0..rungs).rev().fold(lowest, |row, above| table.all(if above % 2 == 0 { inverse } else { forward }, row));
    file_of(&table, &[name, successor, top], name)
}

/// The rungs of a ladder that has 64 rows [`with_other_name`]: 30 nested puts.
pub const RUNGS_OF_KINDS: usize = RUNGS - 3;
/// A name that no clocked line and no ladder has.
pub const OTHER_NAME: u8 = NAMES - 1;

/// A clocked line or a ladder with both rows of name 0, which everything has by a rule, and of another name, so that a catalogue lists
/// these two. Whether every 0 is one of the others takes a run as deep as the file's own.
pub fn with_other_name(file: &[u8]) -> Vec<u8> {
    let mut parts = Parts::of(file);
    for row in [[2, 0, 0, 0], [1, 0, OTHER_NAME, 0], [2, 0, OTHER_NAME, 0]] {
        if !parts.rows.contains(&row) {
            parts.rows.push(row);
        }
    }
    parts.bytes()
}
