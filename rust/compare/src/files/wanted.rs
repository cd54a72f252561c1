//! Random files with lists of wanted rows in place of their own (document 02, \[7\]).

use super::inclusions::with_inclusions;
use super::parts::{Parts, INCLUSION};
use super::random::{damage, random_bytes, random_file, Prng, Shape};
use super::Row;

/// A file and a list. Every other file has kind 7 rows. Of some the own wanted row is no row or of kind 7, and some are damaged or random
/// bytes.
pub fn random_question(prng: &mut Prng, shape: Shape) -> (Vec<u8>, Vec<u8>) {
    let mut file = random_file(prng, shape);
    if prng.below(2) == 0 {
        file = with_inclusions(prng, &file, shape.roles);
    }
    let mut parts = Parts::of(&file);
    let list = random_list(prng, &parts.rows);
    if prng.below(6) == 0 {
        parts.wanted = no_member(prng, &parts.rows);
    }
    let mut file = parts.bytes();
    match prng.below(6) {
        0 => file = random_bytes(prng),
        1 => damage(prng, &mut file),
        _ => (),
    }
    (file, list)
}

/// None, one, some, with repeats, or hundreds of the rows that speak of elements; some lists with one that doesn't.
fn random_list(prng: &mut Prng, rows: &[Row]) -> Vec<u8> {
    let members: Vec<u8> = (0..rows.len()).filter(|&row| rows[row][0] != INCLUSION).map(|row| row as u8).collect();
    let (distinct, length) = match prng.below(16) {
        0..2 => (1, 0),
        2..4 => (1, 1),
        4..9 => (4, 2 + prng.below(3)),
        9..12 => (3, 2 + prng.below(8)),
        12 => (4, 100 + prng.below(200)),
        13 => (members.len(), 2 + prng.below(20)),
        _ => (2, 1 + prng.below(3)),
    };
    let some: Vec<u8> = (0..distinct).map(|_| members[prng.below(members.len())]).collect();
    let mut list: Vec<u8> = (0..length).map(|_| some[prng.below(distinct)]).collect();
    if prng.below(8) == 0 {
        list.insert(prng.below(list.len() + 1), no_member(prng, rows));
    }
    list
}

/// A row of kind 7, if there is one, or the number of no row.
fn no_member(prng: &mut Prng, rows: &[Row]) -> u8 {
    let inclusions: Vec<usize> = (0..rows.len()).filter(|&row| rows[row][0] == INCLUSION).collect();
    match prng.below(3) {
        0 => rows.len() as u8,
        1 if !inclusions.is_empty() => inclusions[prng.below(inclusions.len())] as u8,
        _ => rows.len() as u8 + prng.byte_below(256 - rows.len()),
    }
}
