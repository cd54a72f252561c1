//! Kind 7 rows (document 02, \[6\]).
//!
//! In order: a file or draft with such rows among its own; such rows at random, and in one long chain; which code is narrower than which,
//! found by going from row to row.

use super::parts::{Parts, INCLUSION};
use super::random::Prng;
use super::Row;
use crate::sizes::{CODES, LONGEST_FILE, MOST_ROWS};
use std::ops::Range;

/// The code of the same role the other way.
pub fn turned(code: u8) -> u8 {
    code ^ 1
}

/// The same file or draft with kind 7 rows over these roles among its own, half as many as these or fewer: about a third of its rows then. Its
/// text is cut if it would be longer than a file can be.
pub fn with_inclusions(prng: &mut Prng, file: &[u8], roles: usize) -> Vec<u8> {
    let parts = Parts::of(file);
    let most = parts.rows.len().div_ceil(2).min(MOST_ROWS - parts.rows.len());
    let inclusions = random_inclusions(prng, roles, most);
    let mut parts = parts.among(prng, &inclusions);
    let excess = parts.bytes().len().saturating_sub(LONGEST_FILE);
    parts.text.truncate(parts.text.len() - excess);
    parts.bytes()
}

/// Up to so many kind 7 rows over these roles, no two equal, in no order: chains and circles whose rows are turned round here and there,
/// roles narrower than their own inverse or than themselves, and any two codes.
pub fn random_inclusions(prng: &mut Prng, roles: usize, most: usize) -> Vec<Row> {
    let mut rows: Vec<Row> = Vec::new();
    for _ in 0..4 * most {
        for [narrow, wide] in random_pattern(prng, 2 * roles) {
            let row = [INCLUSION, narrow, wide, 0];
            if rows.len() < most && !rows.contains(&row) {
                rows.insert(prng.below(rows.len() + 1), row);
            }
        }
    }
    rows
}

fn random_pattern(prng: &mut Prng, codes: usize) -> Vec<[u8; 2]> {
    let code = prng.byte_below(codes);
    match prng.below(8) {
        0..3 => random_chain(prng, codes, false),
        3 => random_chain(prng, codes, true),
        4 => vec![[code, turned(code)]],
        5 => vec![[code, code]],
        _ => vec![[code, prng.byte_below(codes)]],
    }
}

/// Three to five codes, each narrower than the next, in a circle the last than the first. A row says so of two of them, or of both turned
/// round.
fn random_chain(prng: &mut Prng, codes: usize, is_circle: bool) -> Vec<[u8; 2]> {
    let mut chain: Vec<u8> = (0..3 + prng.below(3)).map(|_| prng.byte_below(codes)).collect();
    if is_circle {
        chain.push(chain[0]);
    }
    let said = |pair: &[u8]| match prng.below(2) {
        0 => [pair[0], pair[1]],
        _ => [turned(pair[0]), turned(pair[1])],
    };
    chain.windows(2).map(said).collect()
}

/// So many kind 7 rows in one long chain of these roles, of which every third is taken backwards. Each step is said twice, once turned round;
/// where more rows are asked for, so are steps of two, of three and so on.
pub fn long_chain(roles: Range<u8>, count: usize) -> Vec<Row> {
    let chain: Vec<u8> = roles.map(|role| 2 * role + u8::from(role % 3 == 0)).collect();
    let steps = (1..chain.len()).flat_map(|by| (by..chain.len()).map(move |k| (k - by, k)));
    let both_ways = |(narrow, wide): (usize, usize)| {
        let (narrow, wide) = (chain[narrow], chain[wide]);
        [[INCLUSION, narrow, wide, 0], [INCLUSION, turned(narrow), turned(wide), 0]]
    };
    steps.flat_map(both_ways).take(count).collect()
}

/// How far rows are followed.
#[derive(Clone, Copy, PartialEq, Eq)]
pub enum Follow {
    /// From row to row, each as it is or turned round: what narrower means.
    All,
    /// One row only, as it is or turned round.
    One,
    /// From row to row, each as it is.
    Unturned,
}

/// For each code the codes that are wider or equal, by the kind 7 rows among these.
pub struct Wider([Vec<u8>; CODES as usize]);

impl Wider {
    pub fn of(rows: &[Row], follow: Follow) -> Wider {
        Wider(std::array::from_fn(|code| reached(rows, code as u8, follow)))
    }

    /// Is the one code narrower than the other, or equal?
    pub fn has(&self, narrow: u8, wide: u8) -> bool {
        self.0[usize::from(narrow)].contains(&wide)
    }
}

/// The codes that rows lead to from a code.
fn reached(rows: &[Row], from: u8, follow: Follow) -> Vec<u8> {
    let mut met = vec![from];
    let mut next = 0;
    while next < met.len() {
        let code = met[next];
        let steps = rows.iter().filter(|row| row[0] == INCLUSION).flat_map(|&[_, narrow, wide, _]| {
            let turned_row = (turned(narrow) == code && follow != Follow::Unturned).then(|| turned(wide));
            [(narrow == code).then_some(wide), turned_row].into_iter().flatten()
        });
        let new: Vec<u8> = steps.filter(|step| !met.contains(step)).collect();
        met.extend(new);
        next += 1;
        if follow == Follow::One {
            break;
        }
    }
    met
}
