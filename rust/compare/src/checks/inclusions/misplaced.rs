//! Refusal 16 (document 02, \[6\]): a kind 7 row serves as an argument, a rule or the wanted row. An answering and a converting function by
//! hand, with the other checks before it, and on random files and drafts in which one place names such a row.

use crate::files::inclusions::with_inclusions;
use crate::files::misplaced::{with_misplaced, Place, PLACES};
use crate::files::parts::{Parts, INCLUSION};
use crate::files::{encode, Row};
use crate::sizes::LONGEST_FILE;
use crate::{random_draft, random_file, random_lent, Answering, Converting, Prng, Shape};
use plain::{Answer, Lent};

const A: Row = [1, 0, 0, 0];
const INCLUDED: Row = [7, 2, 0, 0];

/// What is tried; rows, rules and wanted row; the refusal as a rule file and as a draft, 0 for none.
type Refused = (&'static str, &'static [Row], &'static [u8], u8, [u8; 2]);

const BY_HAND: [Refused; 32] = [
    ("it serves as nothing", &[INCLUDED, A], &[1], 1, [0, 0]),
    ("the last code", &[[7, 31, 31, 0], A], &[1], 1, [0, 0]),
    ("a code and itself, its inverse, another's", &[[7, 4, 4, 0], [7, 4, 5, 0], [7, 4, 7, 0], A], &[], 3, [0, 0]),
    ("the wanted row", &[A, INCLUDED], &[0], 1, [16, 16]),
    ("the wanted row of a table of such rows", &[INCLUDED], &[], 0, [16, 16]),
    ("a rule", &[A, INCLUDED], &[1], 0, [16, 16]),
    ("the last rule", &[A, INCLUDED], &[0, 0, 1], 0, [16, 16]),
    ("left of both", &[A, INCLUDED, [3, 0, 1, 0]], &[], 0, [16, 16]),
    ("right of both", &[A, INCLUDED, [3, 0, 0, 1]], &[], 0, [16, 16]),
    ("left of either", &[A, INCLUDED, [4, 0, 1, 0]], &[], 0, [16, 16]),
    ("right of either", &[A, INCLUDED, [4, 0, 0, 1]], &[], 0, [16, 16]),
    ("the argument of all", &[A, INCLUDED, [5, 0, 1, 0]], &[], 0, [16, 16]),
    ("the argument of some", &[A, INCLUDED, [6, 0, 1, 0]], &[], 0, [16, 16]),
    ("the argument of not", &[A, INCLUDED, [8, 0, 1, 0]], &[], 0, [5, 16]),
    ("left of if", &[A, INCLUDED, [9, 0, 1, 0]], &[], 0, [5, 16]),
    ("right of if", &[A, INCLUDED, [9, 0, 0, 1]], &[], 0, [5, 16]),
    ("its own bytes are codes, not rows", &[A, [7, 1, 1, 0], [7, 0, 0, 0]], &[], 0, [0, 0]),
    ("its left byte is no name", &[A, [7, 0, 32, 0]], &[], 0, [5, 5]),
    ("a role above 31", &[A, [7, 32, 0, 0]], &[], 0, [5, 5]),
    ("right is zero", &[A, [7, 2, 0, 1]], &[], 0, [5, 5]),
    ("check 5 comes first", &[A, INCLUDED, [3, 0, 1, 0], [7, 2, 0, 1]], &[1], 1, [5, 5]),
    ("check 6 comes first", &[A, INCLUDED, [3, 0, 1, 2]], &[1], 1, [6, 6]),
    ("not lower, so 6 although of kind 7", &[A, [6, 0, 2, 0], INCLUDED], &[], 0, [6, 6]),
    ("not lower, on the right", &[A, [4, 0, 0, 2], INCLUDED], &[], 0, [6, 6]),
    ("check 7 comes first", &[A, INCLUDED, INCLUDED], &[1], 1, [7, 7]),
    ("two such rows are the same", &[INCLUDED, A, INCLUDED], &[], 1, [7, 7]),
    ("turned round it is no repeat", &[INCLUDED, A, [7, 3, 1, 0]], &[], 1, [0, 0]),
    ("check 8 comes first: a rule", &[A, INCLUDED, [3, 0, 1, 0]], &[3], 1, [8, 8]),
    ("check 8 comes first: the wanted row", &[A, INCLUDED, [3, 0, 1, 0]], &[1], 3, [8, 8]),
    ("check 8 comes first: of a rule after one that 16 is for", &[A, INCLUDED], &[1, 2], 0, [8, 8]),
    ("a table may begin with two", &[INCLUDED, [7, 0, 1, 0], A, [6, 0, 2, 0]], &[3], 2, [0, 0]),
    ("no name at all: row 1 names what isn't there", &[INCLUDED, [6, 0, 1, 0]], &[], 1, [6, 6]),
];

/// The refusal that a table gets, as a rule file and as a draft; 0 for none.
fn refusals(answer: &mut impl Answering, convert: &mut impl Converting, table: &[u8]) -> [u8; 2] {
    let of_file = match answer(table, &Lent::by_program()) {
        Answer::Refused(number) => number,
        _ => 0,
    };
    [of_file, convert(table, LONGEST_FILE).err().unwrap_or(0)]
}

/// Checks the refusals by hand.
pub fn check_by_hand(mut answer: impl Answering, mut convert: impl Converting) {
    for (what, rows, rules, wanted, expected) in BY_HAND {
        let table = encode(b"hose", rows, rules, wanted);
        assert_eq!(refusals(&mut answer, &mut convert, &table), expected, "{what}");
    }
}

const SHAPE: Shape = Shape { names: 2, roles: 3, compound: 16, rules: 4, text: 8 };
const FILES: usize = 30_000;
/// Each place was tried at least so often.
const OFTEN: usize = 500;

/// Checks random files and drafts in which one place, of one row or of the rest, names a kind 7 row. All else is right: without that they
/// are accepted.
pub fn check_random(mut answer: impl Answering, mut convert: impl Converting) {
    let mut prng = Prng::new(151);
    let mut times = [0; PLACES.len()];
    for round in 0..FILES {
        let is_draft = round % 2 == 0;
        let file = if is_draft { random_draft(&mut prng, SHAPE) } else { random_file(&mut prng, SHAPE) };
        let right = with_inclusions(&mut prng, &file, SHAPE.roles);
        assert!(matches!(convert(&right, LONGEST_FILE), Ok(_) | Err(12)), "{right:02x?}");
        let Some((place, wrong)) = with_misplaced(&mut prng, &right) else { continue };
        times[place] += 1;
        assert_eq!(convert(&wrong, prng.below(2 * LONGEST_FILE)), Err(16), "{:?}: {wrong:02x?}", PLACES[place]);
        let has_not_or_if = Parts::of(&wrong).rows.iter().any(|row| row[0] > INCLUSION);
        let of_file = Answer::Refused(if has_not_or_if { 5 } else { 16 });
        assert_eq!(answer(&wrong, &random_lent(&mut prng)), of_file, "{:?}: {wrong:02x?}", PLACES[place]);
    }
    let counted: Vec<(Place, usize)> = PLACES.into_iter().zip(times).collect();
    println!("places that named a kind 7 row: {counted:?}");
    assert!(times.iter().all(|&times| times >= OFTEN), "{counted:?}");
}
