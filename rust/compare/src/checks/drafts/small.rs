//! Small drafts with what becomes of them, by hand from document 02, \[1\].

use crate::files::{encode, Row};
use crate::Converting;

/// Rows, rules and wanted row, of a draft or of a rule file.
type Rows = (&'static [Row], &'static [u8], u8);

const A: Row = [1, 0, 0, 0];
const NOT_A: Row = [2, 0, 0, 0];
const B: Row = [1, 0, 1, 0];
const NOT_B: Row = [2, 0, 1, 0];

/// What is tried, the draft and what becomes of it.
const SMALL_DRAFTS: [(&str, Rows, Rows); 16] = [
    ("not a name", (&[A, [8, 0, 0, 0]], &[], 1), (&[NOT_A], &[], 0)),
    ("not a not-name", (&[NOT_A, [8, 0, 0, 0]], &[], 1), (&[A], &[], 0)),
    ("not not a name", (&[A, [8, 0, 0, 0], [8, 0, 1, 0]], &[2], 0), (&[A], &[0], 0)),
    ("not both", (&[A, B, [3, 0, 0, 1], [8, 0, 2, 0]], &[], 3), (&[NOT_A, NOT_B, [4, 0, 0, 1]], &[], 2)),
    ("not either", (&[A, B, [4, 0, 0, 1], [8, 0, 2, 0]], &[], 3), (&[NOT_A, NOT_B, [3, 0, 0, 1]], &[], 2)),
    ("not all", (&[A, [5, 31, 0, 0], [8, 0, 1, 0]], &[], 2), (&[NOT_A, [6, 31, 0, 0]], &[], 1)),
    ("not some", (&[A, [6, 7, 0, 0], [8, 0, 1, 0]], &[], 2), (&[NOT_A, [5, 7, 0, 0]], &[], 1)),
    ("if", (&[A, B, [9, 0, 0, 1]], &[], 2), (&[NOT_A, B, [4, 0, 0, 1]], &[], 2)),
    ("not if", (&[A, B, [9, 0, 0, 1], [8, 0, 2, 0]], &[], 3), (&[A, NOT_B, [3, 0, 0, 1]], &[], 2)),
    ("left before right", (&[A, B, [3, 0, 1, 0]], &[], 2), (&[B, A, [3, 0, 0, 1]], &[], 2)),
    (
        "two orders are two rows",
        (&[A, B, [3, 0, 0, 1], [3, 0, 1, 0]], &[2], 3),
        (&[A, B, [3, 0, 0, 1], [3, 0, 1, 0]], &[2], 3),
    ),
    ("equal arguments stay", (&[A, [4, 0, 0, 0]], &[], 1), (&[A, [4, 0, 0, 0]], &[], 1)),
    ("an opposite is a row that is there", (&[A, NOT_A, [8, 0, 0, 0]], &[2], 1), (&[NOT_A], &[0], 0)),
    ("two become one", (&[A, B, [9, 0, 0, 1], NOT_A, [4, 0, 3, 1]], &[2], 4), (&[NOT_A, B, [4, 0, 0, 1]], &[2], 2)),
    ("rules in their order, repeats too", (&[A, B, NOT_A], &[1, 2, 1], 0), (&[B, NOT_A, A], &[0, 1, 0], 2)),
    ("rows without need go", (&[A, B, [6, 0, 1, 0], [8, 0, 2, 0]], &[], 0), (&[A], &[], 0)),
];

/// Checks what becomes of the small drafts. Without "not" and "if" a draft is converted like any other.
pub fn check_small_drafts(mut convert: impl Converting) {
    for (what, draft, result) in SMALL_DRAFTS {
        let [draft, file] = [draft, result].map(|(rows, rules, wanted)| encode(b"hose", rows, rules, wanted));
        assert_eq!(convert(&draft, file.len()).as_ref(), Ok(&file), "{what}");
        assert_eq!(convert(&draft, file.len() - 1), Err(12), "{what}");
    }
}
