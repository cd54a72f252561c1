//! What the elements of an example list (document 02, \[2\]): an answering function against examples by hand and against the meaning
//! of ALCI over the world of each example.

use crate::counts::listings::ListingCounts;
use crate::files::{encode, Row};
use crate::{check_example, one_line, random_file, whole_answer, Answering, Prng, Shape};
use plain::{text, Lent, Used};

/// What is tried; rows, rules and wanted row; what is printed.
type Listing = (&'static str, &'static [Row], &'static [u8], u8, &'static str);

/// By hand from documents 01 and 02.
const LISTINGS: [Listing; 9] = [
    (
        "the eight-node run: nothing leads back to element 0, so row 1 holds there",
        &[[1, 0, 0, 0], [5, 1, 0, 0], [6, 0, 1, 0]],
        &[],
        2,
        "CAN 2 1;USED 8 7 1;E 0 0000000000000007;E 1 0000000000000002;L 0 0 1",
    ),
    (
        "rows that nothing needs: either holds, both does not",
        &[[1, 0, 0, 0], [1, 0, 1, 0], [3, 0, 0, 1], [4, 0, 1, 0]],
        &[],
        0,
        "CAN 1 0;USED 3 2 0;E 0 0000000000000009",
    ),
    (
        "a role that leads nowhere: all holds, some does not",
        &[[1, 0, 0, 0], [2, 0, 0, 0], [5, 30, 1, 0], [6, 30, 0, 0], [5, 31, 1, 0]],
        &[],
        0,
        "CAN 1 0;USED 3 2 0;E 0 0000000000000015",
    ),
    (
        "a name with a kind 2 row only: it holds nowhere, so the row does everywhere",
        &[[1, 0, 0, 0], [2, 0, 1, 0], [6, 0, 0, 0]],
        &[],
        2,
        "CAN 2 1;USED 5 4 0;E 0 0000000000000006;E 1 0000000000000003;L 0 0 1",
    ),
    (
        "a link to itself leads both ways",
        &[[1, 0, 0, 0], [6, 0, 0, 0], [6, 1, 0, 0], [5, 0, 0, 0], [5, 1, 0, 0], [6, 2, 0, 0]],
        &[1],
        0,
        "CAN 1 1;USED 4 4 0;E 0 000000000000001f;L 0 0 0",
    ),
    (
        "a link is followed backwards: element 1 has row 3 and lacks row 4",
        &[[1, 0, 0, 0], [1, 0, 1, 0], [6, 0, 1, 0], [6, 1, 0, 0], [5, 1, 1, 0], [3, 0, 0, 2]],
        &[],
        5,
        "CAN 2 1;USED 6 5 0;E 0 0000000000000035;E 1 000000000000000a;L 0 0 1",
    ),
    (
        "a link of an odd code",
        &[[1, 0, 0, 0], [1, 0, 1, 0], [6, 7, 1, 0], [6, 6, 0, 0], [5, 6, 1, 0], [3, 0, 0, 2]],
        &[],
        5,
        "CAN 2 1;USED 6 5 0;E 0 0000000000000035;E 1 000000000000000a;L 0 7 1",
    ),
    (
        "all asks every element, some asks one",
        &[
            [1, 0, 0, 0],
            [1, 0, 1, 0],
            [6, 0, 0, 0],
            [6, 0, 1, 0],
            [3, 0, 2, 3],
            [5, 0, 0, 0],
            [4, 0, 0, 1],
            [5, 0, 6, 0],
        ],
        &[],
        4,
        "CAN 3 2;USED 8 7 0;E 0 000000000000009c;E 1 00000000000000e1;E 2 00000000000000e2;L 0 0 1;L 0 0 2",
    ),
    (
        "a row about a row that was not placed",
        &[[1, 0, 0, 0], [2, 0, 0, 0], [6, 0, 0, 0], [5, 0, 2, 0], [6, 1, 1, 0], [5, 0, 4, 0]],
        &[],
        2,
        "CAN 2 1;USED 5 4 0;E 0 0000000000000026;E 1 0000000000000039;L 0 0 1",
    ),
];

/// Checks the examples by hand.
pub fn check_listings_by_hand(mut answer: impl Answering) {
    for (what, rows, rules, wanted, expected) in LISTINGS {
        let file = encode(b"", rows, rules, wanted);
        assert_eq!(one_line(&answer(&file, &Lent::by_program())), expected, "{what}");
    }
}

/// Small files, and some of up to 64 rows.
const SHAPES: [(Shape, usize); 4] = [
    (Shape { names: 1, roles: 1, compound: 20, rules: 3, text: 8 }, 12_000),
    (Shape { names: 2, roles: 1, compound: 12, rules: 2, text: 8 }, 12_000),
    (Shape { names: 3, roles: 2, compound: 24, rules: 4, text: 8 }, 12_000),
    (Shape { names: 6, roles: 3, compound: 52, rules: 8, text: 8 }, 3_000),
];

/// Each case happened in at least so many examples. Of some 31,000 examples the rarest, a link told twice, came in 411.
const OFTEN: usize = 300;

/// Checks what random files' examples list, prints how often things happened and fails if one of them was rare.
pub fn check_random_listings(mut answer: impl Answering) {
    let lent = Lent::just(Used { nodes: 400, edges: 600, alternatives: 100 }, 2, 2);
    let mut counts = ListingCounts::default();
    for (seed, (shape, files)) in SHAPES.into_iter().enumerate() {
        let mut prng = Prng::new(81 + seed as u64);
        for _ in 0..files {
            let mut file = random_file(&mut prng, shape);
            if prng.below(4) == 0 {
                lone_negations(&mut file);
            }
            let first = answer(&file, &lent);
            let whole = whole_answer(&mut answer, &file, &lent, first);
            check_example(&file, &whole);
            counts.count(&file, &whole);
        }
    }
    counts.assert_often(OFTEN);
}

/// Turns row 0, name 0 of a random file, into "not name 63". Then neither that name nor name 0, whose negation is row 1, has a kind
/// 1 row.
fn lone_negations(file: &mut [u8]) {
    let row = text(file).len();
    assert_eq!(file[row..row + 8], [1, 0, 0, 0, 2, 0, 0, 0], "a random file begins with a name and its negation");
    (file[row], file[row + 2]) = (2, 63);
}
