//! Short runs with the order of their records, by hand from document 01's text; the last was found by a search.

use super::stops::check_order;
use crate::files::orders::order;
use crate::files::{encode, Row};
use crate::{one_line, Answering};

/// What is tried; rows, rules and wanted row; the records in their order; what is printed.
struct Run {
    what: &'static str,
    rows: &'static [Row],
    rules: &'static [u8],
    wanted: u8,
    records: &'static str,
    verdict: &'static str,
}

/// The root is the first record. A put takes NE for a branch or a clash, NAE for a special node that asks for more above, NNEE for
/// one with a new state, NEE for one whose state is there; what its judging puts comes before the last E.
const RUNS: [Run; 5] = [
    Run {
        what: "the eight-node run: the root; special node 1, state 2; lapsed node 3 with its alternative; under node 1, whose state \
               is small, special node 4 with state 5; special node 6 with state 7",
        rows: &[[1, 0, 0, 0], [5, 1, 0, 0], [6, 0, 1, 0]],
        rules: &[],
        wanted: 2,
        records: "N NNEE NAE NNEE NNEE",
        verdict: "CAN 2 1;USED 8 7 1;E 0 0000000000000007;E 1 0000000000000002;L 0 0 1",
    },
    Run {
        what: "an alternative that is a repeat: rows 1 and 3 both ask for row 0 in the state of rows 2, 4, 5, and the second \
               special node needs no record for it",
        rows: &[[1, 0, 0, 0], [5, 1, 0, 0], [6, 0, 1, 0], [5, 3, 0, 0], [6, 2, 3, 0], [3, 0, 2, 4]],
        rules: &[],
        wanted: 5,
        records: "N NE NNEE NAE NE NNEE NNEE NNEE",
        verdict: "CAN 3 2;USED 12 11 1;E 0 000000000000003f;E 1 000000000000000a;E 2 000000000000000a;L 0 0 1;L 0 2 2",
    },
    Run {
        what: "an alternative after its state is settled: row 5 asks for row 0 and makes the state small while row 3 is a branch \
               still; what that asks for then, row 1, needs no record. In the next state row 3 asks first, and it does",
        rows: &[
            [1, 0, 0, 0],
            [1, 0, 1, 0],
            [5, 1, 1, 0],
            [3, 0, 2, 2],
            [6, 0, 3, 0],
            [5, 3, 0, 0],
            [6, 2, 5, 0],
            [3, 0, 4, 6],
        ],
        rules: &[],
        wanted: 7,
        records: "N NE NNEE NE NAE NNEE NE NE NNEE NAE NNEE NE NEE NNEE",
        verdict: "CAN 3 2;USED 19 19 2;E 0 00000000000000ff;E 1 000000000000002c;E 2 000000000000002c;L 0 0 1;L 0 2 2",
    },
    Run {
        what: "updates run to their end: state 2 is small, and its parents are special nodes 1 and 4. The alternative clashes under \
               node 1, which settles the root, and then it is put under node 4 too",
        rows: &[[1, 0, 0, 0], [2, 0, 0, 0], [5, 0, 1, 0], [6, 1, 2, 0], [6, 0, 3, 0]],
        rules: &[4, 0, 3],
        wanted: 4,
        records: "N NNEE NAE NEE NE NE",
        verdict: "CANNOT;USED 7 7 1",
    },
    Run {
        what: "the same with an alternative among the records after the root is settled (NAE NE NE), and a put within a put (NE NEE E)",
        rows: &[
            [1, 0, 1, 0],
            [2, 0, 1, 0],
            [5, 3, 1, 0],
            [5, 3, 2, 0],
            [6, 2, 3, 0],
            [5, 0, 4, 0],
            [6, 1, 5, 0],
        ],
        rules: &[0, 4],
        wanted: 6,
        records: "N NNEE NAE NNEE NNEE NAE NNEE NNEE NE NEE E NEE NAE NAE NE NAE NE NE",
        verdict: "CANNOT;USED 22 24 5",
    },
];

/// Each run, stopped before each of its records.
pub fn check_record_order(mut answer: impl Answering) {
    for run in RUNS {
        let file = encode(b"", run.rows, run.rules, run.wanted);
        let whole = check_order(&mut answer, &file, &order(run.records));
        assert_eq!(one_line(&whole), run.verdict, "{}", run.what);
    }
}
