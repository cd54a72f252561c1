//! Lists of wanted rows in place of a file's own (document 02, \[7\]): an answering function against small files by hand, the plain program
//! and the meaning of ALCI.
//!
//! In order: small files; random files and lists.

use super::judging::check_judged;
use super::small_worlds::check_found;
use crate::counts::wanted::{Asked, WantedCounts};
use crate::files::lent::random_areas;
use crate::files::parts::INCLUSION;
use crate::files::wanted::random_question;
use crate::files::{encode, Row};
use crate::{one_line, random_lent, whole_answer, Answering, AnsweringWanted, Prng, Shape};
use plain::{answer_wanting, Lent};
use worlds::Ontology;

// ---- small files

const NAME: Row = [1, 0, 0, 0];
const NOT_NAME: Row = [2, 0, 0, 0];
const OF_ROLES: Row = [INCLUSION, 0, 2, 0];
const EIGHT_NODES: [Row; 3] = [NAME, [5, 1, 0, 0], [6, 0, 1, 0]];

/// Rows, rules, the list, and what is printed. The file's own wanted row is no row.
type ByHand<'a> = (&'a [Row], &'a [u8], &'a [u8], &'a str);

const BY_HAND: [ByHand; 17] = [
    // Without a wanted row the rules alone are put: any element is a member. Where no name holds, its negation does.
    (&[NAME, NOT_NAME], &[], &[], "CAN 1 0;USED 3 2 0;E 0 0000000000000002"),
    (&[NAME, NOT_NAME], &[0], &[], "CAN 1 0;USED 3 2 0;E 0 0000000000000001"),
    (&[NAME, NOT_NAME], &[0, 1], &[], "CANNOT;USED 2 1 0"),
    (&[NAME, NOT_NAME], &[], &[0], "CAN 1 0;USED 3 2 0;E 0 0000000000000001"),
    (&[NAME, NOT_NAME], &[], &[1], "CAN 1 0;USED 3 2 0;E 0 0000000000000002"),
    (&[NAME, NOT_NAME], &[], &[0, 1], "CANNOT;USED 2 1 0"),
    (&[NAME, NOT_NAME], &[], &[1, 1, 0, 1], "CANNOT;USED 2 1 0"),
    (&[NAME, NOT_NAME], &[], &[0, 2], "REFUSED 8"),
    (&[NAME, NOT_NAME], &[], &[255, 0], "REFUSED 8"),
    (&[NAME, OF_ROLES], &[], &[0, 1], "REFUSED 16"),
    (&[NAME, OF_ROLES], &[], &[1, 2], "REFUSED 8"),
    // A table of kind 7 rows only, of which none can be wanted.
    (&[OF_ROLES], &[], &[], "CAN 1 0;USED 3 2 0;E 0 0000000000000000"),
    (&[OF_ROLES], &[], &[0], "REFUSED 16"),
    // With row 0 the eight-node run has at once what else the alternative brings.
    (&EIGHT_NODES, &[], &[2], "CAN 2 1;USED 8 7 1;E 0 0000000000000007;E 1 0000000000000002;L 0 0 1"),
    (&EIGHT_NODES, &[], &[2, 0], "CAN 2 1;USED 5 4 0;E 0 0000000000000007;E 1 0000000000000002;L 0 0 1"),
    (&EIGHT_NODES, &[], &[0, 1, 2, 2, 1, 0], "CAN 2 1;USED 5 4 0;E 0 0000000000000007;E 1 0000000000000002;L 0 0 1"),
    // The rule alone. Nodes: root, {2} and its state, {1, 2} which asks for 0; {0, 2} and its state, {1, 2} and its state, which asks for 0 of
    // itself; {0, 1, 2} and its state, {1, 2} again and under it {0, 1, 2} again.
    (&EIGHT_NODES, &[2], &[], "CAN 2 2;USED 13 14 2;E 0 0000000000000007;E 1 0000000000000007;L 0 0 1;L 1 0 1"),
];

/// Checks that lists of tens of thousands are as good as short ones, whatever comes last.
pub fn check_long_lists(mut wanted: impl AnsweringWanted) {
    let file = encode(b"", &EIGHT_NODES, &[], 0);
    let mut answer = |list: &[u8]| wanted(&file, list, &Lent::by_program());
    for last in 0..=EIGHT_NODES.len() as u8 {
        let mut list = vec![2; 70_000];
        list.push(last);
        assert_eq!(answer(&list), answer(&[2, last]), "{last}");
    }
}

/// Checks the answers to small files with what is printed for each.
pub fn check_by_hand(mut wanted: impl AnsweringWanted) {
    for (rows, rules, list, printed) in BY_HAND {
        let file = encode(b"", rows, rules, rows.len() as u8);
        let answer = wanted(&file, list, &Lent::by_program());
        assert_eq!(one_line(&answer), printed, "{rows:?}, rules {rules:?}, wanted {list:?}");
        check_judged(&file, Ontology::decode_wanting(&file, list).as_ref(), &answer);
    }
}

// ---- random files and lists

const SHAPES: [(Shape, usize); 4] = [
    (Shape { names: 1, roles: 1, compound: 6, rules: 2, text: 8 }, 8_000),
    (Shape { names: 2, roles: 1, compound: 10, rules: 3, text: 8 }, 12_000),
    (Shape { names: 2, roles: 2, compound: 12, rules: 3, text: 8 }, 12_000),
    (Shape { names: 3, roles: 3, compound: 20, rules: 4, text: 8 }, 8_000),
];

/// Each case happened at least so often.
const OFTEN: usize = 50;

/// Checks the answers to random and damaged files with random lists, prints how often things happened and fails if one of them was rare.
pub fn check_random_lists(mut fit: impl Answering, mut wanted: impl AnsweringWanted) {
    let mut counts = WantedCounts::default();
    for (seed, (shape, files)) in SHAPES.into_iter().enumerate() {
        let mut prng = Prng::new(171 + seed as u64);
        for _ in 0..files {
            let (file, list) = random_question(&mut prng, shape);
            let lent = if prng.below(3) == 0 { random_lent(&mut prng) } else { random_areas(&mut prng) };
            let (answer, of_file) = (wanted(&file, &list, &lent), fit(&file, &lent));
            let asked = Asked { file: &file, list: &list, lent: &lent, answer, of_file };
            check(&asked, &mut wanted);
            check_other_lists(&asked, &mut wanted, &mut prng);
            counts.count(&asked);
        }
    }
    counts.assert_often(OFTEN);
}

/// The answer is the plain program's and true: of the list as of one wanted row, element 0 of an example being a member of all.
fn check(asked: &Asked, wanted: &mut impl AnsweringWanted) {
    let Asked { file, list, lent, ref answer, .. } = *asked;
    assert_eq!(*answer, answer_wanting(file, list, lent), "{file:02x?} wanting {list:?} in {lent:?}");
    let ontology = Ontology::decode_wanting(file, list);
    let whole = whole_answer(&mut |file: &[u8], lent: &Lent| wanted(file, list, lent), file, lent, answer.clone());
    check_judged(file, ontology.as_ref(), &whole);
    if let Some(ontology) = ontology {
        check_found(file, &ontology, &whole);
    }
}

/// In another order and with repeats the list gets the same answer; and the file's one row gets that of the file itself.
fn check_other_lists(asked: &Asked, wanted: &mut impl AnsweringWanted, prng: &mut Prng) {
    let Asked { file, list, lent, ref answer, ref of_file } = *asked;
    let mut other = list.to_vec();
    for _ in 0..list.len().min(6) {
        let (from, to) = (prng.below(list.len()), prng.below(list.len()));
        other.swap(from, to);
        other.insert(prng.below(other.len()), list[from]);
    }
    assert_eq!(wanted(file, &other, lent), *answer, "{file:02x?} wanting {other:?} and {list:?} in {lent:?}");
    let own: Vec<u8> = file.iter().rev().nth(3).into_iter().copied().collect();
    assert_eq!(wanted(file, &own, lent), *of_file, "{file:02x?} in {lent:?}");
}
