//! Narrower roles (document 02, \[6\]): an answering function on small files by hand, on every single kind 7 row against all pairs of "some"
//! and "all", on the longest chain, and on the root's put. What is narrower is told here for each of them by hand.

use crate::files::inclusions::turned;
use crate::files::{encode, file_of, table_of, Row, Table};
use crate::sizes::CODES;
use crate::{check_example, one_line, Answering, Prng};
use plain::{Answer, Lent, RowSet, Used};
use std::ops::Range;

/// What is tried; rows, rules and wanted row; what is printed.
type Listing = (&'static str, &'static [Row], &'static [u8], u8, &'static str);

const A: Row = [1, 0, 0, 0];
const NOT_A: Row = [2, 0, 0, 0];

/// By hand from documents 01 and 02. Role 0 is "fitted", role 1 "screwed", role 2 "glued"; an odd code is the way back.
const BY_HAND: [Listing; 12] = [
    (
        "all that is fitted is not A, and some A is screwed",
        &[[7, 2, 0, 0], A, NOT_A, [6, 2, 1, 0], [5, 0, 2, 0], [3, 0, 3, 4]],
        &[],
        5,
        "CANNOT;USED 5 4 0",
    ),
    (
        "all that is screwed is not A, and some A is fitted: not the other way",
        &[[7, 2, 0, 0], A, NOT_A, [6, 0, 1, 0], [5, 2, 2, 0], [3, 0, 3, 4]],
        &[],
        5,
        "CAN 2 1;USED 6 5 0;E 0 000000000000003c;E 1 0000000000000012;L 0 0 1",
    ),
    (
        "what is screwed asks A of all that it is fitted to",
        &[[7, 2, 0, 0], A, [5, 1, 1, 0], [6, 2, 2, 0]],
        &[],
        3,
        "CAN 2 1;USED 8 7 1;E 0 000000000000000e;E 1 0000000000000004;L 0 2 1",
    ),
    (
        "what is fitted asks nothing of what it is not screwed to",
        &[[7, 2, 0, 0], A, [5, 3, 1, 0], [6, 0, 2, 0]],
        &[],
        3,
        "CAN 2 1;USED 5 4 0;E 0 000000000000000c;E 1 0000000000000004;L 0 0 1",
    ),
    (
        "glued is screwed is fitted: rows chain, in either order",
        &[[7, 2, 0, 0], [7, 4, 2, 0], A, NOT_A, [6, 4, 2, 0], [5, 0, 3, 0], [3, 0, 4, 5]],
        &[],
        6,
        "CANNOT;USED 5 4 0",
    ),
    (
        "the same with one row turned round",
        &[[7, 5, 3, 0], [7, 2, 0, 0], A, NOT_A, [6, 4, 2, 0], [5, 0, 3, 0], [3, 0, 4, 5]],
        &[],
        6,
        "CANNOT;USED 5 4 0",
    ),
    (
        "a symmetric role: what is fitted has it fitted to it",
        &[A, [7, 0, 1, 0], NOT_A, [6, 0, 0, 0], [5, 1, 2, 0], [3, 0, 3, 4]],
        &[],
        5,
        "CANNOT;USED 5 4 0",
    ),
    (
        "a symmetric role asks back along itself",
        &[A, [5, 0, 0, 0], [6, 0, 1, 0], [7, 1, 0, 0]],
        &[],
        2,
        // Element 1 is led to from element 0, which so is led to from it. "All" fails at element 0: element 1 has no A.
        "CAN 2 1;USED 8 7 1;E 0 0000000000000005;E 1 0000000000000002;L 0 0 1",
    ),
    (
        "a role within itself says nothing",
        &[[7, 0, 0, 0], A, NOT_A, [6, 2, 1, 0], [5, 0, 2, 0], [3, 0, 3, 4]],
        &[],
        5,
        "CAN 2 1;USED 6 5 0;E 0 000000000000003c;E 1 0000000000000012;L 0 2 1",
    ),
    (
        "screwed on is the way back of fitted",
        &[[7, 2, 1, 0], A, NOT_A, [6, 3, 1, 0], [5, 0, 2, 0], [3, 0, 3, 4]],
        &[],
        5,
        "CANNOT;USED 5 4 0",
    ),
    (
        "a listed pair belongs to the wider role, from both ends; to no other",
        &[A, [6, 2, 0, 0], [7, 2, 0, 0], [6, 0, 0, 0], [6, 1, 1, 0], [6, 4, 0, 0], [5, 0, 0, 0]],
        &[],
        1,
        "CAN 2 1;USED 5 4 0;E 0 000000000000004a;E 1 0000000000000051;L 0 2 1",
    ),
    (
        "a pair of the wider role is none of the narrower",
        &[A, [6, 0, 0, 0], [7, 2, 0, 0], [6, 2, 0, 0], [6, 3, 1, 0], [5, 2, 1, 0]],
        &[],
        1,
        "CAN 2 1;USED 5 4 0;E 0 0000000000000022;E 1 0000000000000021;L 0 0 1",
    ),
];

/// Checks the answers by hand.
pub fn check_by_hand(mut answer: impl Answering) {
    for (what, rows, rules, wanted, expected) in BY_HAND {
        let file = encode(b"", rows, rules, wanted);
        let given = answer(&file, &Lent::by_program());
        check_example(&file, &given);
        assert_eq!(one_line(&given), expected, "{what}");
    }
}

/// The rows of all these lists.
fn rows(lists: &[&[u8]]) -> RowSet {
    lists.concat().into_iter().map(usize::from).collect()
}

/// One inclusion and what is narrower by it: a code than itself, and the two codes, as they are and turned round. Nothing chains.
#[derive(Clone, Copy, Debug)]
struct Single {
    narrow: u8,
    wide: u8,
}

impl Single {
    fn has(self, narrow: u8, wide: u8) -> bool {
        narrow == wide
            || (narrow, wide) == (self.narrow, self.wide)
            || (narrow, wide) == (turned(self.narrow), turned(self.wide))
    }

    fn all() -> impl Iterator<Item = Single> {
        (0..CODES).flat_map(|narrow| (0..CODES).map(move |wide| Single { narrow, wide }))
    }
}

/// Checks each of the 1,024 kind 7 rows with each code of "some", each time against "all" along 16 codes at once: 65,536 files.
pub fn check_single_inclusions(mut answer: impl Answering) {
    for single in Single::all() {
        let inclusion = [7, single.narrow, single.wide, 0];
        let narrower = |narrow, wide| single.has(narrow, wide);
        for (code, alls) in codes_and_alls(16) {
            check_reached(&mut answer, &[inclusion], narrower, code, alls);
        }
    }
}

/// Each code of "some" with each so many codes of "all".
fn codes_and_alls(at_once: u8) -> impl Iterator<Item = (u8, Range<u8>)> {
    let alls = move || (0..CODES).step_by(at_once.into()).map(move |first| first..first + at_once);
    (0..CODES).flat_map(move |code| alls().map(move |alls| (code, alls)))
}

/// Every element has "all d: name d" for some codes d, and the kit a link along another code. What the link leads to has the names of the
/// codes that are wider than its own, the kit those of the codes that are wider than the way back, and no other.
fn check_reached(
    answer: &mut impl Answering,
    inclusions: &[Row],
    narrower: impl Fn(u8, u8) -> bool,
    code: u8,
    alls: Range<u8>,
) {
    let mut table = table_of(inclusions);
    let end = table.name(40);
    let kit = table.some(code, end);
    let names: Vec<(u8, u8)> = alls.map(|d| (d, table.name(d))).collect();
    let rules: Vec<u8> = names.iter().map(|&(d, name)| table.all(d, name)).collect();
    let asked =
        |from: u8| -> Vec<u8> { names.iter().filter(|&&(d, _)| narrower(from, d)).map(|&(_, name)| name).collect() };
    let (of_kit, of_end) = (asked(turned(code)), asked(code));
    let used = match of_kit.is_empty() {
        true => Used { nodes: 5, edges: 4, alternatives: 0 },
        false => Used { nodes: 8, edges: 7, alternatives: 1 },
    };
    let elements = vec![rows(&[&rules, &[kit], &of_kit]), rows(&[&rules, &[end], &of_end])];
    let expected = Answer::Can { used, elements, links: vec![(0, code.into(), 1)] };
    let file = file_of(&table, &rules, kit);
    assert_eq!(answer(&file, &Lent::just(used, 2, 1)), expected, "{inclusions:?}, some along {code}");
}

/// Checks the verdict of each kind 7 row with "some c" and "all d", for the row's codes, the same turned round and those of another role.
pub fn check_single_verdicts(mut answer: impl Answering) {
    let (mut kits, mut cannot) = (0, 0);
    for single in Single::all() {
        let roles = [single.narrow / 2, single.wide / 2];
        let other = (0..CODES).find(|code| !roles.contains(&(code / 2))).expect("16 roles");
        let mut codes: Vec<u8> = [single.narrow, single.wide, other].into_iter().flat_map(|c| [c, turned(c)]).collect();
        codes.sort();
        codes.dedup();
        for (&c, &d) in codes.iter().flat_map(|c| codes.iter().map(move |d| (c, d))) {
            for from_below in [false, true] {
                kits += 1;
                cannot += check_verdict(&mut answer, single, c, d, from_below);
            }
        }
    }
    println!("{kits} kits, of which a single kind 7 row or one role forbids {cannot}");
    // Of 960 rows there are six codes to try, and eight pairs of them; of 64 rows, between a role and itself or its inverse, four codes, and
    // four pairs or six. Each is tried twice.
    assert_eq!((kits, cannot), (2 * (960 * 36 + 64 * 16), 2 * (960 * 8 + 32 * 4 + 32 * 6)));
}

/// "Some c: A" and "all d: not A" cannot be exactly if c is narrower than d or equal. From below: "some c: all d: A" and "not A" cannot be
/// exactly if the way back is.
fn check_verdict(answer: &mut impl Answering, single: Single, c: u8, d: u8, from_below: bool) -> usize {
    let mut table = Table::default();
    let (name, not_name) = (table.name(0), table.not_name(0));
    table.within(single.narrow, single.wide);
    let (left, right) = if from_below {
        let all = table.all(d, name);
        (table.some(c, all), not_name)
    } else {
        (table.some(c, name), table.all(d, not_name))
    };
    let both = table.both(left, right);
    let file = file_of(&table, &[], both);
    let given = answer(&file, &Lent::by_program());
    check_example(&file, &given);
    let forbidden = single.has(if from_below { turned(c) } else { c }, d);
    assert_eq!(matches!(given, Answer::Cannot { .. }), forbidden, "{single:?}, {c} and {d}: {given:?}");
    assert_eq!(matches!(given, Answer::Can { .. }), !forbidden, "{single:?}, {c} and {d}: {given:?}");
    usize::from(forbidden)
}

/// How many chains are tried, of each kind.
const CHAINS: usize = 50;

/// Checks the longest chains: of 16 roles, each in one direction, and of 16 symmetric roles. Their rows are turned round here and there and
/// stand in no order. Each code of "some" is tried with each code of "all".
pub fn check_longest_chains(mut answer: impl Answering) {
    let mut prng = Prng::new(121);
    for _ in 0..CHAINS {
        let chain = random_directions(&mut prng);
        let place = |code: u8| (code / 2, chain[usize::from(code / 2)] == code);
        let inclusions = shuffled_steps(&mut prng, &chain);
        let narrower = |narrow, wide| place(narrow).0 <= place(wide).0 && place(narrow).1 == place(wide).1;
        for (code, alls) in codes_and_alls(16) {
            check_reached(&mut answer, &inclusions, narrower, code, alls);
        }
        // Each code before its own inverse, so that it is symmetric.
        let every: Vec<u8> = chain.iter().flat_map(|&code| [code, turned(code)]).collect();
        let inclusions = shuffled_steps(&mut prng, &every);
        for (code, alls) in codes_and_alls(8) {
            check_reached(&mut answer, &inclusions, |narrow, wide| narrow / 2 <= wide / 2, code, alls);
        }
    }
}

/// Roles 0 to 15, each in one direction.
fn random_directions(prng: &mut Prng) -> Vec<u8> {
    (0..CODES / 2).map(|role| 2 * role + prng.byte_below(2)).collect()
}

/// A row for each step of a chain, some turned round, in no order.
fn shuffled_steps(prng: &mut Prng, chain: &[u8]) -> Vec<Row> {
    let mut rows: Vec<Row> = Vec::new();
    for step in chain.windows(2) {
        let row = match prng.below(2) {
            0 => [7, step[0], step[1], 0],
            _ => [7, turned(step[0]), turned(step[1]), 0],
        };
        rows.insert(prng.below(rows.len() + 1), row);
    }
    rows
}

/// Checks the root's put: its role is narrower than none, though every code is narrower than every other. A kit that is "all d A" along
/// all of them asks nothing of the root.
pub fn check_root(mut answer: impl Answering) {
    let mut table = Table::default();
    let circle: Vec<u8> = (0..CODES).step_by(2).chain([1, 0]).collect();
    for step in circle.windows(2) {
        table.within(step[0], step[1]);
    }
    let name = table.name(0);
    let alls: Vec<u8> = (0..CODES).map(|code| table.all(code, name)).collect();
    let used = Used { nodes: 3, edges: 2, alternatives: 0 };
    let expected = Answer::Can { used, elements: vec![rows(&[&alls])], links: Vec::new() };
    for &wanted in &alls {
        assert_eq!(answer(&file_of(&table, &alls, wanted), &Lent::just(used, 1, 0)), expected);
    }
}
