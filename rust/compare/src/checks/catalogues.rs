//! Catalogue pages (document 02, \[7\]): a cataloguing function against small and large files by hand, the plain program, an answering
//! function with two wanted rows, and the meaning of ALCI.
//!
//! In order: by hand; random files; what is true of a page.

use super::small_worlds::check_found;
use crate::counts::catalogues::{CatalogueCounts, Seen};
use crate::files::kinds::{chain, most_names, random_question, LONGEST_CHAIN};
use crate::files::lent::random_areas;
use crate::files::parts::Parts;
use crate::files::wide::wide_kinds;
use crate::files::{encode, Row};
use crate::sizes::NAMES;
use crate::{page_line, random_lent, AnsweringWanted, Cataloguing, Prng, Shape};
use plain::catalogue::{CAN, CANNOT, TABLE_SHORT, UNDECIDED};
use plain::{Answer, Lent, Page};
use worlds::{Concept, Ontology};

// ---- by hand

/// Rows, rules, own wanted row, length of the table's area, number of nodes, and the answer's line.
type ByHand<'a> = (&'a [Row], &'a [u8], u8, usize, usize, &'a str);

/// Names 9 and 4, the rows of 9 first; either not name 9 or name 4; then name 5 without a kind 2 row, name 6 without a kind 1 row.
const TWO: [Row; 7] =
    [[1, 0, 9, 0], [2, 0, 9, 0], [1, 0, 4, 0], [2, 0, 4, 0], [4, 0, 1, 2], [1, 0, 5, 0], [2, 0, 6, 0]];
/// Names 0 and 1; some 2 of them along role 1; what has that turned round; role 0 is narrower than role 1.
const WAYS: [Row; 9] = [
    [1, 0, 0, 0],
    [2, 0, 0, 0],
    [1, 0, 1, 0],
    [2, 0, 1, 0],
    [6, 0, 0, 0],
    [4, 0, 1, 4],
    [5, 2, 1, 0],
    [4, 0, 6, 2],
    [7, 0, 2, 0],
];

const BY_HAND: [ByHand; 17] = [
    (&TWO, &[], 0, 4, 99, "TABLE 2 01000001"),
    (&TWO, &[4], 0, 4, 99, "TABLE 2 01000101"),
    (&TWO, &[4], 6, 9, 99, "TABLE 2 01000101"),
    (&TWO, &[4], 0, 3, 99, "REFUSED 17"),
    (&TWO, &[4], 0, 0, 99, "REFUSED 17"),
    (&TWO, &[4], 7, 0, 99, "REFUSED 8"),
    // Both names hold everywhere; nothing is a 4; nothing is anything.
    (&TWO, &[0, 2], 0, 4, 99, "TABLE 2 01010101"),
    (&TWO, &[3], 0, 4, 99, "TABLE 2 01010001"),
    (&TWO, &[0, 1], 0, 4, 99, "TABLE 2 01010101"),
    // The root alone; with a clash two nodes suffice, with a member three.
    (&TWO, &[], 0, 4, 0, "TABLE 2 02020202"),
    (&TWO, &[], 0, 4, 1, "TABLE 2 02020202"),
    (&TWO, &[], 0, 4, 2, "TABLE 2 01020201"),
    (&TWO, &[], 0, 4, 3, "TABLE 2 01000001"),
    // A 0 has some 0 along role 0, so along role 1; and what has that along role 1 is a 1.
    (&WAYS, &[5, 7], 0, 4, 99, "TABLE 2 01010001"),
    (&WAYS, &[5], 0, 4, 99, "TABLE 2 01000001"),
    (&WAYS, &[5, 7], 8, 0, 99, "REFUSED 16"),
    (&[[1, 0, 0, 0], [2, 0, 1, 0]], &[], 0, 0, 99, "TABLE 0 -"),
];

/// Checks the pages of small files.
pub fn check_by_hand(mut catalogue: impl Cataloguing) {
    for (rows, rules, wanted, area, nodes, line) in BY_HAND {
        let file = encode(b"pumps", rows, rules, wanted);
        let page = catalogue(&file, area, &Lent::records(nodes, 99, 9, 0, 0));
        assert_eq!(page_line(&page), line, "{rows:?}, rules {rules:?}, wanted {wanted} in {area}, {nodes} nodes");
    }
    let page = catalogue(&encode(b"", &TWO, &[], 0), 4, &Lent::by_program());
    assert!(matches!(&page, Page::Filled { names, .. } if *names == [4, 9]), "rising, with both rows: {page:?}");
}

/// Checks the table of a file by what is said of two places among its names, in an area of so many bytes more. Gives the names.
fn check_large(
    catalogue: &mut impl Cataloguing,
    file: &[u8],
    names: usize,
    more: usize,
    is_a: impl Fn(usize, usize) -> bool,
) -> Vec<u8> {
    let lent = Lent::by_program();
    let square = names * names;
    let Page::Filled { names: listed, table } = catalogue(file, square + more, &lent) else {
        panic!("no page: {file:02x?}")
    };
    assert_eq!((listed.len(), table.len()), (names, square), "{file:02x?}");
    assert!(listed.windows(2).all(|two| two[0] < two[1]), "{listed:?}");
    for (a, b) in (0..names).flat_map(|a| (0..names).map(move |b| (a, b))) {
        assert_eq!(table[a * names + b], u8::from(is_a(a, b)), "{a}, {b}: {file:02x?}");
    }
    assert_eq!(catalogue(file, square - 1, &lent), Page::Refused(TABLE_SHORT), "{file:02x?}");
    listed
}

/// 32 names over 64 rows, and chains of names.
pub fn check_most_names(mut catalogue: impl Cataloguing) {
    let names = check_large(&mut catalogue, &most_names(&[], &[]), 32, 0, |a, b| a == b);
    let name = |place: usize| usize::from(names[place]);
    let (every, none) = (names[20], names[7]);
    let said = |a: usize, b: usize| a == b || name(b) == every.into() || name(a) == none.into();
    check_large(&mut catalogue, &most_names(&[every], &[none]), 32, 9, said);
    check_large(&mut catalogue, &most_names(&[every], &[none, every]), 32, 1, |_, _| true);
    for length in 2..=LONGEST_CHAIN {
        check_large(&mut catalogue, &chain(length), length.into(), usize::from(length) % 3, |a, b| a <= b);
    }
}

/// Examples of 65 to 1,221 elements: such an entry would be refused with 11 in most areas, and is 0.
pub fn check_large_examples(mut catalogue: impl Cataloguing, mut wanted: impl AnsweringWanted) {
    let lent = Lent { elements: 0, links: 0, ..Lent::most() };
    let mut most = [usize::MAX, 0];
    for file in wide_kinds() {
        let Page::Filled { names, table } = catalogue(&file, 4, &lent) else { panic!("no page: {file:02x?}") };
        assert_eq!((names, table.as_slice()), (vec![0, 1], [CANNOT, CAN, CANNOT, CANNOT].as_slice()), "{file:02x?}");
        let answers = check_runs(&file, &lent, &[0, 1], &table, &mut wanted);
        let Answer::TooLong { elements, .. } = answers[1] else { panic!("{:?} to {file:02x?}", answers[1]) };
        most = [most[0].min(elements), most[1].max(elements)];
    }
    println!("from {} to {} elements", most[0], most[1]);
    assert!(most[0] >= 64 && most[1] > 1200, "{most:?}");
}

// ---- random files

/// Few names in plenty, more names for larger tables.
const SHAPES: [(Shape, usize); 4] = [
    (Shape { names: 2, roles: 1, compound: 6, rules: 2, text: 8 }, 8_000),
    (Shape { names: 3, roles: 2, compound: 6, rules: 2, text: 8 }, 8_000),
    (Shape { names: 6, roles: 2, compound: 4, rules: 1, text: 8 }, 5_000),
    (Shape { names: 10, roles: 3, compound: 3, rules: 0, text: 8 }, 1_000),
];

/// Each case happened in at least so many pages.
const OFTEN: usize = 50;

/// Checks the pages of random and damaged files, prints how often things happened and fails if one of them was rare.
pub fn check_random_pages(mut catalogue: impl Cataloguing, mut wanted: impl AnsweringWanted) {
    let mut counts = CatalogueCounts::default();
    for (seed, (shape, files)) in SHAPES.into_iter().enumerate() {
        let mut prng = Prng::new(181 + seed as u64);
        for _ in 0..files {
            let file = random_question(&mut prng, shape);
            let (area, lent) = (random_table_area(&mut prng, &file), random_work(&mut prng));
            let page = catalogue(&file, area, &lent);
            assert_eq!(page, plain::catalogue(&file, area, &lent), "{file:02x?}, table in {area}, in {lent:?}");
            let answers = check_page(&file, area, &lent, &page, &mut wanted);
            let names = Ontology::decode(&file).map_or(0, |ontology| ontology.kinds().len());
            counts.count(&Seen { area, names, page: &page, answers: &answers, one_row: one_row(&file) });
        }
    }
    counts.assert_often(OFTEN);
}

/// Just enough, longer or shorter.
fn random_table_area(prng: &mut Prng, file: &[u8]) -> usize {
    let names = Ontology::decode(file).map_or(prng.below(4), |ontology| ontology.kinds().len());
    let square = names * names;
    match prng.below(8) {
        0 => prng.below(square + 1),
        1 => square.saturating_sub(1),
        2..5 => square + 1 + prng.below(40),
        _ => square,
    }
}

/// Work areas that often suffice for some entries only, or for all. The example areas are for the runs that entries are compared with.
fn random_work(prng: &mut Prng) -> Lent {
    match prng.below(2) {
        0 => random_lent(prng),
        _ => random_areas(prng),
    }
}

/// Has a name only a kind 1 row, and has one only a kind 2 row?
fn one_row(file: &[u8]) -> [bool; 2] {
    let rows = Ontology::decode(file).map_or(Vec::new(), |ontology| ontology.rows);
    let both =
        (0..NAMES.into()).map(|name| [Concept::Name(name), Concept::NotName(name)].map(|row| rows.contains(&row)));
    let both: Vec<[bool; 2]> = both.collect();
    [[true, false], [false, true]].map(|one| both.contains(&one))
}

// ---- what is true of a page

/// A page has the names that the meaning of the file has, and its table is true. Gives what each entry's two rows get as wanted rows.
fn check_page(file: &[u8], area: usize, lent: &Lent, page: &Page, wanted: &mut impl AnsweringWanted) -> Vec<Answer> {
    let Some(ontology) = Ontology::decode(file) else {
        assert!(matches!(page, Page::Refused(number) if *number != TABLE_SHORT), "{page:?} to {file:02x?}");
        return Vec::new();
    };
    let kinds = ontology.kinds();
    if kinds.len() * kinds.len() > area {
        assert_eq!(*page, Page::Refused(TABLE_SHORT), "{file:02x?} in {area}");
        return Vec::new();
    }
    let Page::Filled { names, table } = page else { panic!("{page:?} to {file:02x?} in {area}") };
    assert!(names.iter().map(|&name| usize::from(name)).eq(kinds.iter().copied()), "{page:?} to {file:02x?}");
    assert_eq!(table.len(), kinds.len() * kinds.len(), "{page:?} to {file:02x?}");
    check_order(file, table, kinds.len());
    let answers = check_runs(file, lent, names, table, wanted);
    check_worlds(file, &ontology, &kinds, &answers);
    answers
}

/// Outside entries 2 the table is reflexive, and transitive where all three are decided.
fn check_order(file: &[u8], table: &[u8], names: usize) {
    let entry = |a: usize, b: usize| table[a * names + b];
    for a in 0..names {
        assert_ne!(entry(a, a), CAN, "{a}: {table:?} of {file:02x?}");
        for (b, c) in (0..names).flat_map(|b| (0..names).map(move |c| (b, c))) {
            let broken = entry(a, b) == CANNOT && entry(b, c) == CANNOT && entry(a, c) == CAN;
            assert!(!broken, "{a}, {b}, {c}: {table:?} of {file:02x?}");
        }
    }
}

/// The most names whose entries are all searched for: larger tables are compared with runs only.
const SEARCHED: usize = 3;

/// Where there is a small world with an a that isn't a b, the run says so, and so the entry is not 1. What the search goes by is the two
/// names, not their rows.
fn check_worlds(file: &[u8], ontology: &Ontology, kinds: &[usize], answers: &[Answer]) {
    let pairs = kinds.iter().flat_map(|&a| kinds.iter().map(move |&b| (a, b)));
    let searched = pairs.zip(answers).filter(|_| kinds.len() <= SEARCHED);
    for ((a, b), answer) in searched.filter(|(_, answer)| !matches!(answer, Answer::TooLong { .. })) {
        check_found(file, &ontology.wanting_but_not(a, b), answer);
    }
}

/// Each entry is what the two rows get as wanted rows in the same work areas; 11 counts as 0. Gives these answers.
fn check_runs(file: &[u8], lent: &Lent, names: &[u8], table: &[u8], wanted: &mut impl AnsweringWanted) -> Vec<Answer> {
    let rows = Parts::of(file).rows;
    let place = |kind: u8, name: u8| rows.iter().position(|&row| row == [kind, 0, name, 0]).expect("a row") as u8;
    let pairs = names.iter().flat_map(|&a| names.iter().map(move |&b| [place(1, a), place(2, b)]));
    let run = |(list, &entry): ([u8; 2], &u8)| {
        let answer = wanted(file, &list, lent);
        let expected = match answer {
            Answer::Can { .. } | Answer::TooLong { .. } => CAN,
            Answer::Cannot { .. } => CANNOT,
            Answer::Short { .. } => UNDECIDED,
            Answer::Refused(_) => panic!("{answer:?} to {file:02x?}"),
        };
        assert_eq!(entry, expected, "wanting {list:?}: {file:02x?} in {lent:?}");
        answer
    };
    pairs.zip(table).map(run).collect()
}
