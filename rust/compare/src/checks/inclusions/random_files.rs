//! Random files of which about a third of the rows are of kind 7 (document 02, \[6\]): an answering function against the plain program and
//! the meaning of ALCI, as in [`small_worlds`](crate::checks::small_worlds). A world that the search goes through counts only if it obeys
//! the kind 7 rows.

use crate::checks::small_worlds::check_found;
use crate::counts::inclusions::InclusionCounts;
use crate::files::inclusions::with_inclusions;
use crate::files::lent::random_areas;
use crate::{check_example, random_file, random_lent, whole_answer, Answering, Prng, Shape};
use plain::{Answer, Lent};
use worlds::Ontology;

/// Few roles, so that what is narrower than what matters; some with many; and how many files.
const SHAPES: [(Shape, usize); 5] = [
    (Shape { names: 1, roles: 1, compound: 10, rules: 2, text: 8 }, 5_000),
    (Shape { names: 2, roles: 2, compound: 12, rules: 3, text: 8 }, 15_000),
    (Shape { names: 2, roles: 3, compound: 16, rules: 3, text: 8 }, 15_000),
    (Shape { names: 2, roles: 5, compound: 20, rules: 4, text: 8 }, 10_000),
    (Shape { names: 2, roles: 16, compound: 14, rules: 2, text: 8 }, 5_000),
];

/// Each case happened in at least so many files.
const OFTEN: usize = 500;

/// Checks the answers to random files, prints how often things happened and fails if one of them was rare.
pub fn check_random_files(mut answer: impl Answering) {
    let (mut counts, mut short) = (InclusionCounts::default(), [0; SHORT.len()]);
    for (seed, (shape, files)) in SHAPES.into_iter().enumerate() {
        let mut prng = Prng::new(131 + seed as u64);
        for _ in 0..files {
            let file = random_file(&mut prng, shape);
            let file = with_inclusions(&mut prng, &file, shape.roles);
            check_short_areas(&mut answer, &file, &random_lent(&mut prng), &mut short);
            let whole = check_worlds(&mut answer, &file, &random_areas(&mut prng));
            counts.count(&file, &whole);
        }
    }
    println!("in short areas, how often refusals {SHORT:?} came: {short:?}");
    assert!(short.iter().all(|&times| times >= OFTEN), "{short:?}");
    counts.assert_often(OFTEN);
}

/// The refusals of a run whose areas are too short.
const SHORT: [u8; 4] = [11, 13, 14, 15];

/// In short areas the answer is the plain program's.
fn check_short_areas(answer: &mut impl Answering, file: &[u8], lent: &Lent, short: &mut [usize; SHORT.len()]) {
    let given = answer(file, lent);
    assert_eq!(given, plain::answer(file, lent), "{file:02x?} in {lent:?}");
    let number = match given {
        Answer::TooLong { .. } => 11,
        Answer::Short { area, .. } => area.refusal(),
        _ => return,
    };
    short[SHORT.iter().position(|&refusal| refusal == number).expect("a refusal of a run")] += 1;
}

/// The answer is the plain program's, and what it says is true. Gives it, with the example if there is one.
fn check_worlds(answer: &mut impl Answering, file: &[u8], lent: &Lent) -> Answer {
    let first = answer(file, lent);
    assert_eq!(first, plain::answer(file, lent), "{file:02x?} in {lent:?}");
    let whole = whole_answer(answer, file, lent, first);
    check_example(file, &whole);
    check_found(file, &Ontology::decode(file).expect("a random file is of the accepted form"), &whole);
    whole
}
