//! The engine against the plain program: the answer and every byte of all five areas, on valid and damaged files in areas of
//! random lengths.

use compare::files::inclusions::with_inclusions;
use compare::{cases, check_example, damage, random_bytes, random_file, random_lent, Prng, Shape};
use gumbyra::{ALTERNATIVE_BYTES, EDGE_BYTES, NODE_BYTES};
use plain::{Answer, Lent};
use watched::Lending;

/// How often each kind of answer came: refusals by their number, then "cannot", "can".
type Kinds = [usize; CAN + 1];
const CANNOT: usize = 18;
const CAN: usize = 19;
/// The file checks, and the kinds of answer to a file that passes them.
const CHECKS: [usize; 9] = [1, 2, 3, 4, 5, 6, 7, 8, 16];
const RUNS: [usize; 6] = [11, 13, 14, 15, CANNOT, CAN];

fn kind(answer: &Answer) -> usize {
    match answer {
        Answer::Refused(number) => usize::from(*number),
        Answer::TooLong { .. } => 11,
        Answer::Short { area, .. } => usize::from(area.refusal()),
        Answer::Cannot { .. } => CANNOT,
        Answer::Can { .. } => CAN,
    }
}

/// The answer must be the plain program's, the areas as that says, and that answer as the meaning of ALCI says.
fn check(lending: &mut Lending, file: &[u8], lent: &Lent, kinds: &mut Kinds) {
    let expected = plain::answer(file, lent);
    check_example(file, &expected);
    let answer = lending.run(file, lent).unwrap_or_else(|broken| panic!("{broken}: {file:02x?} in {lent:?}"));
    assert_eq!(answer, expected, "{file:02x?} in {lent:?}");
    let broken = lending.broken(&expected);
    assert_eq!(broken, None, "{file:02x?} in {lent:?}");
    kinds[kind(&expected)] += 1;
}

/// Each of these kinds came at least so often, and those of no answer never: 9, 10, and 12 and 17, which are a conversion's and a page's.
fn assert_often(what: &str, kinds: &Kinds, of: impl Iterator<Item = usize>, least: usize) {
    let times: Vec<(usize, usize)> = of.map(|kind| (kind, kinds[kind])).collect();
    println!("{what}: how often each refusal came, then cannot ({CANNOT}) and can ({CAN}): {times:?}");
    assert!(times.iter().all(|&(_, times)| times >= least), "{kinds:?}");
    assert!([0, 9, 10, 12, 17].iter().all(|&none| kinds[none] == 0), "{kinds:?}");
}

/// Mostly short areas that decide the answer, now and then the printing program's.
fn lent(prng: &mut Prng) -> Lent {
    match prng.below(8) {
        0 => Lent::by_program(),
        _ => random_lent(prng),
    }
}

#[test]
fn valid_files() {
    let shapes = [
        Shape { names: 1, roles: 1, compound: 6, rules: 2, text: 4 },
        Shape { names: 2, roles: 1, compound: 14, rules: 4, text: 300 },
        Shape { names: 3, roles: 2, compound: 20, rules: 6, text: 40 },
        Shape { names: 4, roles: 16, compound: 30, rules: 8, text: 3000 },
    ];
    let mut prng = Prng::new(11);
    let (mut lending, mut kinds) = (Lending::new(), Kinds::default());
    for round in 0..40_000 {
        let file = random_file(&mut prng, shapes[round % shapes.len()]);
        let lent = lent(&mut prng);
        check(&mut lending, &file, &lent, &mut kinds);
    }
    assert_often("valid files", &kinds, RUNS.into_iter(), 1000);
}

#[test]
fn damaged_files() {
    let shape = Shape { names: 2, roles: 2, compound: 12, rules: 4, text: 8 };
    let vectors: Vec<Vec<u8>> = cases().into_iter().map(|case| case.file).collect();
    let mut prng = Prng::new(12);
    let (mut lending, mut kinds) = (Lending::new(), Kinds::default());
    for round in 0..40_000 {
        let mut file = match round % 4 {
            0 => vectors[prng.below(vectors.len())].clone(),
            1 => {
                let file = random_file(&mut prng, shape);
                with_inclusions(&mut prng, &file, shape.roles)
            }
            _ => random_file(&mut prng, shape),
        };
        damage(&mut prng, &mut file);
        let lent = lent(&mut prng);
        check(&mut lending, &file, &lent, &mut kinds);
    }
    assert_often("damaged files", &kinds, CHECKS.into_iter().chain(RUNS), 100);
}

#[test]
fn bytes_at_random() {
    let mut prng = Prng::new(14);
    let (mut lending, mut kinds) = (Lending::new(), Kinds::default());
    for _ in 0..20_000 {
        let (file, lent) = (random_bytes(&mut prng), lent(&mut prng));
        check(&mut lending, &file, &lent, &mut kinds);
    }
    assert_often("random bytes", &kinds, CHECKS.into_iter(), 20);
}

#[test]
fn large_files_in_large_areas() {
    let shape = Shape { names: 6, roles: 3, compound: 52, rules: 12, text: 8 };
    let mut prng = Prng::new(13);
    let (mut lending, mut kinds) = (Lending::new(), Kinds::default());
    for round in 0..600 {
        let file = random_file(&mut prng, shape);
        // Up to 4,196 records and a broken one: every byte ends as promised, also past the last record that counts. Such runs use more
        // edges than nodes, so in every other round there are fewer nodes.
        let mut records = |bytes: usize, least: usize| bytes * (least + prng.below(196)) + prng.below(bytes);
        let nodes = records(NODE_BYTES, [4000, 1000][round % 2]);
        let (edges, alternatives) = (records(EDGE_BYTES, 4000), records(ALTERNATIVE_BYTES, 4000));
        let lent = Lent { nodes, edges, alternatives, ..Lent::most() };
        check(&mut lending, &file, &lent, &mut kinds);
    }
    assert_often("large files", &kinds, [13, 14, CANNOT, CAN].into_iter(), 10);
}
