//! Damaged files get an answer, never a panic; and a file that is accepted all the same gets a right one. The same with drafts.

use compare::files::inclusions::with_inclusions;
use compare::{
    cases, check_example, damage, draft_cases, random_bytes, random_draft, random_file, DraftCounts, Prng, Shape,
};
use plain::{answer, convert, print, Draft, Lent, RuleFile, Used};
use worlds::Ontology;

const SHAPE: Shape = Shape { names: 2, roles: 2, compound: 12, rules: 4, text: 8 };

/// How often each refusal by a check came, in their order; the first counts accepted files.
type Refusals = [usize; CHECKS.len()];
const CHECKS: [u8; 10] = [0, 1, 2, 3, 4, 5, 6, 7, 8, 16];

fn check(file: &[u8], lent: &Lent, refusals: &mut Refusals) {
    let answer = answer(file, lent);
    assert!(print(&answer).ends_with('\n'));
    check_example(file, &answer);
    let number = RuleFile::read(file).err().unwrap_or(0);
    refusals[CHECKS.iter().position(|&check| check == number).expect("a file check")] += 1;
}

/// Accepted files and refusals 1 to 8 and 16 came each so often.
fn assert_often(refusals: &Refusals, least: usize) {
    println!("accepted, then refusals 1 to 8 and 16: {refusals:?}");
    assert!(refusals.iter().all(|&times| times >= least), "{refusals:?}");
}

fn random_file_with_inclusions(prng: &mut Prng) -> Vec<u8> {
    let file = random_file(prng, SHAPE);
    with_inclusions(prng, &file, SHAPE.roles)
}

#[test]
fn damaged_files_never_panic() {
    let mut prng = Prng::new(7);
    let mut refusals = Refusals::default();
    let vectors: Vec<Vec<u8>> = cases().into_iter().map(|case| case.file).collect();
    for round in 0..40_000 {
        let mut file = match round % 4 {
            0 => vectors[prng.below(vectors.len())].clone(),
            1 => random_file_with_inclusions(&mut prng),
            _ => random_file(&mut prng, SHAPE),
        };
        damage(&mut prng, &mut file);
        check(&file, &Lent::just(Used { nodes: 200, edges: 400, alternatives: 100 }, 100, 200), &mut refusals);
    }
    assert_often(&refusals, 100);
}

#[test]
fn random_bytes_never_panic() {
    let mut prng = Prng::new(8);
    let mut refusals = Refusals::default();
    for _ in 0..40_000 {
        check(&random_bytes(&mut prng), &Lent::by_program(), &mut refusals);
    }
    assert_often(&refusals, 50);
}

/// Two readers, written apart, accept the same drafts.
fn check_draft(draft: &[u8], counts: &mut DraftCounts) {
    assert_eq!(Ontology::decode_draft(draft).is_some(), Draft::read(draft).is_ok(), "{draft:02x?}");
    counts.count(draft, 4000, &convert(draft, 4000));
}

#[test]
fn damaged_drafts_never_panic() {
    let mut prng = Prng::new(9);
    let mut counts = DraftCounts::default();
    let vectors: Vec<Vec<u8>> = draft_cases().into_iter().map(|case| case.draft).collect();
    for round in 0..40_000 {
        let mut draft = match round % 4 {
            0 => vectors[prng.below(vectors.len())].clone(),
            1 => {
                let draft = random_draft(&mut prng, SHAPE);
                with_inclusions(&mut prng, &draft, SHAPE.roles)
            }
            _ => random_draft(&mut prng, SHAPE),
        };
        damage(&mut prng, &mut draft);
        check_draft(&draft, &mut counts);
    }
    println!("{counts:?}");
    counts.assert_each_refusal(50);
}
