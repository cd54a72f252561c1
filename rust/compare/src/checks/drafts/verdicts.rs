//! Random small drafts: a converting function and an answering function, one after the other, against the meaning of drafts.
//!
//! What a search through all worlds of up to three elements finds must be "can" or refusal 11, unless 13, 14 or 15 comes; and the
//! world of every example obeys every rule of the draft, with element 0 a member of its kit. After refusal 11 the example is asked for
//! again.

use crate::checks::judging::check_records;
use crate::sizes::LONGEST_FILE;
use crate::{random_draft, whole_answer, Answering, Converting, Prng, Shape};
use plain::{records, Answer, Lent, Used};
use worlds::{search, Example, Ontology};

const MAX_ELEMENTS: usize = 3;

/// Small drafts, and how many of them. Their texts are short: these tests are about rows.
const SHAPES: [(Shape, usize); 3] = [
    (Shape { names: 1, roles: 1, compound: 10, rules: 2, text: 8 }, 10_000),
    (Shape { names: 2, roles: 1, compound: 14, rules: 3, text: 8 }, 15_000),
    (Shape { names: 2, roles: 2, compound: 18, rules: 4, text: 8 }, 15_000),
];

/// How often things happened.
#[derive(Default, Debug)]
pub(crate) struct Counts {
    not_or_if: usize,
    world_found: usize,
    can: usize,
    cannot: usize,
    short: usize,
    too_long: usize,
    example_over_three: usize,
}

/// Checks what the engine says of random drafts once they are converted, prints how often things happened and fails if one of them
/// was rare.
pub fn check_draft_worlds(mut convert: impl Converting, mut answer: impl Answering) {
    let mut counts = Counts::default();
    for (seed, (shape, drafts)) in SHAPES.into_iter().enumerate() {
        let mut prng = Prng::new(61 + seed as u64);
        for _ in 0..drafts {
            let draft = random_draft(&mut prng, shape);
            // Refusal 12 comes for a few whose text leaves no room.
            if let Ok(file) = convert(&draft, LONGEST_FILE) {
                check_converted(&mut answer, &draft, &file, &mut prng, &mut counts);
            }
        }
    }
    println!("{counts:?}");
    counts.assert_often();
}

/// Checks what the engine says of the file that a draft became, in areas that hold nearly every run, now and then with example areas
/// that are too short. Gives the answer.
pub(crate) fn check_converted(
    answer: &mut impl Answering,
    draft: &[u8],
    file: &[u8],
    prng: &mut Prng,
    counts: &mut Counts,
) -> Answer {
    let whole = Lent::just(Used { nodes: 200, edges: 300, alternatives: 50 }, 100, 150);
    let lent = if prng.below(4) == 0 { whole.with_example(1, 1) } else { whole };
    let first = answer(file, &lent);
    counts.too_long += usize::from(matches!(first, Answer::TooLong { .. }));
    let whole = whole_answer(answer, file, &lent, first);
    check(draft, file, &whole, counts);
    whole
}

fn check(draft: &[u8], file: &[u8], answer: &Answer, counts: &mut Counts) {
    let ontology = Ontology::decode_draft(draft).expect("a draft");
    let found = search(&ontology, MAX_ELEMENTS);
    counts.not_or_if += usize::from(Ontology::decode(draft).is_none());
    counts.world_found += usize::from(found.is_some());
    match answer {
        Answer::Refused(_) | Answer::TooLong { .. } => panic!("{answer:?} to what became of {draft:02x?}"),
        Answer::Short { .. } => counts.short += 1,
        Answer::Cannot { .. } => {
            assert!(found.is_none(), "cannot, but there is a world: {draft:02x?}");
            counts.cannot += 1;
        }
        Answer::Can { elements, links, .. } => {
            let of_file = Ontology::decode(file).expect("a rule file");
            let [element_records, link_records] = records(elements, links);
            let example = Example::read(&element_records, &link_records).expect("whole records");
            let world = check_records(file, &of_file, &example);
            assert!(world.is_model(&ontology, 0), "the example is no model of the draft: {draft:02x?}");
            assert!(elements.len() > MAX_ELEMENTS || found.is_some(), "the search missed a world: {draft:02x?}");
            counts.example_over_three += usize::from(elements.len() > MAX_ELEMENTS);
            counts.can += 1;
        }
    }
}

impl Counts {
    /// Fails if something was rare.
    pub(crate) fn assert_often(&self) {
        let often = [
            ("not or if", self.not_or_if),
            ("world found", self.world_found),
            ("can at once", self.can - self.too_long),
            ("cannot", self.cannot),
            ("too long", self.too_long),
        ];
        for (what, times) in often {
            assert!(times >= 500, "{what}: only {times} times");
        }
        assert!(self.example_over_three >= 50, "few examples with more than three elements");
    }
}
