//! Random small files: an answering function against the meaning of ALCI.
//!
//! What a search through all worlds of up to three elements finds must be "can" or refusal 11, unless 13, 14 or 15 comes; and the
//! world of every example obeys every rule, with element 0 a member, and each element lists just the rows that hold there.
//! Refusal 11 comes only where the example is larger than the areas, and the example is then asked for in areas that hold it.

use crate::files::lent::random_areas;
use crate::{check_example, random_file, whole_answer, Answering, Prng, Shape};
use plain::graph::{Graph, Link};
use plain::status::Status;
use plain::{tableau, Answer, Lent, RuleFile};
use worlds::{search, Ontology};

const MAX_ELEMENTS: usize = 3;

/// How often things happened; a property that never came up was not tested. What the graph did is counted in the graph of
/// `plain`.
#[derive(Default, Debug)]
pub struct Counts {
    files: usize,
    can: usize,
    cannot: usize,
    short: usize,
    too_long: usize,
    world_found: usize,
    example_over_three: usize,
    small_state: usize,
    lapsed: usize,
    lapsed_and_live: usize,
    alternatives: usize,
    rules: usize,
    inverse: usize,
}

/// Small files in plenty, larger ones for longer runs.
const SHAPES: [(Shape, usize, u64); 4] = [
    (Shape { names: 1, roles: 1, compound: 6, rules: 2, text: 8 }, 10_000, 1),
    (Shape { names: 2, roles: 1, compound: 10, rules: 3, text: 8 }, 20_000, 2),
    (Shape { names: 2, roles: 2, compound: 10, rules: 3, text: 8 }, 20_000, 3),
    (Shape { names: 2, roles: 2, compound: 18, rules: 5, text: 8 }, 10_000, 4),
];

/// Checks the answers to all random files, prints how often things happened and fails if one of them was rare.
pub fn check_random_files(mut answer: impl Answering) {
    let mut counts = Counts::default();
    for (shape, files, seed) in SHAPES {
        let mut prng = Prng::new(seed);
        for _ in 0..files {
            let file = random_file(&mut prng, shape);
            let lent = random_areas(&mut prng);
            let first = answer(&file, &lent);
            counts.too_long += usize::from(matches!(first, Answer::TooLong { .. }));
            let whole = whole_answer(&mut answer, &file, &lent, first);
            check(&file, &whole, &mut counts);
            count_graph(&file, &lent, &mut counts);
        }
    }
    println!("{counts:#?}");
    assert_often(&counts);
}

fn check(file: &[u8], answer: &Answer, counts: &mut Counts) {
    let ontology = Ontology::decode(file).expect("a random file is of the accepted form");
    counts.world_found += usize::from(check_found(file, &ontology, answer));
    check_example(file, answer);
    match answer {
        Answer::Refused(_) | Answer::TooLong { .. } => panic!("{answer:?} to {file:02x?}"),
        Answer::Short { .. } => counts.short += 1,
        Answer::Cannot { .. } => counts.cannot += 1,
        Answer::Can { elements, .. } => {
            counts.example_over_three += usize::from(elements.len() > MAX_ELEMENTS);
            counts.can += 1;
        }
    }
}

/// What the search finds for the meaning of a file gets "can" unless 13, 14 or 15 comes. Gives whether it finds a world.
pub(crate) fn check_found(file: &[u8], ontology: &Ontology, whole: &Answer) -> bool {
    let found = search(ontology, MAX_ELEMENTS);
    assert!(found.iter().all(|world| world.is_model(ontology, 0)), "the search is wrong about {file:02x?}");
    match whole {
        Answer::Refused(_) | Answer::TooLong { .. } => panic!("{whole:?} to {file:02x?}"),
        Answer::Short { .. } => (),
        Answer::Cannot { .. } => assert!(found.is_none(), "cannot, but there is a world: {file:02x?}"),
        // The other direction tries the search: an example this small is one of the worlds it goes through.
        Answer::Can { elements, .. } => {
            assert!(elements.len() > MAX_ELEMENTS || found.is_some(), "the search missed a world: {file:02x?}");
        }
    }
    found.is_some()
}

fn count_graph(file: &[u8], lent: &Lent, counts: &mut Counts) {
    let file = RuleFile::read(file).expect("a random file is accepted");
    counts.files += 1;
    counts.rules += usize::from(!file.tbox.is_empty());
    if let Ok(graph) = tableau::run(&file, lent.capacity()) {
        counts.small_state += usize::from(has_small_state(&graph));
        counts.lapsed += usize::from(graph.nodes.iter().any(|node| node.link == Link::Lapsed));
        counts.lapsed_and_live += usize::from(has_live_lapsed(&graph));
        counts.alternatives += usize::from(!graph.alternatives.is_empty());
        counts.inverse += usize::from(takes_inverse(&graph));
    }
}

fn has_small_state(graph: &Graph) -> bool {
    graph.nodes.iter().any(|node| node.is_state() && node.status == Status::TooSmall)
}

/// A special node that lapsed and was carried by one of its alternatives.
fn has_live_lapsed(graph: &Graph) -> bool {
    graph.nodes.iter().any(|node| node.link == Link::Lapsed && matches!(node.status, Status::Sat | Status::Open))
}

/// An inverse role was taken from some state.
fn takes_inverse(graph: &Graph) -> bool {
    graph.nodes.iter().any(|node| node.above.is_some_and(|above| above.role % 2 == 1))
}

fn assert_often(counts: &Counts) {
    let often = [
        ("can at once", counts.can - counts.too_long),
        ("cannot", counts.cannot),
        ("too long", counts.too_long),
        ("world found", counts.world_found),
        ("small state", counts.small_state),
        ("lapsed special node", counts.lapsed),
        ("lapsed special node that is yes or open", counts.lapsed_and_live),
        ("alternative", counts.alternatives),
        ("rules", counts.rules),
        ("inverse role", counts.inverse),
    ];
    for (what, times) in often {
        assert!(times >= 500, "{what}: only {times} times");
    }
    assert!(counts.example_over_three >= 100, "few examples with more than three elements");
}
