//! Runs of an answering function on one file with different areas never contradict each other; and of the work areas only the one
//! that a refusal names has to be larger (document 02, \[4\]).

use crate::{check_example, random_file, random_lent, with_broken_records, Answering, Prng, Shape};
use plain::sizes::{ALTERNATIVE, EDGE, NODE};
use plain::{Answer, Area, Lent, Used};

const SHAPE: Shape = Shape { names: 2, roles: 1, compound: 14, rules: 4, text: 8 };
const FILES: usize = 4000;

/// How often things happened.
#[derive(Default, Debug)]
struct Counts {
    same: usize,
    too_long: usize,
    /// Refusals 13, 14 and 15.
    short: [usize; 3],
    /// With one record more, the same area was short again, or another, or none.
    again: usize,
    other: usize,
    enough: usize,
}

/// Areas of random lengths: refusal 13, 14 or 15, or what the file gets in areas with room for every run.
pub fn check_different_areas(mut answer: impl Answering) {
    let mut prng = Prng::new(5);
    let mut counts = Counts::default();
    for _ in 0..FILES {
        let file = random_file(&mut prng, SHAPE);
        let whole = answer(&file, &Lent::most());
        check_example(&file, &whole);
        for _ in 0..3 {
            let lent = random_lent(&mut prng);
            match answer(&file, &lent) {
                Answer::Short { area, lent: told } => {
                    assert_eq!(told, lent.capacity().of(area), "{file:02x?} in {lent:?}");
                    check_enlarged(&mut answer, &file, &lent, area, &mut prng, &mut counts);
                }
                Answer::TooLong { elements, links } => {
                    assert_eq!(sizes(&whole), Some((elements, links)), "{file:02x?} in {lent:?}");
                    assert!(!lent.holds(elements, links), "{file:02x?} in {lent:?}");
                    counts.too_long += 1;
                }
                // No area was short, so verdict, counts and example are equal to those with room for every run.
                other => {
                    assert_eq!(other, whole, "{file:02x?} in {lent:?}");
                    counts.same += 1;
                }
            }
        }
    }
    println!("{counts:?}");
    let Counts { same, too_long, short: [nodes, edges, alternatives], again, other, enough } = counts;
    assert!(same > 1000 && too_long > 1000 && nodes > 1000 && edges > 1000 && alternatives > 400);
    assert!(again > 1000 && other > 200 && enough > 300);
}

/// As long as the area that was short is as it was, the refusal stays, however long the others are; with one record more another
/// record has no place, or none.
fn check_enlarged(
    answer: &mut impl Answering,
    file: &[u8],
    lent: &Lent,
    area: Area,
    prng: &mut Prng,
    counts: &mut Counts,
) {
    let refusal = Answer::Short { area, lent: lent.capacity().of(area) };
    let others = with_broken_records(with_area_of(Lent::most(), area, lent), prng);
    assert_eq!(others.capacity().of(area), lent.capacity().of(area));
    assert_eq!(answer(file, &others), refusal, "{file:02x?} in {others:?}, after {lent:?}");
    counts.short[area as usize] += 1;
    match answer(file, &one_more(*lent, area)) {
        Answer::Short { area: next, lent: told } if next == area => {
            assert_eq!(told, lent.capacity().of(area) + 1, "{file:02x?} after {lent:?}");
            counts.again += 1;
        }
        Answer::Short { .. } => counts.other += 1,
        _ => counts.enough += 1,
    }
}

/// These areas, but so many whole records of one kind as there are in another lending.
fn with_area_of(all: Lent, area: Area, of: &Lent) -> Lent {
    let records = of.capacity().of(area);
    match area {
        Area::Nodes => Lent { nodes: NODE * records, ..all },
        Area::Edges => Lent { edges: EDGE * records, ..all },
        Area::Alternatives => Lent { alternatives: ALTERNATIVE * records, ..all },
    }
}

/// The same areas, one of them with one record more.
fn one_more(lent: Lent, area: Area) -> Lent {
    match area {
        Area::Nodes => Lent { nodes: lent.nodes + NODE, ..lent },
        Area::Edges => Lent { edges: lent.edges + EDGE, ..lent },
        Area::Alternatives => Lent { alternatives: lent.alternatives + ALTERNATIVE, ..lent },
    }
}

fn sizes(answer: &Answer) -> Option<(usize, usize)> {
    match answer {
        Answer::Can { elements, links, .. } => Some((elements.len(), links.len())),
        _ => None,
    }
}

/// Areas that are just enough give the same answer; with one byte less in one of them the file is refused.
pub fn check_just_enough(mut answer: impl Answering) {
    let mut prng = Prng::new(6);
    let mut tried = 0;
    for _ in 0..FILES {
        let file = random_file(&mut prng, SHAPE);
        let whole = answer(&file, &Lent::most());
        let (used, elements, links) = match &whole {
            Answer::Can { used, elements, links } => (*used, elements.len(), links.len()),
            Answer::Cannot { used } => (*used, 0, 0),
            Answer::Short { .. } => continue,
            other => panic!("{other:?} in the largest areas: {file:02x?}"),
        };
        let lent = Lent::just(used, elements, links);
        assert_eq!(answer(&file, &lent), whole, "{file:02x?} in areas just enough");
        check_example(&file, &whole);
        check_one_less(&mut answer, &file, &lent, used);
        check_example_one_less(&mut answer, &file, &lent, elements, links);
        tried += 1;
    }
    println!("files in areas just enough: {tried}");
    assert!(tried > 3000);
}

/// One byte less breaks the last record, and that record finds no place: the others count as lent.
fn check_one_less(answer: &mut impl Answering, file: &[u8], lent: &Lent, used: Used) {
    let nodes = Lent { nodes: lent.nodes - 1, ..*lent };
    check_short(answer, file, &nodes, Area::Nodes, used.nodes - 1);
    let edges = Lent { edges: lent.edges - 1, ..*lent };
    check_short(answer, file, &edges, Area::Edges, used.edges - 1);
    if used.alternatives > 0 {
        let alternatives = Lent { alternatives: lent.alternatives - 1, ..*lent };
        check_short(answer, file, &alternatives, Area::Alternatives, used.alternatives - 1);
    }
}

fn check_short(answer: &mut impl Answering, file: &[u8], lent: &Lent, area: Area, records: usize) {
    assert_eq!(answer(file, lent), Answer::Short { area, lent: records }, "{file:02x?} in {lent:?}");
}

/// One byte less in an example area gives refusal 11 with both counts.
fn check_example_one_less(answer: &mut impl Answering, file: &[u8], lent: &Lent, elements: usize, links: usize) {
    let too_long = Answer::TooLong { elements, links };
    if elements > 0 {
        assert_eq!(answer(file, &Lent { elements: lent.elements - 1, ..*lent }), too_long, "{file:02x?}");
    }
    if links > 0 {
        assert_eq!(answer(file, &Lent { links: lent.links - 1, ..*lent }), too_long, "{file:02x?}");
    }
}
