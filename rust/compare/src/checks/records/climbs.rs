//! Climbs: nothing is lent at first, then one record more of the kind that was refused, again and again, until no area is short. What
//! is lent then are the records that the run uses, and the refusals on the way give their order, whatever the file.

use super::stops::{lend, short};
use crate::files::chains::{alternatives, clocked_line, delay_line, ladder, Clock, Delay, RUNGS};
use crate::files::orders::{count, Order};
use crate::files::wide::wide;
use crate::{random_file, Answering, Prng, Shape};
use plain::sizes::MOST_RECORDS;
use plain::{Answer, Area, Lent, Used};

/// The records in order of their refusals, and the answer when no more are lent.
struct Climb {
    records: Order,
    last: Answer,
}

/// Each refusal tells what was lent. A climb ends with another answer, or where no more records count.
fn climb(answer: &mut impl Answering, file: &[u8], example: Lent) -> Climb {
    let mut prng = Prng::of_bytes(file);
    let (mut records, mut lent) = (Order::new(), Used { nodes: 0, edges: 0, alternatives: 0 });
    loop {
        let areas = Lent { elements: example.elements, links: example.links, ..lend(lent, &mut prng) };
        let last = answer(file, &areas);
        match last {
            Answer::Short { area, lent: told } if told < MOST_RECORDS => {
                assert_eq!(last, short(area, lent), "{file:02x?} in {areas:?}");
                records.push(area);
                add(&mut lent, area);
            }
            _ => return Climb { records, last },
        }
    }
}

fn add(lent: &mut Used, area: Area) {
    match area {
        Area::Nodes => lent.nodes += 1,
        Area::Edges => lent.edges += 1,
        Area::Alternatives => lent.alternatives += 1,
    }
}

/// How often things happened.
#[derive(Default, Debug)]
struct Counts {
    steps: usize,
    /// Refusals 13, 14 and 15 on the way.
    short: [usize; 3],
    longest: usize,
    can: usize,
    cannot: usize,
    too_long: usize,
}

/// A climb ends with the answer of the largest areas, but for 11 if the example has no room, and with just the records that it uses.
fn check_climb(answer: &mut impl Answering, file: &[u8], example: Lent, counts: &mut Counts) {
    let whole = answer(file, &Lent::most());
    let Climb { records, last } = climb(answer, file, example);
    let (used, expected) = match &whole {
        Answer::Cannot { used } => (*used, whole.clone()),
        Answer::Can { used, elements, links } if example.holds(elements.len(), links.len()) => (*used, whole.clone()),
        Answer::Can { used, elements, links } => {
            (*used, Answer::TooLong { elements: elements.len(), links: links.len() })
        }
        other => panic!("{other:?} in the largest areas: {file:02x?}"),
    };
    assert_eq!(count(&records), used, "lent at the end, used in the largest areas: {file:02x?}");
    assert_eq!(last, expected, "{file:02x?}");
    counts.steps += records.len();
    counts.longest = counts.longest.max(records.len());
    records.iter().for_each(|&area| counts.short[area as usize] += 1);
    match last {
        Answer::Cannot { .. } => counts.cannot += 1,
        Answer::Can { .. } => counts.can += 1,
        _ => counts.too_long += 1,
    }
}

/// Shapes of random files, how many of them, and the most records of a kind in a run that is climbed: a climb's time goes with their
/// square.
const SHAPES: [(Shape, usize); 3] = [
    (Shape { names: 1, roles: 1, compound: 8, rules: 2, text: 4 }, 1500),
    (Shape { names: 2, roles: 1, compound: 14, rules: 4, text: 8 }, 1500),
    (Shape { names: 3, roles: 2, compound: 24, rules: 5, text: 8 }, 1500),
];
const MOST_STEPS: usize = 300;

/// Climbs of random files. Every other one has no room for an example.
pub fn check_random_climbs(mut answer: impl Answering) {
    let mut counts = Counts::default();
    let enough = Lent::records(MOST_STEPS, MOST_STEPS, MOST_STEPS, 0, 0);
    for (seed, (shape, files)) in SHAPES.into_iter().enumerate() {
        let mut prng = Prng::new(101 + seed as u64);
        for round in 0..files {
            let file = random_file(&mut prng, shape);
            let example = if round % 2 == 0 { Lent::most() } else { Lent::records(0, 0, 0, 0, 0) };
            if !matches!(answer(&file, &enough), Answer::Short { .. }) {
                check_climb(&mut answer, &file, example, &mut counts);
            }
        }
    }
    println!("{counts:?}");
    let Counts { short: [nodes, edges, alternatives], longest, can, cannot, too_long, .. } = counts;
    assert!(nodes > 40_000 && edges > 40_000 && alternatives > 1000, "{counts:?}");
    assert!(longest > 400 && can > 500 && cannot > 500 && too_long > 500, "{counts:?}");
}

/// Climbs of 500 to 6,000 records: alternatives, ladders, lines and a wide example.
pub fn check_long_climbs(mut answer: impl Answering) {
    let (delay, clock) = (Delay { line: 7, pause: 3, tail: 8 }, Clock { period: 6, line: 24, tail: 2 });
    let mut files = vec![alternatives(5), ladder(RUNGS, false), ladder(21, true)];
    files.extend([true, false].map(|forbid| delay_line(delay, forbid)));
    files.extend([true, false].map(|forbid| clocked_line(clock, forbid)));
    files.extend(wide().pop());
    let mut counts = Counts::default();
    files.iter().for_each(|file| check_climb(&mut answer, file, Lent::most(), &mut counts));
    println!("{counts:?}");
    assert!(counts.longest > 6000 && counts.can >= 5 && counts.cannot >= 2, "{counts:?}");
    assert!(counts.short.iter().all(|&times| times > 150), "{counts:?}");
}
