//! Long runs, short of a record: an answering function against orders by hand; and runs that need more than the 4,096 records that
//! count.

use super::stops::{check_areas, check_order, check_stop, check_whole};
use crate::files::long_runs::{answers, branches, crowd, first_of_ladder, signals, LongRun};
use crate::files::orders::count;
use crate::{with_broken_records, Answering, Prng};
use plain::sizes::MOST_RECORDS;
use plain::{Answer, Area, Lent, Used};

/// Runs of hundreds of records are stopped before each of them.
pub fn check_long_runs(mut answer: impl Answering) {
    let mut check = |LongRun { file, records }: LongRun| {
        println!("records: {}, {:?}", records.len(), count(&records));
        check_order(&mut answer, &file, &records)
    };
    assert!(matches!(check(signals(7)), Answer::Can { elements, .. } if elements.len() == 128));
    assert!(matches!(check(answers(30)), Answer::Can { elements, .. } if elements.len() == 31));
    assert!(matches!(check(crowd(5, 6)), Answer::Cannot { .. }));
    let LongRun { file, records } = first_of_ladder();
    let mut prng = Prng::new(1);
    (0..records.len()).for_each(|placed| check_stop(&mut answer, &file, &records, placed, &mut prng));
}

/// Areas of random lengths that are short for a run that uses these records: one of them, by turns, has fewer, and in every other
/// round the others may have fewer too.
fn short_areas(used: Used, round: usize, prng: &mut Prng) -> Lent {
    let all = [used.nodes, used.edges, used.alternatives];
    let turns: Vec<usize> = (0..3).filter(|&area| all[area] > 0).collect();
    let turn = turns[round / 2 % turns.len()];
    let mut lent = all.map(|records| match round % 2 {
        0 => records,
        _ => prng.below(records + 1),
    });
    lent[turn] = prng.below(all[turn]);
    with_broken_records(Lent::records(lent[0], lent[1], lent[2], 16, 6), prng)
}

/// Runs of thousands of records in areas that are short for them, and in areas just enough.
pub fn check_longest_runs(mut answer: impl Answering) {
    let mut prng = Prng::new(2);
    let mut times = [0; 3];
    for LongRun { file, records } in [signals(9), crowd(8, 8)] {
        let used = count(&records);
        println!("records: {}, {used:?}", records.len());
        for round in 0..120 {
            let lent = short_areas(used, round, &mut prng);
            let (area, _) = check_areas(&mut answer, &file, &records, &lent);
            times[area as usize] += 1;
        }
        check_whole(&mut answer, &file, &records);
    }
    println!("refusals 13, 14, 15: {times:?}");
    assert!(times.iter().all(|&times| times >= 20), "{times:?}");
}

/// Some more records than count, or more than a number of two bytes can tell; and one broken.
fn more_than_count(records: usize, prng: &mut Prng) -> Lent {
    with_broken_records(Lent::records(records, records, records, 16, 6), prng)
}

/// Runs that need more than 4,096 records: 4,096 is told, however many are lent, and no other area helps.
///
/// Of 15 that cannot be had: each alternative comes with a special node of its own, and the root and a state with its special node
/// have none. So 4,096 places for alternatives are always enough for 4,096 nodes.
pub fn check_most_records(mut answer: impl Answering) {
    let mut prng = Prng::new(3);
    let mut check = |LongRun { file, records }: &LongRun, lent: &Lent| check_areas(&mut answer, file, records, lent);
    let (nodes, edges, alternatives) = (branches(13), signals(10), crowd(9, 7));
    let (most, more) = (Lent::most(), more_than_count(5000, &mut prng));
    let (many, none) =
        (more_than_count(65_536 + 7, &mut prng), Lent { alternatives: 0, elements: 0, links: 0, ..most });
    for lent in [most, more, many, none] {
        assert_eq!(check(&nodes, &lent), (Area::Nodes, MOST_RECORDS));
        assert_eq!(check(&edges, &lent), (Area::Edges, MOST_RECORDS));
    }
    // 4,095 edges are enough for 4,096 nodes of a tree, and 3,074 nodes for 4,096 edges of the signals.
    assert_eq!(check(&nodes, &Lent { edges: 16 * 4095, ..more }), (Area::Nodes, MOST_RECORDS));
    assert_eq!(check(&nodes, &Lent { edges: 16 * 4094, ..more }), (Area::Edges, 4094));
    assert_eq!(check(&edges, &Lent { nodes: 64 * 3074, ..more }), (Area::Edges, MOST_RECORDS));
    assert_eq!(check(&edges, &Lent { nodes: 64 * 3073, ..more }), (Area::Nodes, 3073));
    assert_eq!(check(&alternatives, &more), (Area::Nodes, MOST_RECORDS));
    assert_eq!(check(&alternatives, &Lent { alternatives: 16 * 2000 + 15, ..more }), (Area::Alternatives, 2000));
}
