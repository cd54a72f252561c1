//! Checks of an answering function that runs short of a record (document 02, \[4\]): the first record without a place decides which
//! refusal comes, with how many records of its kind.

use crate::files::orders::count;
use crate::{check_example, with_broken_records, Answering, Prng};
use plain::graph::Capacity;
use plain::{Answer, Area, Lent, Used};

/// Places for just these records, a broken record in each area and example areas that nothing may touch.
pub fn lend(records: Used, prng: &mut Prng) -> Lent {
    with_broken_records(Lent::just(records, 2, 1), prng)
}

/// The refusal of a run whose next record is of this area, with just these records lent.
pub fn short(area: Area, records: Used) -> Answer {
    let Used { nodes, edges, alternatives } = records;
    Answer::Short { area, lent: Capacity { nodes, edges, alternatives }.of(area) }
}

/// The run with places for the first so many records of its order stops before the next one.
pub fn check_stop(answer: &mut impl Answering, file: &[u8], records: &[Area], placed: usize, prng: &mut Prng) {
    let used = count(&records[..placed]);
    let lent = lend(used, prng);
    assert_eq!(answer(file, &lent), short(records[placed], used), "stopped after {placed} records: {file:02x?}");
}

/// The run stops before each record of its order, and places for all of them suffice. Gives its verdict.
pub fn check_order(answer: &mut impl Answering, file: &[u8], records: &[Area]) -> Answer {
    let mut prng = Prng::of_bytes(file);
    (0..records.len()).for_each(|placed| check_stop(answer, file, records, placed, &mut prng));
    check_whole(answer, file, records)
}

/// Places for just these records suffice and are used. Gives the verdict.
pub fn check_whole(answer: &mut impl Answering, file: &[u8], records: &[Area]) -> Answer {
    let (all, most) = (count(records), Lent::most());
    let whole = answer(file, &Lent { elements: most.elements, links: most.links, ..Lent::just(all, 0, 0) });
    let used = match &whole {
        Answer::Can { used, .. } | Answer::Cannot { used } => *used,
        other => panic!("{other:?} with places for all records: {file:02x?}"),
    };
    assert_eq!(used, all, "{file:02x?}");
    check_example(file, &whole);
    whole
}

/// The run in areas of these lengths, which are short for its order, stops before the first record that has no place. Gives the
/// area and the number that it was refused with.
pub fn check_areas(answer: &mut impl Answering, file: &[u8], records: &[Area], lent: &Lent) -> (Area, usize) {
    let mut placed = [0; 3];
    let has_no_place = |&&record: &&Area| {
        let free = placed[record as usize] < lent.capacity().of(record);
        placed[record as usize] += usize::from(free);
        !free
    };
    let &area = records.iter().find(has_no_place).expect("areas that are short");
    let told = lent.capacity().of(area);
    assert_eq!(answer(file, lent), Answer::Short { area, lent: told }, "in {lent:?}: {file:02x?}");
    (area, told)
}
