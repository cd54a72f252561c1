//! Lengths of areas to lend for a file, at random.

use super::random::Prng;
use plain::sizes::{ALTERNATIVE, EDGE, NODE};
use plain::{Lent, Used};

/// Areas of odd lengths: a broken last record doesn't count.
pub fn random_lent(prng: &mut Prng) -> Lent {
    let Lent { nodes, edges, alternatives, elements, links } =
        Lent::just(Used { nodes: 60, edges: 80, alternatives: 6 }, 6, 8);
    let [nodes, edges, alternatives, elements, links] =
        [nodes, edges, alternatives, elements, links].map(|length| prng.below(length));
    Lent { nodes, edges, alternatives, elements, links }
}

/// Room for nearly every run, now and then the areas of the printing program, now and then example areas that are too short.
pub fn random_areas(prng: &mut Prng) -> Lent {
    let whole = Lent::just(Used { nodes: 200, edges: 300, alternatives: 50 }, 100, 150);
    match prng.below(16) {
        0 => Lent::by_program(),
        1..3 => Lent { elements: prng.below(40), ..whole },
        3..5 => Lent { links: prng.below(30), ..whole },
        _ => whole,
    }
}

/// The same areas, each work area with some bytes more, less than one record.
pub fn with_broken_records(whole: Lent, prng: &mut Prng) -> Lent {
    let mut more = |record: usize| 1 + prng.below(record - 1);
    Lent {
        nodes: whole.nodes + more(NODE),
        edges: whole.edges + more(EDGE),
        alternatives: whole.alternatives + more(ALTERNATIVE),
        ..whole
    }
}

#[cfg(test)]
mod tests {
    use super::*;

    #[test]
    fn every_work_area_has_a_broken_record() {
        let whole = Lent::records(1, 2, 3, 4, 5);
        let mut prng = Prng::new(1);
        for _ in 0..1000 {
            let lent = with_broken_records(whole, &mut prng);
            assert_eq!(lent.capacity(), whole.capacity());
            assert!(lent.nodes > whole.nodes && lent.edges > whole.edges && lent.alternatives > whole.alternatives);
            assert_eq!((lent.elements, lent.links), (whole.elements, whole.links));
        }
    }
}
