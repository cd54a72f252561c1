//! Where each row holds in a finite world (document 01, "The meaning of ALCI"; document 02, \[6\]). Nothing here knows of graphs: names
//! and links come in, row sets go out.
//!
//! In order: the rows, each at all elements before the next; the pairs of a role; worlds by hand.

use crate::concept::{inverse, Concept, Role};
use crate::hierarchy::RoleHierarchy;
use crate::row_set::RowSet;

/// A link: from, role code, to.
pub type RoleLink = (u16, Role, u16);

/// A set of names: name k as bit k.
pub type Names = u64;

/// The rows that hold at each element, given the names that hold there and the links. Arguments are lower rows, so one pass over
/// the rows settles all; a row takes as many steps as there are elements and links. A kind 7 row is never listed.
pub fn evaluate(concepts: &[Concept], names: &[Names], links: &[RoleLink]) -> Vec<RowSet> {
    let links = Links { links, hierarchy: RoleHierarchy::of(concepts) };
    let mut elements = vec![RowSet::EMPTY; names.len()];
    for (row, &concept) in concepts.iter().enumerate() {
        match concept {
            Concept::Atomic(name) => list_where(&mut elements, row, |d, _| names[d] >> name & 1 == 1),
            Concept::Negated(name) => list_where(&mut elements, row, |d, _| names[d] >> name & 1 == 0),
            Concept::Conj(l, r) => list_where(&mut elements, row, |_, rows| rows.contains(l) && rows.contains(r)),
            Concept::Disj(l, r) => list_where(&mut elements, row, |_, rows| rows.contains(l) || rows.contains(r)),
            Concept::Univ(role, l) => list_all(&mut elements, row, &links, role, l),
            Concept::Exist(role, l) => list_some(&mut elements, row, &links, role, l),
            Concept::Inclusion(..) => (),
        }
    }
    elements
}

/// Lists a row where the element and its lower rows pass.
fn list_where(elements: &mut [RowSet], row: usize, passes: impl Fn(usize, RowSet) -> bool) {
    for (d, rows) in elements.iter_mut().enumerate() {
        if passes(d, *rows) {
            *rows = rows.with(row);
        }
    }
}

/// Lists a kind 5 row: everywhere but where the role leads to an element without the argument.
fn list_all(elements: &mut [RowSet], row: usize, links: &Links, role: Role, argument: usize) {
    list_where(elements, row, |_, _| true);
    links.for_each_pair(role, |d, e| {
        if !elements[e].contains(argument) {
            elements[d] = elements[d].without(row);
        }
    });
}

/// Lists a kind 6 row: where the role leads to an element with the argument.
fn list_some(elements: &mut [RowSet], row: usize, links: &Links, role: Role, argument: usize) {
    links.for_each_pair(role, |d, e| {
        if elements[e].contains(argument) {
            elements[d] = elements[d].with(row);
        }
    });
}

/// The links, and which roles are narrower than which.
struct Links<'a> {
    links: &'a [RoleLink],
    hierarchy: RoleHierarchy,
}

impl Links<'_> {
    /// The pairs (d, e) such that the role leads from d to e: a link of its code or a narrower one, and one of the code turned round or
    /// narrower than that, read backwards. A link can be both.
    fn for_each_pair(&self, role: Role, mut pair: impl FnMut(usize, usize)) {
        let turned = inverse(role);
        for &(from, code, to) in self.links {
            let (from, to) = (usize::from(from), usize::from(to));
            if self.hierarchy.is_narrower(code, role) {
                pair(from, to);
            }
            if self.hierarchy.is_narrower(code, turned) {
                pair(to, from);
            }
        }
    }
}

#[cfg(test)]
mod tests {
    use super::*;
    use Concept::{Atomic, Conj, Disj, Exist, Inclusion, Negated, Univ};

    /// The rows that hold at each element, rising.
    fn rows(concepts: &[Concept], names: &[Names], links: &[RoleLink]) -> Vec<Vec<usize>> {
        evaluate(concepts, names, links).into_iter().map(|rows| rows.rows().collect()).collect()
    }

    #[test]
    fn the_world_of_the_eight_node_run() {
        // Name 0 holds at element 0, which role 0 leads from to element 1. Nothing leads back to element 0, so row 1 holds there.
        let concepts = [Atomic(0), Univ(1, 0), Exist(0, 1)];
        let sets = evaluate(&concepts, &[1, 0], &[(0, 0, 1)]);
        assert_eq!(sets.iter().map(RowSet::to_string).collect::<Vec<_>>(), ["0000000000000007", "0000000000000002"]);
    }

    #[test]
    fn names_and_their_negations() {
        let concepts = [Atomic(0), Negated(0), Atomic(63), Negated(63)];
        assert_eq!(rows(&concepts, &[1 << 63, 1, 1 | 1 << 63], &[]), [[1, 2], [0, 3], [0, 2]]);
    }

    #[test]
    fn a_name_with_a_kind_2_row_only_holds_nowhere() {
        assert_eq!(rows(&[Negated(5), Exist(0, 0)], &[0, 0], &[(0, 0, 1)]), [vec![0, 1], vec![0]]);
    }

    #[test]
    fn both_and_either() {
        let concepts = [Atomic(0), Atomic(1), Conj(0, 1), Disj(0, 1)];
        assert_eq!(rows(&concepts, &[0, 1, 2, 3], &[]), [vec![], vec![0, 3], vec![1, 3], vec![0, 1, 2, 3]]);
    }

    #[test]
    fn all_holds_where_there_is_no_link() {
        // Row 0 holds nowhere. Role 0 leads from element 0 to 1 only, role 1 from nowhere.
        let concepts = [Atomic(0), Univ(0, 0), Univ(2, 0), Exist(0, 0), Exist(2, 0)];
        assert_eq!(rows(&concepts, &[0, 0], &[(0, 0, 1)]), [vec![2], vec![1, 2]]);
    }

    #[test]
    fn all_asks_every_element_and_some_asks_one() {
        let concepts = [Atomic(0), Univ(0, 0), Exist(0, 0)];
        let three = |names: [Names; 2]| rows(&concepts, &[0, names[0], names[1]], &[(0, 0, 1), (0, 0, 2)])[0].clone();
        assert_eq!(three([0, 0]), []);
        assert_eq!(three([1, 0]), [2]);
        assert_eq!(three([0, 1]), [2]);
        assert_eq!(three([1, 1]), [1, 2]);
    }

    #[test]
    fn a_link_is_followed_backwards() {
        let concepts = [Atomic(0), Exist(0, 0), Exist(1, 0), Univ(0, 0), Univ(1, 0)];
        // An even link goes to element 1: from there code 1 leads back to element 0, which has the name.
        assert_eq!(rows(&concepts, &[1, 0], &[(0, 0, 1)]), [vec![0, 4], vec![2, 3, 4]]);
        // An odd link from element 0 is the pair (1, 0): code 1 leads from 0 to 1, code 0 back.
        assert_eq!(rows(&concepts, &[1, 0], &[(0, 1, 1)]), [vec![0, 3], vec![1, 3, 4]]);
    }

    #[test]
    fn other_roles_do_not_lead_there() {
        let concepts = [Atomic(0), Exist(2, 0), Exist(3, 0), Exist(30, 0), Exist(31, 0)];
        assert_eq!(rows(&concepts, &[1, 1], &[(0, 2, 1)]), [[0, 1], [0, 2]]);
        assert_eq!(rows(&concepts, &[1, 1], &[(0, 31, 1)]), [[0, 4], [0, 3]]);
        assert_eq!(rows(&concepts, &[1, 1], &[(0, 1, 1)]), [[0], [0]]);
    }

    #[test]
    fn a_link_to_itself_leads_both_ways() {
        let concepts = [Atomic(0), Exist(0, 0), Exist(1, 0), Univ(0, 0), Univ(1, 0)];
        for code in [0, 1] {
            assert_eq!(rows(&concepts, &[1], &[(0, code, 0)]), [[0, 1, 2, 3, 4]]);
            assert_eq!(rows(&concepts, &[0], &[(0, code, 0)]), [[0; 0]]);
        }
    }

    #[test]
    fn a_pair_told_from_both_ends_and_a_link_told_twice() {
        let concepts = [Atomic(0), Exist(0, 0), Exist(1, 0), Univ(0, 0), Univ(1, 0)];
        let once = evaluate(&concepts, &[1, 0], &[(0, 0, 1)]);
        assert_eq!(evaluate(&concepts, &[1, 0], &[(0, 0, 1), (1, 1, 0)]), once);
        assert_eq!(evaluate(&concepts, &[1, 0], &[(0, 0, 1), (0, 0, 1)]), once);
    }

    #[test]
    fn a_link_is_one_of_every_wider_role() {
        // Row 0 is never listed. Code 2 leads from 0 to 1, and so does code 5; back lead 3 and 4.
        let concepts =
            [Inclusion(2, 5), Atomic(0), Exist(2, 1), Exist(3, 1), Exist(4, 1), Exist(5, 1), Univ(5, 1), Univ(4, 1)];
        assert_eq!(rows(&concepts, &[1, 0], &[(0, 2, 1)]), [vec![1, 7], vec![3, 4, 6, 7]]);
        assert_eq!(rows(&concepts, &[0, 1], &[(0, 2, 1)]), [vec![2, 5, 6, 7], vec![1, 6]]);
        // A link of the wider role is none of the narrower.
        assert_eq!(rows(&concepts, &[0, 1], &[(0, 5, 1)]), [vec![5, 6, 7], vec![1, 6]]);
    }

    #[test]
    fn a_symmetric_role_leads_both_ways() {
        let concepts = [Inclusion(0, 1), Atomic(0), Exist(0, 1), Exist(1, 1), Univ(0, 1), Univ(1, 1)];
        for code in [0, 1] {
            assert_eq!(rows(&concepts, &[1, 0], &[(0, code, 1)]), [vec![1], vec![2, 3, 4, 5]]);
        }
    }

    #[test]
    fn rows_nest() {
        // A chain of three: the name holds at its end. Row 3: some successor has a successor with the name.
        let concepts = [Atomic(0), Exist(0, 0), Univ(0, 1), Exist(0, 1), Conj(2, 3)];
        let chain = rows(&concepts, &[0, 0, 1], &[(0, 0, 1), (1, 0, 2)]);
        assert_eq!(chain, [vec![2, 3, 4], vec![1], vec![0, 2]]);
    }

    #[test]
    fn the_last_of_64_rows_is_bit_63() {
        let concepts: Vec<Concept> = (0..64).map(Atomic).collect();
        assert_eq!(evaluate(&concepts, &[1 << 63], &[])[0].to_string(), "8000000000000000");
    }
}
