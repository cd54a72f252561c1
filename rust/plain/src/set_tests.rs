//! What the procedure asks of a set of rows. Rows are looked at from row 0 on, rising.

use crate::concept::{Concept, Role};
use crate::hierarchy::RoleHierarchy;
use crate::row_set::RowSet;

/// The concepts of a set, rising.
fn members(concepts: &[Concept], set: RowSet) -> impl Iterator<Item = Concept> + '_ {
    set.rows().map(|row| concepts[row])
}

/// A name's kind 1 and kind 2 rows together.
pub fn clash(concepts: &[Concept], set: RowSet) -> bool {
    members(concepts, set).any(|c| match c {
        Concept::Atomic(name) => members(concepts, set).any(|d| d == Concept::Negated(name)),
        _ => false,
    })
}

/// The arguments of the lowest kind 3 row with an argument outside the set.
pub fn lowest_conj(concepts: &[Concept], set: RowSet) -> Option<(usize, usize)> {
    members(concepts, set).find_map(|c| match c {
        Concept::Conj(l, r) if !(set.contains(l) && set.contains(r)) => Some((l, r)),
        _ => None,
    })
}

/// The arguments of the lowest kind 4 row with both outside the set.
pub fn lowest_disj(concepts: &[Concept], set: RowSet) -> Option<(usize, usize)> {
    members(concepts, set).find_map(|c| match c {
        Concept::Disj(l, r) if !(set.contains(l) || set.contains(r)) => Some((l, r)),
        _ => None,
    })
}

/// Has the set an unfinished row?
pub fn unfinished(concepts: &[Concept], set: RowSet) -> bool {
    lowest_conj(concepts, set).is_some() || lowest_disj(concepts, set).is_some()
}

/// The arguments of the set's kind 5 rows along the role or a wider one.
pub fn universal_arguments(concepts: &[Concept], hierarchy: &RoleHierarchy, set: RowSet, role: Role) -> RowSet {
    members(concepts, set)
        .filter_map(|c| match c {
            Concept::Univ(along, l) if hierarchy.is_narrower(role, along) => Some(l),
            _ => None,
        })
        .collect()
}

/// Role and argument of the set's kind 6 rows, rising.
pub fn existentials(concepts: &[Concept], set: RowSet) -> Vec<(Role, usize)> {
    members(concepts, set)
        .filter_map(|c| match c {
            Concept::Exist(role, l) => Some((role, l)),
            _ => None,
        })
        .collect()
}
