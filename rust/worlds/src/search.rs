//! Is there a small world that obeys every rule and every kind 7 row and has a member of the kit?

use crate::ontology::Ontology;
use crate::partial::{Bounds, PartialWorld};
use crate::world::World;

/// A world of up to `max_elements` elements (at most 8) that obeys every rule and every kind 7 row and whose element 0 is a member of the
/// kit.
/// Elements can be renumbered, so asking this of element 0 leaves out no size. `None` if there is no such world.
pub fn search(ontology: &Ontology, max_elements: usize) -> Option<World> {
    (1..=max_elements).find_map(|size| extend(ontology, &PartialWorld::new(size), size))
}

/// A completion of the partial world that is such a world. Only questions that a goal depends on are ever branched over,
/// and a branch is cut as soon as a goal can't be met.
fn extend(ontology: &Ontology, partial: &PartialWorld, size: usize) -> Option<World> {
    let bounds = partial.bounds(ontology);
    if goals(ontology, size).any(|(row, d)| !bounds[row].may_at(d)) {
        return None;
    }
    match goals(ontology, size).find(|&goal| is_unmet(&bounds, goal)) {
        None => Some(partial.completed()),
        Some((row, d)) => {
            let question = partial.open_question(ontology, &bounds, row, d);
            let settled = |yes| partial.settled(ontology, question, yes);
            [true, false].into_iter().find_map(|yes| extend(ontology, &settled(yes), size))
        }
    }
}

/// The rows that must hold, and where: the wanted rows at element 0, every rule at each element.
fn goals(ontology: &Ontology, size: usize) -> impl Iterator<Item = (usize, usize)> + '_ {
    let rules = ontology.tbox.iter().flat_map(move |&rule| (0..size).map(move |d| (rule, d)));
    ontology.wanted.iter().map(|&row| (row, 0)).chain(rules)
}

fn is_unmet(bounds: &[Bounds], (row, d): (usize, usize)) -> bool {
    !bounds[row].must_at(d)
}
