//! Which rows of a draft the rules and the wanted row need: each itself, its opposite, or both.

use worlds::{Concept, Ontology};

/// For each row: is it needed itself, is its opposite? Arguments are lower rows, so one pass downwards settles all.
pub fn needs(ontology: &Ontology) -> Vec<[bool; 2]> {
    let mut needs = vec![[false; 2]; ontology.rows.len()];
    ontology.tbox.iter().chain(&ontology.wanted).for_each(|&row| needs[row][0] = true);
    for row in (0..needs.len()).rev() {
        for (argument, turned) in arguments(ontology.rows[row]) {
            let [itself, opposite] = needs[row];
            needs[argument][usize::from(turned)] |= itself;
            needs[argument][usize::from(!turned)] |= opposite;
        }
    }
    needs
}

/// The arguments of a row, and whether the row needs their opposites. The opposite of the row then needs the opposites of these.
fn arguments(concept: Concept) -> Vec<(usize, bool)> {
    match concept {
        Concept::Name(_) | Concept::NotName(_) | Concept::Narrower(..) => vec![],
        Concept::Both(l, r) | Concept::Either(l, r) => vec![(l, false), (r, false)],
        Concept::All(_, l) | Concept::Some(_, l) => vec![(l, false)],
        Concept::Not(l) => vec![(l, true)],
        Concept::IfThen(l, r) => vec![(l, true), (r, false)],
    }
}
