//! Drafts: rule files with "not" and "if" (document 02, \[1\]).

use crate::concept::{Concept, Kinds, Role, Row};

/// What a row of a draft says; arguments are numbers of lower rows.
#[derive(Clone, Copy, Debug, PartialEq, Eq)]
pub enum DraftConcept {
    /// Kinds 1 to 7: as in a rule file.
    Plain(Concept),
    /// Kind 8: not the left row.
    Not(usize),
    /// Kind 9: if left then right.
    If(usize, usize),
}

impl Kinds for DraftConcept {
    fn of_row(row: Row) -> Option<DraftConcept> {
        match row {
            [8, 0, left, 0] => Some(DraftConcept::Not(left.into())),
            [9, 0, left, right] => Some(DraftConcept::If(left.into(), right.into())),
            plain => Concept::of_row(plain).map(DraftConcept::Plain),
        }
    }

    fn arguments_pass(self, passes: impl Fn(usize) -> bool) -> bool {
        match self {
            DraftConcept::Plain(concept) => concept.arguments_pass(passes),
            DraftConcept::Not(l) => passes(l),
            DraftConcept::If(l, r) => passes(l) && passes(r),
        }
    }

    fn inclusion(self) -> Option<(Role, Role)> {
        match self {
            DraftConcept::Plain(concept) => concept.inclusion(),
            DraftConcept::Not(_) | DraftConcept::If(..) => None,
        }
    }
}
