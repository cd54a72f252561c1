//! Concepts (document 01's rows), role inclusions (document 02, \[6\]) and role codes.

use crate::sizes::{CODES, NAMES};

/// A role code: 2k is role k, 2k + 1 its inverse.
pub type Role = u16;

/// The role of the root's put: no row has it, and none has its inverse.
pub const NO_ROLE: Role = CODES as Role;

/// The role turned round: add one to an even code, take one from an odd code.
pub fn inverse(role: Role) -> Role {
    match role % 2 {
        0 => role + 1,
        _ => role - 1,
    }
}

/// Bytes of a row.
pub const ROW: usize = 4;

/// A row's bytes: kind, role, left, right.
pub type Row = [u8; ROW];

/// What a row can say, by the kinds that are allowed.
pub trait Kinds: Copy {
    /// What a row says. `None` if it is malformed: a kind that is not allowed, a non-zero unused byte, a role above 31 or a name
    /// above 63.
    fn of_row(row: Row) -> Option<Self>;

    /// Does every row pass that it names as an argument?
    fn arguments_pass(self, passes: impl Fn(usize) -> bool) -> bool;

    /// The two roles of a kind 7 row, the narrower first.
    fn inclusion(self) -> Option<(Role, Role)>;
}

/// What a row of a rule file says; arguments are numbers of lower rows.
#[derive(Clone, Copy, Debug, PartialEq, Eq)]
pub enum Concept {
    /// Kind 1: a name.
    Atomic(u8),
    /// Kind 2: not that name.
    Negated(u8),
    /// Kind 3: both.
    Conj(usize, usize),
    /// Kind 4: either.
    Disj(usize, usize),
    /// Kind 5: all along the role.
    Univ(Role, usize),
    /// Kind 6: some along the role.
    Exist(Role, usize),
    /// Kind 7: every pair of the first role is a pair of the second. It says nothing of an element, so it stands in no set.
    Inclusion(Role, Role),
}

impl Kinds for Concept {
    fn of_row([kind, role, left, right]: Row) -> Option<Concept> {
        let (l, r) = (usize::from(left), usize::from(right));
        match kind {
            1 if role == 0 && right == 0 && left < NAMES => Some(Concept::Atomic(left)),
            2 if role == 0 && right == 0 && left < NAMES => Some(Concept::Negated(left)),
            3 if role == 0 => Some(Concept::Conj(l, r)),
            4 if role == 0 => Some(Concept::Disj(l, r)),
            5 if right == 0 && role < CODES => Some(Concept::Univ(Role::from(role), l)),
            6 if right == 0 && role < CODES => Some(Concept::Exist(Role::from(role), l)),
            7 if right == 0 && role < CODES && left < CODES => {
                Some(Concept::Inclusion(Role::from(role), Role::from(left)))
            }
            _ => None,
        }
    }

    fn arguments_pass(self, passes: impl Fn(usize) -> bool) -> bool {
        match self {
            Concept::Atomic(_) | Concept::Negated(_) | Concept::Inclusion(..) => true,
            Concept::Conj(l, r) | Concept::Disj(l, r) => passes(l) && passes(r),
            Concept::Univ(_, l) | Concept::Exist(_, l) => passes(l),
        }
    }

    fn inclusion(self) -> Option<(Role, Role)> {
        match self {
            Concept::Inclusion(narrow, wide) => Some((narrow, wide)),
            _ => None,
        }
    }
}
