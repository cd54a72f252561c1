//! Which roles are narrower than which (document 02, \[6\]): the least relation on role codes that has the two codes of each kind 7
//! row, is reflexive and transitive, and has two codes turned round whenever it has these.

use crate::concept::{inverse, Kinds, Role};
use crate::sizes;

const CODES: usize = sizes::CODES as usize;

/// A set of role codes: code c as bit c.
type Codes = u32;

/// For each role code the codes that are narrower or equal.
#[derive(Clone, Copy, Debug, PartialEq, Eq)]
pub struct RoleHierarchy([Codes; CODES]);

impl RoleHierarchy {
    /// By Warshall's algorithm, over the rows and the rows turned round: so the relation is closed under turning round already before it
    /// is under chaining. A code that no row names leads on to nothing.
    pub fn of<C: Kinds>(concepts: &[C]) -> RoleHierarchy {
        let mut narrower: [Codes; CODES] = std::array::from_fn(|code| 1 << code);
        let mut named: Codes = 0;
        for (narrow, wide) in concepts.iter().filter_map(|row| row.inclusion()) {
            for (narrow, wide) in [(narrow, wide), (inverse(narrow), inverse(wide))] {
                narrower[usize::from(wide)] |= 1 << narrow;
                named |= 1 << narrow | 1 << wide;
            }
        }
        for via in (0..CODES).filter(|&code| named >> code & 1 == 1) {
            for wide in 0..CODES {
                if narrower[wide] >> via & 1 == 1 {
                    narrower[wide] |= narrower[via];
                }
            }
        }
        RoleHierarchy(narrower)
    }

    /// Is the one role narrower than the other, a role of a row, or equal to it? The root's role never is.
    pub fn is_narrower(&self, role: Role, wide: Role) -> bool {
        u64::from(self.0[usize::from(wide)]) >> role & 1 == 1
    }
}

#[cfg(test)]
mod tests {
    use super::*;
    use crate::concept::{Concept, NO_ROLE};

    /// The pairs of different codes, the first narrower.
    fn pairs(inclusions: &[(Role, Role)]) -> Vec<(Role, Role)> {
        let rows: Vec<Concept> = inclusions.iter().map(|&(narrow, wide)| Concept::Inclusion(narrow, wide)).collect();
        let hierarchy = RoleHierarchy::of(&rows);
        assert!((0..32).all(|code| hierarchy.is_narrower(code, code)));
        let codes = (0..32).flat_map(|narrow| (0..32).map(move |wide| (narrow, wide)));
        codes.filter(|&(narrow, wide)| narrow != wide && hierarchy.is_narrower(narrow, wide)).collect()
    }

    #[test]
    fn without_rows_each_role_is_its_own() {
        assert_eq!(pairs(&[]), []);
        assert_eq!(pairs(&[(4, 4), (31, 31)]), []);
    }

    #[test]
    fn a_row_holds_turned_round_too() {
        assert_eq!(pairs(&[(0, 2)]), [(0, 2), (1, 3)]);
        assert_eq!(pairs(&[(31, 4)]), [(30, 5), (31, 4)]);
        assert_eq!(pairs(&[(6, 7)]), [(6, 7), (7, 6)]);
    }

    #[test]
    fn rows_chain() {
        assert_eq!(pairs(&[(2, 4), (0, 2)]), [(0, 2), (0, 4), (1, 3), (1, 5), (2, 4), (3, 5)]);
        // The second row is turned round before it chains.
        assert_eq!(pairs(&[(0, 2), (3, 4)]), [(0, 2), (0, 5), (1, 3), (1, 4), (2, 5), (3, 4)]);
        // A circle: both roles are one.
        assert_eq!(pairs(&[(0, 2), (2, 0)]), [(0, 2), (1, 3), (2, 0), (3, 1)]);
        // A role with a symmetric one above it: it and its inverse are narrower than both directions of that.
        assert_eq!(pairs(&[(2, 3), (0, 2)]), [(0, 2), (0, 3), (1, 2), (1, 3), (2, 3), (3, 2)]);
    }

    #[test]
    fn the_longest_chain() {
        // The last step comes first, and every other row is turned round.
        let step = |k: Role| (2 * k + k % 2, 2 * (k + 1) + k % 2);
        let rows: Vec<(Role, Role)> = (0..15).rev().map(step).collect();
        assert_eq!(pairs(&rows).len(), 2 * (16 * 15 / 2));
        assert!(pairs(&rows).into_iter().all(|(narrow, wide)| narrow < wide && narrow % 2 == wide % 2));
    }

    #[test]
    fn the_role_of_the_root_is_narrower_than_none() {
        let every: Vec<Concept> = (0..32).map(|code| Concept::Inclusion(code, (code + 1) % 32)).collect();
        let hierarchy = RoleHierarchy::of(&every);
        assert!((0..32).all(|wide| hierarchy.is_narrower(0, wide)));
        assert!((0..32).all(|wide| !hierarchy.is_narrower(NO_ROLE, wide)));
        assert!((0..32).all(|wide| !hierarchy.is_narrower(inverse(NO_ROLE), wide)));
    }
}
