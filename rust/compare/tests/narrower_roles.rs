//! The plain program's table of narrower roles.

use compare::files::inclusions::{random_inclusions, Follow, Wider};
use compare::Prng;
use plain::concept::{Concept, Kinds};
use plain::RoleHierarchy;

/// What is narrower, by a table, is what is reached by going from row to row.
#[test]
fn the_least_such_relation() {
    let mut prng = Prng::new(161);
    for round in 0..20_000 {
        let (roles, most) = (1 + prng.below(16), prng.below(24));
        let rows = random_inclusions(&mut prng, roles, most);
        let concepts: Vec<Concept> = rows.iter().map(|&row| Concept::of_row(row).expect("a row")).collect();
        let (hierarchy, wider) = (RoleHierarchy::of(&concepts), Wider::of(&rows, Follow::All));
        for (narrow, wide) in (0..32).flat_map(|narrow| (0..32).map(move |wide| (narrow, wide))) {
            let is_narrower = hierarchy.is_narrower(u16::from(narrow), u16::from(wide));
            assert_eq!(is_narrower, wider.has(narrow, wide), "{round}: {narrow} and {wide} by {rows:?}");
        }
    }
}
