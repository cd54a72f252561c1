//! The search against plain enumeration: every world of a size, one after the other, judged by the meaning alone. And what the rows of
//! a draft and kind 7 rows mean, by hand.

use worlds::ontology::RoleUse;
use worlds::{search, Concept, Ontology, World};

/// The world whose names and pairs are the bits of a number: one name, so many roles.
fn world(size: usize, roles: usize, bits: u32) -> World {
    let mut world = World::new(size);
    for d in 0..size {
        if bits >> d & 1 == 1 {
            world.set_name(0, d);
        }
        for (role, e) in (0..roles).flat_map(|role| (0..size).map(move |e| (role, e))) {
            if bits >> (size + (role * size + d) * size + e) & 1 == 1 {
                world.set_pair(role, d, e);
            }
        }
    }
    world
}

fn all_worlds(max_elements: usize, roles: usize) -> Vec<World> {
    let bits = |size: usize| size + roles * size * size;
    (1..=max_elements).flat_map(|size| (0..1u32 << bits(size)).map(move |bits| world(size, roles, bits))).collect()
}

/// Has one of the worlds an element that makes it a model?
fn enumerate(worlds: &[World], ontology: &Ontology) -> bool {
    worlds.iter().any(|world| {
        let truth = world.truth(ontology);
        let obeys = ontology.tbox.iter().all(|&rule| truth[rule].iter().all(|&holds| holds));
        let is_member = |d: usize| ontology.wanted.iter().all(|&row| truth[row][d]);
        obeys && (0..world.size()).any(is_member) && world.obeys_inclusions(ontology)
    })
}

/// A generator of its own: these tests know nothing of the other crates.
fn next(seed: &mut u64, bound: u64) -> u8 {
    *seed = seed.wrapping_mul(6364136223846793005).wrapping_add(1442695040888963407);
    ((*seed >> 33) % bound) as u8
}

/// A file with one name, so many roles and their inverses, up to so many kind 7 rows, then a name and its negation, up to eight rows of
/// these kinds, and up to three rules.
fn file(seed: &mut u64, kinds: &[u8], roles: u64, inclusions: u64) -> Vec<u8> {
    let (codes, inclusions) = (2 * roles, if inclusions == 0 { 0 } else { 1 + next(seed, inclusions) });
    let mut file: Vec<u8> = (0..inclusions).flat_map(|_| [7, next(seed, codes), next(seed, codes), 0]).collect();
    file.extend([1, 0, 0, 0, 2, 0, 0, 0]);
    let rows = inclusions + 3 + next(seed, 8);
    for number in inclusions + 2..rows {
        let mut lower = || inclusions + next(seed, u64::from(number - inclusions));
        let (left, right) = (lower(), lower());
        let role = next(seed, codes);
        file.extend(match kinds[usize::from(next(seed, kinds.len() as u64))] {
            kind @ (5 | 6) => [kind, role, left, 0],
            8 => [8, 0, left, 0],
            kind => [kind, 0, left, right],
        });
    }
    let rules = next(seed, 4);
    file.extend((0..rules).map(|_| inclusions + next(seed, u64::from(rows - inclusions))));
    file.extend([0, 0, rows, rules, rows - 1]);
    file.extend(b"FIT");
    file
}

/// Compares search and enumeration, of up to so many elements and roles, on so many ontologies; `None` stands for a file in which two rows
/// are equal. Gives how many have no world only because of their kind 7 rows.
fn compare(elements: usize, roles: usize, count: usize, mut ontology: impl FnMut() -> Option<Ontology>) -> usize {
    let worlds = all_worlds(elements, roles);
    let (mut found, mut none, mut forbidden) = (0, 0, 0);
    while found + none < count {
        let Some(ontology) = ontology() else { continue };
        let world = search(&ontology, elements);
        assert_eq!(world.is_some(), enumerate(&worlds, &ontology), "{ontology:?}");
        match world {
            Some(world) => {
                assert!(world.is_model(&ontology, 0), "{ontology:?}");
                found += 1;
            }
            None => {
                none += 1;
                forbidden += usize::from(search(&without_inclusions(ontology), elements).is_some());
            }
        }
    }
    println!("a world found {found}, none {none}, of these by kind 7 rows only {forbidden}");
    assert!(found > 100 && none > 100);
    forbidden
}

/// The same, with each kind 7 row turned into one that says nothing: a role is narrower than itself.
fn without_inclusions(ontology: Ontology) -> Ontology {
    let without = |row| match row {
        Concept::Narrower(narrow, _) => Concept::Narrower(narrow, narrow),
        other => other,
    };
    Ontology { rows: ontology.rows.into_iter().map(without).collect(), ..ontology }
}

#[test]
fn search_finds_a_world_exactly_if_there_is_one() {
    let mut seed = 1;
    compare(3, 1, 1500, || Ontology::decode(&file(&mut seed, &[3, 4, 5, 6], 1, 0)));
}

#[test]
fn search_finds_a_world_of_a_draft_exactly_if_there_is_one() {
    let mut seed = 2;
    compare(3, 1, 1500, || Ontology::decode_draft(&file(&mut seed, &[3, 4, 5, 6, 8, 9], 1, 0)));
}

/// Up to three rows take the place of the file's own.
#[test]
fn search_finds_a_member_of_all_wanted_rows_exactly_if_there_is_one() {
    let (mut seed, mut several, mut none) = (4, 0, 0);
    compare(3, 1, 1500, || {
        let file = file(&mut seed, &[3, 4, 5, 6], 1, 0);
        let rows = u64::from(file[file.len() - 6]);
        let list: Vec<u8> = (0..next(&mut seed, 4)).map(|_| next(&mut seed, rows)).collect();
        let ontology = Ontology::decode_wanting(&file, &list)?;
        several += usize::from(list.len() > 1);
        none += usize::from(list.is_empty());
        Some(ontology)
    });
    assert!(several > 500 && none > 200, "{several} {none}");
}

/// The list is looked at, and not the file's own wanted row, which is no row here.
#[test]
fn lists_of_wanted_rows_that_are_refused() {
    let rows = [[1, 0, 0, 0], [7, 0, 0, 0], [2, 0, 0, 0]];
    let file = [rows.as_flattened(), &[0, 0, 3, 0, 9], b"FIT"].concat();
    let wanted = |list: &[u8]| Ontology::decode_wanting(&file, list).map(|ontology| ontology.wanted);
    assert!(Ontology::decode(&file).is_none());
    assert_eq!(wanted(&[]), Some(vec![]));
    assert_eq!(wanted(&[2, 0, 2]), Some(vec![2, 0, 2]));
    assert_eq!([[0, 3], [255, 0], [0, 1], [1, 1]].map(|list| wanted(&list)), [const { None }; 4]);
}

/// Names 0 and 2 have both rows, 1 and 3 one each. The rule: what is a 0 is a 2.
#[test]
fn an_a_that_is_no_b() {
    let rows = [[2, 0, 2, 0], [1, 0, 0, 0], [2, 0, 0, 0], [1, 0, 1, 0], [2, 0, 3, 0], [1, 0, 2, 0], [4, 0, 2, 5]];
    let file = [rows.as_flattened(), &[6], &[0, 0, 7, 1, 0], b"FIT"].concat();
    let ontology = Ontology::decode(&file).expect("a rule file");
    assert_eq!(ontology.kinds(), [0, 2]);
    let found = |a: usize, b: usize| search(&ontology.wanting_but_not(a, b), 3).is_some();
    assert_eq!([found(0, 0), found(0, 2), found(2, 0), found(2, 2)], [false, false, true, false]);
    // Names of which the file has no such row are names of a world all the same.
    assert!(found(1, 3) && found(0, 1) && !found(7, 7));
}

/// One role can only be narrower than its own inverse; with two there are chains, and one can be narrower than the other's inverse.
#[test]
fn search_finds_a_world_that_obeys_kind_7_rows_exactly_if_there_is_one() {
    let mut seed = 3;
    let (kinds, of_draft) = ([3, 3, 4, 5, 5, 6, 6], [3, 3, 4, 5, 5, 6, 6, 8, 9]);
    let of_one = compare(3, 1, 6000, || Ontology::decode(&file(&mut seed, &kinds, 1, 2)));
    let of_two = compare(2, 2, 6000, || Ontology::decode(&file(&mut seed, &kinds, 2, 4)));
    let of_drafts = compare(2, 2, 6000, || Ontology::decode_draft(&file(&mut seed, &of_draft, 2, 4)));
    assert!([of_one, of_two, of_drafts].iter().all(|&times| times >= 20), "{of_one} {of_two} {of_drafts}");
}

/// Three elements: role 0 leads from 0 to 1, role 1 from 1 to 0 and from 1 to 2.
#[test]
fn kind_7_rows_mean_what_they_say() {
    let mut world = World::new(3);
    [(0, 0, 1), (1, 1, 0), (1, 1, 2)].into_iter().for_each(|(role, d, e)| {
        world.set_pair(role, d, e);
    });
    // Which pairs of codes are obeyed: 0 leads from 0 to 1, 1 from 1 to 0, 2 from 1 to 0 and 2, 3 from 0 and 2 to 1.
    let obeyed = |narrow: u8, wide: u8| {
        let ontology = ontology(&[[1, 0, 0, 0], [7, narrow, wide, 0]]);
        assert!(world.truth(&ontology)[1].iter().all(|holds| !holds), "it holds at no element");
        world.obeys_inclusions(&ontology)
    };
    let pairs: Vec<(u8, u8)> = (0..4).flat_map(|narrow| (0..4).map(move |wide| (narrow, wide))).collect();
    let obeyed: Vec<(u8, u8)> = pairs.into_iter().filter(|&(narrow, wide)| obeyed(narrow, wide)).collect();
    assert_eq!(obeyed, [(0, 0), (0, 3), (1, 1), (1, 2), (2, 2), (3, 3)]);
}

/// Pairs are added until every kind 7 row is obeyed, whichever comes first.
#[test]
fn a_world_is_widened() {
    let mut expected = World::new(2);
    [(0, 0, 1), (1, 1, 0), (2, 0, 1), (2, 1, 0)].into_iter().for_each(|(role, d, e)| {
        expected.set_pair(role, d, e);
    });
    for rows in [[[7, 4, 5, 0], [7, 3, 4, 0], [7, 0, 3, 0]], [[7, 0, 3, 0], [7, 2, 4, 0], [7, 5, 4, 0]]] {
        let ontology = ontology(&[rows[0], rows[1], rows[2], [1, 0, 0, 0]]);
        let mut world = World::new(2);
        world.set_pair(0, 0, 1);
        world.widen(&ontology);
        for (role, d) in (0..3).flat_map(|role| (0..2).map(move |d| (role, d))) {
            let sorted = |world: &World| {
                let mut ends: Vec<usize> = world.led_to(RoleUse { role, inverse: false }, d).collect();
                ends.sort();
                ends
            };
            assert_eq!(sorted(&world), sorted(&expected), "role {role} from {d}");
        }
        assert!(world.obeys_inclusions(&ontology));
    }
}

/// The rows, without rules; the last row of another kind than 7 is wanted.
fn ontology(rows: &[[u8; 4]]) -> Ontology {
    let wanted = rows.iter().rposition(|row| row[0] != 7).expect("a row to want");
    let file = [rows.as_flattened(), &[0, 0, rows.len() as u8, 0, wanted as u8], b"FIT"].concat();
    Ontology::decode(&file).expect("a rule file")
}

/// A kind 7 row serves as nothing: no argument, no rule, no wanted row.
#[test]
fn kind_7_rows_that_serve_are_refused() {
    let decode = |rows: &[[u8; 4]], rules: &[u8], wanted: u8| {
        let trailer = [0, 0, rows.len() as u8, rules.len() as u8, wanted];
        let bytes = [rows.as_flattened(), rules, &trailer, b"FIT"].concat();
        [Ontology::decode(&bytes), Ontology::decode_draft(&bytes)].map(|ontology| ontology.is_some())
    };
    let (name, inclusion) = ([1, 0, 0, 0], [7, 31, 31, 0]);
    assert_eq!(decode(&[inclusion, name], &[1], 1), [true, true]);
    assert_eq!(decode(&[inclusion, name], &[0], 1), [false, false]);
    assert_eq!(decode(&[inclusion, name], &[1], 0), [false, false]);
    for row in [[3, 0, 0, 1], [3, 0, 1, 0], [4, 0, 0, 1], [4, 0, 1, 0], [5, 0, 0, 0], [6, 0, 0, 0]] {
        assert_eq!(decode(&[inclusion, name, row], &[], 1), [false, false], "{row:?}");
    }
    for row in [[8, 0, 0, 0], [9, 0, 0, 1], [9, 0, 1, 0]] {
        assert_eq!(decode(&[inclusion, name, row], &[], 1), [false, false], "{row:?}");
    }
    assert_eq!(decode(&[inclusion, name, [9, 0, 1, 1]], &[], 1), [false, true]);
    for row in [[7, 32, 0, 0], [7, 0, 32, 0], [7, 0, 0, 1]] {
        assert_eq!(decode(&[row, name], &[], 1), [false, false], "{row:?}");
    }
    assert_eq!(decode(&[inclusion, name, inclusion], &[], 1), [false, false]);
}

/// Four elements: the name holds at 1 and 3; the role leads from 0 to all of them, from 1 to 1, from 2 to 3.
#[test]
fn not_and_if_mean_what_they_say() {
    let rows = [[1, 0, 0, 0], [6, 0, 0, 0], [8, 0, 0, 0], [8, 0, 1, 0], [9, 0, 0, 1], [9, 0, 1, 0], [9, 0, 2, 3]];
    let mut draft = rows.concat();
    draft.extend([0, 0, rows.len() as u8, 0, 0]);
    draft.extend(b"FIT");
    assert!(Ontology::decode(&draft).is_none(), "a rule file has no such kinds");
    let ontology = Ontology::decode_draft(&draft).expect("a draft");
    let mut world = World::new(4);
    [1, 3].into_iter().for_each(|d| world.set_name(0, d));
    for (d, e) in [(0, 0), (0, 1), (0, 2), (0, 3), (1, 1), (2, 3)] {
        world.set_pair(0, d, e);
    }
    let (t, f) = (true, false);
    let expected = [[f, t, f, t], [t, t, t, f], [t, f, t, f], [f, f, f, t], [t, t, t, f], [f, t, f, t], [f, t, f, t]];
    assert_eq!(world.truth(&ontology), expected);
}
