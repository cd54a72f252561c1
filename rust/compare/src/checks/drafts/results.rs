//! Checks of a converting function on random drafts (document 02, \[1\]): what it writes is a rule file of only the rows that are
//! needed, and in random worlds each rule and the wanted row hold where the draft's do. Drafts with kind 7 rows are in
//! [`inclusions`](crate::checks::inclusions::drafts).

use crate::counts::needs::needs;
use crate::files::drafts::tower;
use crate::sizes::LONGEST_FILE;
use crate::{encode, random_area, random_draft, Converting, DraftCounts, Prng, Shape};
use plain::{Draft, RuleFile};
use std::time::{Duration, Instant};
use worlds::{Concept, Ontology, World};

/// Small drafts and large ones, and how many of them.
const SHAPES: [(Shape, usize); 4] = [
    (Shape { names: 1, roles: 1, compound: 6, rules: 2, text: 4 }, 6000),
    (Shape { names: 2, roles: 1, compound: 14, rules: 4, text: 300 }, 8000),
    (Shape { names: 4, roles: 16, compound: 30, rules: 8, text: 3000 }, 8000),
    (Shape { names: 6, roles: 3, compound: 120, rules: 64, text: 40 }, 10_000),
];

/// How many worlds a draft and its result are compared in.
const WORLDS: usize = 4;
/// The most elements of such a world.
const MOST_ELEMENTS: usize = 4;

/// Checks what becomes of random drafts, prints how often things happened and fails if one of them was rare.
pub fn check_random_drafts(mut convert: impl Converting) {
    let (mut counts, mut telling) = (DraftCounts::default(), 0);
    for (seed, (shape, drafts)) in SHAPES.into_iter().enumerate() {
        let mut prng = Prng::new(41 + seed as u64);
        for _ in 0..drafts {
            let draft = random_draft(&mut prng, shape);
            let area = random_area(&mut prng, &draft);
            let conversion = convert(&draft, area);
            if let Ok(file) = &conversion {
                check_result(&draft, file);
                // The rows stand in the order in which they are first needed, so to convert again changes nothing.
                assert_eq!(convert(file, file.len()).as_ref(), Ok(file), "{draft:02x?}");
                telling += check_meaning(&draft, file, shape, &mut prng);
            }
            counts.count(&draft, area, &conversion);
        }
    }
    println!("{counts:?}; worlds with and without members: {telling}");
    counts.assert_often();
    assert!(telling >= 5000, "few worlds have elements where the wanted row holds and others");
}

/// Checks that the result is a rule file with the draft's text, as many rules, and only rows that are needed or of kind 7.
pub(crate) fn check_result(draft: &[u8], file: &[u8]) {
    let (read, written) = (Draft::read(draft).expect("a draft"), RuleFile::read(file).expect("a rule file"));
    assert_eq!(written.text, read.text, "{draft:02x?}");
    assert_eq!(written.tbox.len(), read.tbox.len(), "{draft:02x?}");
    let ontology = Ontology::decode(file).expect("a rule file");
    let is_kept = |row: &Concept| matches!(row, Concept::Narrower(..));
    let needed =
        needs(&ontology).into_iter().zip(&ontology.rows).all(|(needs, row)| is_kept(row) || needs == [true, false]);
    assert!(needed, "a row without need: {draft:02x?}");
}

/// Checks that in some random worlds each rule and the wanted row hold at the same elements in the draft and in the result. Gives
/// in how many of them the wanted row holds somewhere, but not everywhere.
pub(crate) fn check_meaning(draft: &[u8], file: &[u8], shape: Shape, prng: &mut Prng) -> usize {
    let (meant, written) =
        (Ontology::decode_draft(draft).expect("a draft"), Ontology::decode(file).expect("a rule file"));
    let mut telling = 0;
    for _ in 0..WORLDS {
        let world = random_world(prng, shape);
        let (truth, of_result) = (world.truth(&meant), world.truth(&written));
        for (place, (&rule, &of_file)) in meant.tbox.iter().zip(&written.tbox).enumerate() {
            assert_eq!(truth[rule], of_result[of_file], "rule {place} of {draft:02x?} in {world:?}");
        }
        let wanted = &truth[meant.wanted[0]];
        assert_eq!(wanted, &of_result[written.wanted[0]], "wanted row of {draft:02x?} in {world:?}");
        telling += usize::from(wanted.contains(&true) && wanted.contains(&false));
    }
    telling
}

/// A world of up to four elements. A name holds at every other element, and one pair of three belongs to a role.
pub fn random_world(prng: &mut Prng, shape: Shape) -> World {
    let size = 1 + prng.below(MOST_ELEMENTS);
    let mut world = World::new(size);
    for d in 0..size {
        (0..shape.names).filter(|_| prng.below(2) == 0).for_each(|name| world.set_name(name, d));
        for role in 0..shape.roles {
            for e in (0..size).filter(|_| prng.below(3) == 0) {
                world.set_pair(role, d, e);
            }
        }
    }
    world
}

/// Checks the longest results: a draft whose result is four bytes longer, with texts that bring it up to its longest; in an area
/// that is longer than any file, just enough and one byte short.
pub fn check_bounds(mut convert: impl Converting) {
    let (rows, empty) = ([[1, 0, 0, 0], [9, 0, 0, 0]], 8 + 2 * 4);
    for length in LONGEST_FILE - 10..=LONGEST_FILE {
        let draft = encode(&vec![b'-'; length - empty], &rows, &[], 1);
        let needed = length + 4;
        let expected = if needed <= LONGEST_FILE { Ok(needed) } else { Err(12) };
        assert_eq!(convert(&draft, 5000).map(|file| file.len()), expected, "{needed} bytes");
        assert_eq!(convert(&draft, needed).map(|file| file.len()), expected, "{needed} bytes");
        assert_eq!(convert(&draft, needed - 1), Err(12), "{needed} bytes");
    }
}

/// Towers of 64 rows and what becomes of them: so many rows, or refusal 12.
const TOWERS: [(u8, &[u8], Result<usize, u8>); 7] = [
    (64, &[3], Ok(64)),
    (64, &[4], Ok(64)),
    (64, &[3, 8], Ok(33)),
    (64, &[8, 3, 8, 4], Ok(32)),
    // An "if" writes a row for itself and one for its opposite, but the last, of which the opposite isn't needed.
    (62, &[9, 8], Ok(63)),
    (64, &[9, 8], Err(12)),
    (64, &[9], Err(12)),
];

/// A tower must be converted in this time, although very many ways lead down.
const PATIENCE: Duration = Duration::from_millis(1);

/// Checks that each tower becomes what it should, and soon. Of ten times the least counts: other programs may disturb.
pub fn check_towers(mut convert: impl Converting) {
    for (rows, kinds, expected) in TOWERS {
        let draft = tower(rows, kinds);
        let mut time = || {
            let start = Instant::now();
            let conversion = convert(&draft, LONGEST_FILE);
            let time = start.elapsed();
            let rows = conversion.map(|file| RuleFile::read(&file).expect("a rule file").concepts.len());
            assert_eq!(rows, expected, "kinds {kinds:?}");
            time
        };
        let least = (0..10).map(|_| time()).min().expect("ten times");
        println!("{rows} rows of kinds {kinds:?}: {least:?}");
        assert!(least < PATIENCE, "{least:?}");
    }
}
