//! What the rows of a converted draft stand for (`gumbyra_table::origins`), on what the converter writes: by the
//! meaning of the rows in random worlds, and not told of any other bytes.

use compare::checks::drafts::results::random_world;
use compare::counts::Tally;
use compare::files::drafts::tower;
use compare::files::inclusions::with_inclusions;
use compare::{draft_cases, random_draft, Prng, Shape};
use gumbyra::{convert, LONGEST_FILE};
use gumbyra_table::{origins, Origin, Row, Table};
use worlds::{Ontology, World};

/// Small drafts and large ones, and how many of them.
const SHAPES: [(Shape, usize); 3] = [
    (Shape { names: 2, roles: 1, compound: 8, rules: 2, text: 4 }, 4000),
    (Shape { names: 2, roles: 2, compound: 16, rules: 4, text: 40 }, 4000),
    (Shape { names: 6, roles: 3, compound: 40, rules: 12, text: 40 }, 4000),
];
/// In how many worlds each is looked at.
const WORLDS: usize = 4;

/// The rows of what a draft becomes and what they stand for; `None` if it is refused.
fn told(draft: &[u8]) -> Option<(Vec<u8>, Vec<Vec<Origin>>)> {
    let mut area = [0; LONGEST_FILE];
    let file = convert(draft, &mut area).ok()?.to_vec();
    let origins = origins(draft, &file).unwrap_or_else(|| panic!("nothing told of {draft:02x?}"));
    let rows = Table::read(&file).expect("a rule file").rows.len();
    assert!(origins.len() == rows && origins.iter().all(|of_row| !of_row.is_empty()), "{draft:02x?}");
    Some((file, origins))
}

/// Each row of the file is true where each row of the draft is that it stands for, or just where that isn't. Gives
/// whether a row is true of some elements and not of others.
fn check_meaning(world: &World, draft: &[u8], file: &[u8], origins: &[Vec<Origin>]) -> bool {
    let meant = world.truth(&Ontology::decode_draft(draft).expect("a draft"));
    let written = world.truth(&Ontology::decode(file).expect("a rule file"));
    for (truth, of_row) in written.iter().zip(origins) {
        for &Origin { row, opposite } in of_row {
            let expected: Vec<bool> = meant[usize::from(row)].iter().map(|&is_true| is_true != opposite).collect();
            assert_eq!(truth, &expected, "row {row}, opposite: {opposite}, of {draft:02x?} in {world:?}");
        }
    }
    written.iter().any(|truth| truth.contains(&true) && truth.contains(&false))
}

/// What there is among the origins of a file.
fn cases(draft: &[u8], origins: &[Vec<Origin>], is_telling: bool) -> Vec<(&'static str, bool)> {
    let rows = Table::read_draft(draft).expect("a draft").rows;
    let all = || origins.iter().flatten();
    let both_ways = |origin: &Origin| all().any(|other| other.row == origin.row && other.opposite != origin.opposite);
    vec![
        ("a row stands for an opposite", all().any(|origin| origin.opposite)),
        ("a row stands for several", origins.iter().any(|of_row| of_row.len() > 1)),
        ("a row stands for one and the opposite of another", {
            origins.iter().any(|of_row| of_row.iter().any(|o| o.opposite) && of_row.iter().any(|o| !o.opposite))
        }),
        ("a row of the draft is needed both ways", all().any(both_ways)),
        ("a row of the draft is not needed", {
            (0..rows.len() as u8).any(|row| all().all(|origin| origin.row != row))
        }),
        ("a row of kind 7", all().any(|origin| matches!(rows[usize::from(origin.row)], Row::Within { .. }))),
        ("a row is true here and not there", is_telling),
    ]
}

#[test]
fn rows_mean_what_they_stand_for() {
    let mut tally = Tally::default();
    for (seed, (shape, drafts)) in SHAPES.into_iter().enumerate() {
        let mut prng = Prng::new(181 + seed as u64);
        for round in 0..drafts {
            let mut draft = random_draft(&mut prng, shape);
            if round % 3 == 0 {
                draft = with_inclusions(&mut prng, &draft, shape.roles);
            }
            let Some((file, origins)) = told(&draft) else { continue };
            let worlds: Vec<World> = (0..WORLDS).map(|_| random_world(&mut prng, shape)).collect();
            let telling = worlds.iter().filter(|world| check_meaning(world, &draft, &file, &origins)).count();
            tally.add(cases(&draft, &origins, telling > 0));
        }
    }
    tally.assert_often("converted drafts", 1000);
}

#[test]
fn nothing_is_told_of_other_bytes() {
    let mut prng = Prng::new(185);
    let mut changed = 0;
    for _ in 0..4000 {
        let draft = random_draft(&mut prng, SHAPES[1].0);
        let Some((mut file, _)) = told(&draft) else { continue };
        let at = prng.below(file.len());
        file[at] ^= 1 << prng.below(8);
        assert_eq!(origins(&draft, &file), None, "byte {at} of {file:02x?}");
        file.truncate(at);
        assert_eq!(origins(&draft, &file), None);
        changed += 1;
    }
    println!("{changed} files with one byte changed");
    assert!(changed >= 2000);
}

#[test]
fn the_vectors_and_towers_are_told() {
    let towers = [tower(64, &[3]), tower(64, &[3, 8]), tower(62, &[9, 8]), tower(64, &[8, 3, 8, 4])];
    let drafts = draft_cases().into_iter().map(|case| case.draft).chain(towers);
    let converted = drafts.filter(|draft| told(draft).is_some()).count();
    println!("{converted} drafts of the vectors and towers are told");
    assert!(converted >= 20);
}
