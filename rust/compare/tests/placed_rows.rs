//! The world of the plain program's example is that of the rows which the procedure placed, and these are listed.

use compare::{cases, random_file, Prng, Shape};
use plain::{answer, answer_as_placed, records, Answer, Lent};
use worlds::{Example, Ontology, World};

/// The world that is read from the bytes of an answer's example.
fn world(file: &[u8], answer: &Answer) -> Option<World> {
    let Answer::Can { elements, links, .. } = answer else { return None };
    let [elements, links] = records(elements, links);
    let example = Example::read(&elements, &links).expect("whole records");
    Some(example.world(&Ontology::decode(file).expect("a rule file")))
}

/// Checks that both answers have the same verdict, counts, links and world, and that what was placed is listed. Gives whether the
/// lists differ.
fn check_placed(file: &[u8], lent: &Lent) -> bool {
    let (listed, placed) = (answer(file, lent), answer_as_placed(file, lent));
    assert_eq!(world(file, &listed), world(file, &placed), "{file:02x?}");
    match (&listed, &placed) {
        (Answer::Can { used, elements, links }, Answer::Can { used: u, elements: e, links: l }) => {
            assert_eq!((used, elements.len(), links), (u, e.len(), l), "{file:02x?}");
            assert!(e.iter().zip(elements).all(|(placed, rows)| placed.rows().all(|row| rows.contains(row))));
            e != elements
        }
        _ => {
            assert_eq!(listed, placed, "{file:02x?}");
            false
        }
    }
}

/// Only a name's kind 1 row is listed exactly where it was placed, so the two worlds are one.
#[test]
fn the_world_is_that_of_the_placed_rows() {
    let of_cases = cases().iter().filter(|case| check_placed(&case.file, &case.lent)).count();
    let mut prng = Prng::new(91);
    let shape = Shape { names: 3, roles: 2, compound: 30, rules: 5, text: 8 };
    let of_random = (0..10_000).filter(|_| check_placed(&random_file(&mut prng, shape), &Lent::by_program())).count();
    println!("lists that differ from what was placed: {of_cases} of the vectors, {of_random} of random files");
    assert!(of_cases >= 300 && of_random >= 3000);
}
