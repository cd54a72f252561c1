//! An answer judged by the meaning of ALCI: who gets past the file checks, and every bit of an example.

use super::Answering;
use plain::{records, Answer, Lent};
use worlds::{Concept, Example, Ontology, World};

/// The same answer, or, after refusal 11, the answer in example areas of just the records that it says are needed.
pub fn whole_answer(answer: &mut impl Answering, file: &[u8], lent: &Lent, first: Answer) -> Answer {
    let Answer::TooLong { elements, links } = first else { return first };
    assert!(!lent.holds(elements, links), "an example that fits {lent:?} was refused: {file:02x?}");
    let whole = answer(file, &lent.with_example(elements, links));
    let counted =
        matches!(&whole, Answer::Can { elements: e, links: l, .. } if (e.len(), l.len()) == (elements, links));
    assert!(counted, "{whole:?} after {first:?}: {file:02x?}");
    whole
}

/// Only files that the meaning of ALCI can read get past the file checks, their tables hold a name or the negation of one, and every
/// example is judged. `worlds` reads files apart from `plain`, so this compares the two readers as well.
pub fn check_example(file: &[u8], answer: &Answer) {
    let ontology = Ontology::decode(file);
    let literal = |row: &Concept| matches!(row, Concept::Name(_) | Concept::NotName(_));
    assert!(ontology.iter().all(|ontology| ontology.rows.iter().any(literal)), "accepted: {file:02x?}");
    check_judged(file, ontology.as_ref(), answer);
}

/// A file gets past the checks exactly if this is its meaning, with its own wanted row or with others in its place, and every example is
/// judged by that.
pub fn check_judged(file: &[u8], ontology: Option<&Ontology>, answer: &Answer) {
    assert_eq!(ontology.is_none(), matches!(answer, Answer::Refused(_)), "{answer:?} to {file:02x?}");
    if let (Answer::Can { elements, links, .. }, Some(ontology)) = (answer, ontology) {
        let [elements, links] = records(elements, links);
        check_records(file, ontology, &Example::read(&elements, &links).expect("whole records"));
    }
}

/// The world of an example obeys every rule and every kind 7 row, with element 0 a member; every bit of every element's record is as the
/// meaning of ALCI says, of every row of the table, and the bits past the table and those of kind 7 rows are 0. Gives the world.
pub fn check_records(file: &[u8], ontology: &Ontology, example: &Example) -> World {
    let world = example.world(ontology);
    assert!(world.is_model(ontology, 0), "the example is no model: {file:02x?}");
    let wrong = example.wrong_bit(&world.truth(ontology));
    assert_eq!(wrong, None, "an element lists what does not hold there, or not what does: {file:02x?}");
    world
}
