//! What the engine decides, from the numbers that its call gives back.

use crate::convention::Answer;
use crate::example::Example;
use crate::refusal::Refusal;

/// How many records a run used.
#[derive(Clone, Copy, Debug, PartialEq, Eq)]
pub struct Used {
    /// Nodes.
    pub nodes: usize,
    /// Graph edges.
    pub edges: usize,
    /// Alternatives.
    pub alternatives: usize,
}

/// What the engine says of a kit.
#[derive(Clone, Copy, Debug, PartialEq, Eq)]
pub enum Verdict<'a> {
    /// It can exist, and this assembly shows it.
    Can {
        /// The records that the run used.
        used: Used,
        /// An assembly that obeys every rule and has a member of the kit.
        example: Example<'a>,
    },
    /// It cannot exist, in no assembly of any size.
    Cannot {
        /// The records that the run used.
        used: Used,
    },
}

impl Verdict<'_> {
    /// How many records the run used.
    pub fn used(&self) -> Used {
        match *self {
            Verdict::Can { used, .. } | Verdict::Cannot { used } => used,
        }
    }
}

const CAN: u32 = 1;
const CANNOT: u32 = 2;
const REFUSED: u32 = 0;

/// The outcome that an answer tells, with the areas of elements and links as they are after the call.
///
/// # Panics
/// If it is no answer of the engine.
pub(crate) fn outcome<'a>(answer: &Answer, areas: [&'a [u8]; 2]) -> Result<Verdict<'a>, Refusal> {
    read(answer, areas).unwrap_or_else(|| panic!("no answer of the engine: {answer:?}"))
}

/// The same; `None` if it is no answer of the engine: each refusal gives its number and zeros elsewhere, but 11 also
/// the counts needed, and 13, 14 and 15 how many records were lent.
fn read<'a>(answer: &Answer, areas: [&'a [u8]; 2]) -> Option<Result<Verdict<'a>, Refusal>> {
    let &Answer { verdict, refusal, nodes, edges, alternatives, elements, links, lent } = answer;
    let [nodes, edges, alternatives] = [nodes, edges, alternatives].map(|count| count as usize);
    let used = Used { nodes, edges, alternatives };
    let counts = [elements, links].map(|count| count as usize);
    match (verdict, refusal, [nodes, edges, alternatives], counts, lent) {
        (CAN, 0, _, _, 0) => Some(Ok(Verdict::Can { used, example: Example::read(areas, counts)? })),
        (CANNOT, 0, _, [0, 0], 0) => Some(Ok(Verdict::Cannot { used })),
        (REFUSED, _, [0, 0, 0], _, _) => Some(Err(Refusal::of_run(refusal, counts, lent as usize)?)),
        _ => None,
    }
}

#[cfg(test)]
mod tests {
    use super::*;
    use crate::{Link, ELEMENT_BYTES, LINK_BYTES};

    const ELEMENTS: [u8; 2 * ELEMENT_BYTES + 1] = [1; 2 * ELEMENT_BYTES + 1];
    const LINKS: [u8; LINK_BYTES] = [0, 1, 2, 0, 1, 0];

    fn of_numbers(numbers: [u32; 8]) -> Option<Result<Verdict<'static>, Refusal>> {
        let [verdict, refusal, nodes, edges, alternatives, elements, links, lent] = numbers;
        let answer = Answer { verdict, refusal, nodes, edges, alternatives, elements, links, lent };
        read(&answer, [&ELEMENTS, &LINKS])
    }

    #[test]
    fn every_answer_has_its_outcome() {
        let used = Used { nodes: 8, edges: 7, alternatives: 1 };
        let Some(Ok(Verdict::Can { used: of_can, example })) = of_numbers([1, 0, 8, 7, 1, 2, 1, 0]) else {
            panic!("can")
        };
        assert_eq!((of_can, example.elements().len()), (used, 2));
        assert_eq!(example.links().collect::<Vec<_>>(), [Link { from: 256, role: 2, to: 1 }]);
        let verdicts = [[1, 0, 8, 7, 1, 2, 1, 0], [2, 0, 8, 7, 1, 0, 0, 0]].map(of_numbers);
        assert!(verdicts.iter().flatten().flatten().all(|verdict| verdict.used() == used));
        assert_eq!(verdicts[1], Some(Ok(Verdict::Cannot { used })));
        assert_eq!(of_numbers([0, 8, 0, 0, 0, 0, 0, 0]), Some(Err(Refusal::NoSuchRow)));
        assert_eq!(of_numbers([0, 16, 0, 0, 0, 0, 0, 0]), Some(Err(Refusal::Inclusion)));
        let too_long = Refusal::ExampleTooLong { elements: 2, links: 1 };
        assert_eq!(of_numbers([0, 11, 0, 0, 0, 2, 1, 0]), Some(Err(too_long)));
        assert_eq!(of_numbers([0, 13, 0, 0, 0, 0, 0, 7]), Some(Err(Refusal::NodesShort { lent: 7 })));
        assert_eq!(of_numbers([0, 14, 0, 0, 0, 0, 0, 4096]), Some(Err(Refusal::EdgesShort { lent: 4096 })));
        assert_eq!(of_numbers([0, 15, 0, 0, 0, 0, 0, 0]), Some(Err(Refusal::AlternativesShort { lent: 0 })));
    }

    #[test]
    fn other_numbers_are_no_answer() {
        let no_answers = [
            [0, 0, 0, 0, 0, 0, 0, 0],
            [3, 0, 8, 7, 1, 0, 0, 0],
            [1, 1, 8, 7, 1, 2, 1, 0],
            [1, 0, 8, 7, 1, 3, 1, 0],
            [1, 0, 8, 7, 1, 2, 2, 0],
            [1, 0, 8, 7, 1, 2, 1, 8],
            [2, 0, 8, 7, 1, 2, 0, 0],
            [2, 0, 8, 7, 1, 0, 0, 8],
            [0, 0, 0, 0, 0, 0, 0, 7],
            [0, 1, 1, 0, 0, 0, 0, 0],
            [0, 8, 0, 0, 0, 0, 0, 7],
            [0, 9, 0, 0, 0, 0, 0, 0],
            [0, 10, 0, 0, 0, 0, 0, 0],
            [0, 10, 0, 0, 0, 0, 0, 7],
            [0, 11, 0, 1, 0, 2, 1, 0],
            [0, 11, 0, 0, 0, 2, 1, 7],
            [0, 12, 0, 0, 0, 0, 0, 0],
            [0, 13, 7, 0, 0, 0, 0, 7],
            [0, 13, 0, 0, 0, 1, 0, 7],
            [0, 14, 0, 0, 0, 0, 1, 7],
            [0, 15, 0, 0, 0, 0, 0, 4097],
            [1, 13, 0, 0, 0, 0, 0, 7],
            [2, 14, 0, 0, 0, 0, 0, 7],
            [0, 16, 0, 0, 0, 0, 0, 7],
            [0, 16, 0, 1, 0, 0, 0, 0],
            [1, 16, 0, 0, 0, 0, 0, 0],
            [0, 17, 0, 0, 0, 0, 0, 0],
        ];
        for numbers in no_answers {
            assert_eq!(of_numbers(numbers), None, "{numbers:?}");
        }
    }
}
