//! An example as the bytes of its two areas (document 01, "Areas" and "The example"; document 02, \[6\]): the rows that each element
//! lists, the links, and the world that is read from both.

use crate::ontology::{Concept, Ontology};
use crate::sizes::{ELEMENT, LINK};
use crate::world::{Truth, World};

/// The records of an example.
pub struct Example<'a> {
    elements: &'a [[u8; ELEMENT]],
    links: &'a [[u8; LINK]],
}

/// A bit of an element's record that is not as it should be.
#[derive(Clone, Copy, Debug, PartialEq, Eq)]
pub struct WrongBit {
    pub element: usize,
    pub bit: usize,
    pub listed: bool,
}

impl<'a> Example<'a> {
    /// `None` unless the bytes are whole records.
    pub fn read(elements: &'a [u8], links: &'a [u8]) -> Option<Example<'a>> {
        let ((elements, []), (links, [])) = (elements.as_chunks(), links.as_chunks()) else { return None };
        Some(Example { elements, links })
    }

    /// The number of elements.
    pub fn size(&self) -> usize {
        self.elements.len()
    }

    /// Does the element list the row?
    pub fn lists(&self, element: usize, row: usize) -> bool {
        self.elements[element][row / 8] >> (row % 8) & 1 == 1
    }

    /// The links: from, role code, to.
    pub fn links(&self) -> impl Iterator<Item = [usize; 3]> + 'a {
        let number = |low: u8, high: u8| usize::from(low) + 256 * usize::from(high);
        self.links.iter().map(move |&[a, b, c, d, e, f]| [number(a, b), number(c, d), number(e, f)])
    }

    /// The world. A name holds where its kind 1 row is listed; (d, e) belongs to role k if it is listed for it or for a narrower one.
    pub fn world(&self, ontology: &Ontology) -> World {
        let mut world = self.world_as_listed(ontology);
        world.widen(ontology);
        world
    }

    /// The same without the pairs that kind 7 rows add: (d, e) belongs to role k if (d, 2k, e) or (e, 2k + 1, d) is listed.
    pub fn world_as_listed(&self, ontology: &Ontology) -> World {
        let mut world = World::new(self.size());
        for (row, concept) in ontology.rows.iter().enumerate() {
            if let Concept::Name(name) = *concept {
                (0..self.size()).filter(|&d| self.lists(d, row)).for_each(|d| world.set_name(name, d));
            }
        }
        for [from, code, to] in self.links() {
            let (d, e) = if code % 2 == 0 { (from, to) } else { (to, from) };
            world.set_pair(code / 2, d, e);
        }
        world
    }

    /// The first bit that is wrong: an element lists a row of the table exactly if it holds there, and no bit past the table is set.
    pub fn wrong_bit(&self, truth: &Truth) -> Option<WrongBit> {
        let bits = (0..self.size()).flat_map(|element| (0..8 * ELEMENT).map(move |bit| (element, bit)));
        let holds = |element: usize, bit: usize| truth.get(bit).is_some_and(|row| row[element]);
        bits.map(|(element, bit)| WrongBit { element, bit, listed: self.lists(element, bit) })
            .find(|&WrongBit { element, bit, listed }| listed != holds(element, bit))
    }
}

#[cfg(test)]
mod tests {
    use super::*;

    /// Rows: name 0; all along code 1: row 0; some along code 0: row 1. Wanted: row 2.
    const EIGHT_NODES: [u8; 20] = [1, 0, 0, 0, 5, 1, 0, 0, 6, 0, 1, 0, 0, 0, 3, 0, 2, b'F', b'I', b'T'];

    /// Two elements with these low bytes and high bytes, and the link 0 0 1, told from this end.
    fn wrong_bit(low: [u8; 2], high: [u8; 2], link: [u8; LINK]) -> Option<WrongBit> {
        let ontology = Ontology::decode(&EIGHT_NODES).expect("a rule file");
        let elements = [low[0], 0, 0, 0, 0, 0, 0, high[0], low[1], 0, 0, 0, 0, 0, 0, high[1]];
        let example = Example::read(&elements, &link).expect("whole records");
        let world = example.world(&ontology);
        assert!(world.is_model(&ontology, 0));
        example.wrong_bit(&world.truth(&ontology))
    }

    #[test]
    fn every_bit_is_judged() {
        let (forwards, backwards) = ([0, 0, 0, 0, 1, 0], [1, 0, 1, 0, 0, 0]);
        let wrong = |element, bit, listed| Some(WrongBit { element, bit, listed });
        assert_eq!(wrong_bit([7, 2], [0, 0], forwards), None);
        assert_eq!(wrong_bit([7, 2], [0, 0], backwards), None);
        assert_eq!(wrong_bit([5, 2], [0, 0], forwards), wrong(0, 1, false));
        assert_eq!(wrong_bit([3, 2], [0, 0], forwards), wrong(0, 2, false));
        assert_eq!(wrong_bit([7, 0], [0, 0], forwards), wrong(1, 1, false));
        assert_eq!(wrong_bit([7, 6], [0, 0], forwards), wrong(1, 2, true));
        assert_eq!(wrong_bit([7, 10], [0, 0], forwards), wrong(1, 3, true));
        assert_eq!(wrong_bit([7, 2], [0, 128], forwards), wrong(1, 63, true));
        assert_eq!(wrong_bit([7, 2], [1, 0], forwards), wrong(0, 56, true));
    }

    #[test]
    fn broken_records_are_no_example() {
        assert!(Example::read(&[0; 8], &[0; 12]).is_some_and(|example| example.size() == 1));
        assert!(Example::read(&[0; 9], &[0; 12]).is_none());
        assert!(Example::read(&[0; 8], &[0; 11]).is_none());
    }

    #[test]
    fn numbers_have_their_low_byte_first() {
        let example = Example::read(&[], &[1, 2, 31, 0, 4, 3]).expect("whole records");
        assert_eq!(example.links().collect::<Vec<_>>(), [[513, 31, 772]]);
    }
}
