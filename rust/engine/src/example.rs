//! The example that comes with "can", read from the bytes of the two example areas.

use crate::row_set::{RowSet, ELEMENT_BYTES};
use gumbyra_table::ROLE_CODES;
use std::fmt;

/// A link's record: from, role code, to, 2 bytes each, low byte first.
pub const LINK_BYTES: usize = 6;

/// An assembly that shows that the kit can exist. It borrows the two areas that hold it.
#[derive(Clone, Copy, PartialEq, Eq)]
pub struct Example<'a> {
    elements: &'a [[u8; ELEMENT_BYTES]],
    links: &'a [[u8; LINK_BYTES]],
}

/// A link of an example. The pair belongs to its role and to every wider one.
#[derive(Clone, Copy, Debug, PartialEq, Eq, Hash)]
pub struct Link {
    /// The element that it leads from.
    pub from: u16,
    /// A role code: 2k is role k, 2k + 1 its inverse.
    pub role: u8,
    /// The element that it leads to.
    pub to: u16,
}

/// An example of its own, which a program keeps: it borrows nothing, so the space can be used again.
///
/// ```
/// use gumbyra::{Assembly, Link, Space, Table, Verdict};
///
/// // A pump that is fitted to some box, which is itself fitted to nothing but pumps.
/// let mut table = Table::default();
/// let (pump, a_box) = (table.name(0), table.name(1));
/// let only_to_pumps = table.all(0, pump);
/// let such_a_box = table.both(a_box, only_to_pumps);
/// let fitted = table.some(0, such_a_box);
/// table.wanted = table.both(pump, fitted);
///
/// let mut space = Space::usual();
/// let mut kept: Vec<Assembly> = Vec::new();
/// for wanted in [table.wanted, a_box] {
///     let file = Table { wanted, ..table.clone() }.encode()?;
///     if let Verdict::Can { example, .. } = space.fit(&file)? {
///         kept.push(example.into_owned());
///     }
/// }
/// assert_eq!(kept[0].links, [Link { from: 0, role: 0, to: 1 }]);
/// assert!(kept[0].elements[0].contains(fitted) && kept[0].elements[1].contains(a_box));
/// assert_eq!((kept[1].elements.len(), kept[1].links.len()), (1, 0));
/// # Ok::<(), Box<dyn std::error::Error>>(())
/// ```
#[derive(Clone, Debug, Default, PartialEq, Eq)]
pub struct Assembly {
    /// The rows that hold at each element. Element 0 is a member of the kit.
    pub elements: Vec<RowSet>,
    /// The links, repeats kept.
    pub links: Vec<Link>,
}

impl<'a> Example<'a> {
    /// The first so many records of each area; `None` if an area has fewer, or a link a role that is none.
    pub(crate) fn read(areas: [&'a [u8]; 2], counts: [usize; 2]) -> Option<Example<'a>> {
        let [elements, links] = areas;
        let elements = elements.as_chunks().0.get(..counts[0])?;
        let links: &[[u8; LINK_BYTES]] = links.as_chunks().0.get(..counts[1])?;
        let have_roles = links.iter().all(|&[_, _, code, high, _, _]| code < ROLE_CODES && high == 0);
        have_roles.then_some(Example { elements, links })
    }

    /// The row set of each element; `len` tells how many there are. Element 0 is a member of the kit.
    ///
    /// An element lists a row of the rule file exactly if the row holds there, whether a rule or the kit needs it or
    /// not; a row of kind 7 speaks of roles and is never listed. So a page can read a missing row as "no":
    ///
    /// ```
    /// use gumbyra::{Space, Table, Verdict};
    ///
    /// // Codes: 0 is "holds". Wanted: a box that holds some dosing pump. Nothing needs the rows about flush valves.
    /// let mut table = Table::default();
    /// let (a_box, pump) = (table.name(0), table.name(1));
    /// let (valve, no_valve) = (table.name(2), table.not_name(2));
    /// let holds_pump = table.some(0, pump);
    /// let holds_no_valve = table.all(0, no_valve);
    /// table.wanted = table.both(a_box, holds_pump);
    ///
    /// let (file, mut space) = (table.encode()?, Space::usual());
    /// let Verdict::Can { example, .. } = space.fit(&file)? else { panic!("such a box can exist") };
    /// let column = |row| example.elements().map(|set| set.contains(row)).collect::<Vec<_>>();
    /// assert_eq!(column(pump), [false, true], "element 1 is the pump");
    /// assert_eq!(column(holds_pump), [true, false], "element 0, the box, holds it");
    /// assert_eq!(column(valve), [false, false], "neither is a flush valve");
    /// assert_eq!(column(holds_no_valve), [true, true], "the box holds no flush valve, and the pump holds nothing");
    /// # Ok::<(), Box<dyn std::error::Error>>(())
    /// ```
    pub fn elements(&self) -> impl ExactSizeIterator<Item = RowSet> + 'a {
        self.elements.iter().map(|&record| RowSet::of_record(record))
    }

    /// The links, repeats kept; `len` tells how many there are.
    pub fn links(&self) -> impl ExactSizeIterator<Item = Link> + 'a {
        self.links.iter().map(|&record| Link::of_record(record))
    }

    /// The same in memory of its own.
    pub fn into_owned(self) -> Assembly {
        Assembly { elements: self.elements().collect(), links: self.links().collect() }
    }
}

impl Link {
    /// The link in a record, whose role is a code.
    fn of_record([a, b, role, _, e, f]: [u8; LINK_BYTES]) -> Link {
        Link { from: u16::from_le_bytes([a, b]), role, to: u16::from_le_bytes([e, f]) }
    }
}

impl fmt::Debug for Example<'_> {
    fn fmt(&self, f: &mut fmt::Formatter) -> fmt::Result {
        let Assembly { elements, links } = self.into_owned();
        f.debug_struct("Example").field("elements", &elements).field("links", &links).finish()
    }
}

#[cfg(test)]
mod tests {
    use super::*;

    #[test]
    fn records_are_read_low_byte_first() {
        let (elements, links) = ([7; 2 * ELEMENT_BYTES + 1], [0, 1, 31, 0, 1, 0, 2, 0, 0, 0, 3, 0, 9]);
        let example = Example::read([&elements, &links], [2, 2]).expect("an example");
        let expected = [Link { from: 256, role: 31, to: 1 }, Link { from: 2, role: 0, to: 3 }];
        assert_eq!((example.elements().len(), example.links().collect::<Vec<_>>()), (2, expected.to_vec()));
        let rows = RowSet::of_record([7; ELEMENT_BYTES]);
        assert_eq!(example.into_owned(), Assembly { elements: vec![rows; 2], links: expected.to_vec() });
        let of_assembly = format!("{:?}", example.into_owned());
        assert_eq!(format!("{example:?}"), of_assembly.replace("Assembly", "Example"));
    }

    #[test]
    fn other_records_are_none() {
        assert_eq!(Example::read([&[0; 8], &[]], [2, 0]), None, "one element only");
        assert_eq!(Example::read([&[0; 8], &[0; 11]], [1, 2]), None, "one link only");
        assert_eq!(Example::read([&[0; 8], &[0, 0, 32, 0, 0, 0]], [1, 1]), None, "there is no code 32");
        assert_eq!(Example::read([&[0; 8], &[0, 0, 0, 1, 0, 0]], [1, 1]), None, "there is no code 256");
    }
}
