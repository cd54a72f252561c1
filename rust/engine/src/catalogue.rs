//! The catalogue page of kinds, from the numbers of its call and the bytes of its table.

use crate::convention::Page;
use crate::names::Names;
use crate::refusal::Refusal;
use gumbyra_table::NAMES;

/// The most names of a catalogue: there are names 0 to 63, and each is listed once. So many are enough for every table
/// of this engine, and of one that takes more rows.
pub const MOST_NAMES: usize = NAMES as usize;

/// The most entries of a table, a byte each. An area of so many bytes is enough for every table of this engine, and of
/// one that takes more rows.
pub const LARGEST_TABLE: usize = MOST_NAMES * MOST_NAMES;

/// Is every part with the one name a part with the other? An entry of the table.
#[derive(Clone, Copy, Debug, PartialEq, Eq, Hash)]
pub enum IsA {
    /// 1: yes. One that isn't cannot exist, in no assembly of any size.
    Always,
    /// 0: no. One that isn't can exist.
    NotAlways,
    /// 2: the work areas did not suffice to decide it. Larger ones may, and change no entry that is decided.
    Undecided,
}

impl IsA {
    /// The entry that a byte of the table is; `None` if it is none.
    fn of_byte(byte: u8) -> Option<IsA> {
        match byte {
            0 => Some(IsA::NotAlways),
            1 => Some(IsA::Always),
            2 => Some(IsA::Undecided),
            _ => None,
        }
    }
}

/// The names of a rule file that have both a kind 1 and a kind 2 row, and for each two of them whether every part with
/// the one name is a part with the other. It borrows the area that holds the table.
#[derive(Clone, Copy, Debug, PartialEq, Eq)]
pub struct Catalogue<'a> {
    names: Names,
    table: &'a [u8],
}

impl<'a> Catalogue<'a> {
    /// The names that are listed.
    pub fn names(&self) -> Names {
        self.names
    }

    /// The table as it is kept beside the rule file: a byte an entry, row after row, in order of names.
    pub fn table(&self) -> &'a [u8] {
        self.table
    }

    /// Is every `a` a `b`? `None` if one of them is no name that is listed.
    ///
    /// Of a name that nothing can have each entry that is decided is [`IsA::Always`]: none of these parts isn't a `b`,
    /// since there are none.
    pub fn is_a(&self, a: u8, b: u8) -> Option<IsA> {
        let (row, column) = (self.names.place(a)?, self.names.place(b)?);
        IsA::of_byte(self.table[row * self.names.len() + column])
    }
}

/// The catalogue that a page tells, or its refusal, with the table's area as it is after the call. `None` if it is no
/// answer of the catalogue: each refusal gives its number and zeros elsewhere, and 17 comes in no area of
/// [`LARGEST_TABLE`] bytes.
pub(crate) fn outcome<'a>(page: &Page, area: &'a [u8]) -> Option<Result<Catalogue<'a>, Refusal>> {
    let names = Names::of_bits(page.names);
    if names.len() != page.count as usize {
        return None;
    }
    if page.refusal != 0 {
        let may_come = |refusal: &Refusal| *refusal != Refusal::TableShort || area.len() < LARGEST_TABLE;
        return Refusal::of_page(page.refusal).filter(|refusal| names.is_empty() && may_come(refusal)).map(Err);
    }
    let table = area.get(..names.len() * names.len())?;
    let is_table = table.iter().all(|&byte| IsA::of_byte(byte).is_some());
    is_table.then_some(Ok(Catalogue { names, table }))
}

#[cfg(test)]
mod tests {
    use super::*;

    /// Names 1, 4 and 63.
    const NAMES: u64 = 1 << 63 | 1 << 4 | 1 << 1;
    const AREA: [u8; 10] = [1, 0, 2, 1, 1, 0, 0, 2, 1, 7];

    fn of_numbers(refusal: u32, count: u32, names: u64, area: &[u8]) -> Option<Result<Catalogue<'_>, Refusal>> {
        outcome(&Page { refusal, count, names }, area)
    }

    #[test]
    fn entries_are_told_by_their_names() {
        for area in [AREA.as_slice(), &AREA[..9]] {
            let Some(Ok(catalogue)) = of_numbers(0, 3, NAMES, area) else { panic!("a catalogue") };
            assert_eq!(catalogue.names().iter().collect::<Vec<_>>(), [1, 4, 63]);
            assert_eq!(catalogue.table(), &AREA[..9]);
            let row = |a: u8| [1, 4, 63].map(|b| catalogue.is_a(a, b).expect("an entry"));
            assert_eq!(row(1), [IsA::Always, IsA::NotAlways, IsA::Undecided]);
            assert_eq!(row(4), [IsA::Always, IsA::Always, IsA::NotAlways]);
            assert_eq!(row(63), [IsA::NotAlways, IsA::Undecided, IsA::Always]);
            assert!([(0, 1), (1, 0), (1, 2), (62, 4), (4, 64), (255, 255)]
                .iter()
                .all(|&(a, b)| catalogue.is_a(a, b).is_none()));
        }
    }

    #[test]
    fn every_page_has_its_outcome() {
        let Some(Ok(none)) = of_numbers(0, 0, 0, b"") else { panic!("a catalogue without names") };
        assert_eq!((none.names().len(), none.table(), none.is_a(0, 0)), (0, b"".as_slice(), None));
        let Some(Ok(half)) = of_numbers(0, 32, u64::MAX << 32, &[1; 32 * 32]) else { panic!("a catalogue") };
        assert_eq!(half.names().iter().collect::<Vec<_>>(), (32..64).collect::<Vec<_>>());
        let Some(Ok(all)) = of_numbers(0, 64, u64::MAX, &[1; LARGEST_TABLE]) else { panic!("a catalogue") };
        assert_eq!((all.names().len(), all.is_a(63, 63)), (MOST_NAMES, Some(IsA::Always)));
        for number in [1, 2, 3, 4, 5, 6, 7, 8, 16, 17] {
            let refusal = of_numbers(number, 0, 0, &AREA).expect("an answer").expect_err("a refusal");
            assert_eq!(u32::from(refusal.number()), number);
        }
        for area in [&AREA[..8], b"", &[0; LARGEST_TABLE - 1]] {
            assert_eq!(of_numbers(17, 0, 0, area), Some(Err(Refusal::TableShort)));
        }
    }

    #[test]
    fn other_numbers_are_no_answer() {
        for refusal in [0, 1, 8, 16, 17] {
            assert_eq!(of_numbers(refusal, 2, NAMES, &AREA), None, "{refusal}: fewer than the names");
            assert_eq!(of_numbers(refusal, 4, NAMES, &AREA), None, "{refusal}: more than the names");
            assert_eq!(of_numbers(refusal, 65, u64::MAX, &[0; 65 * 65]), None, "{refusal}: more than there can be");
            assert_eq!(of_numbers(refusal, u32::MAX, NAMES, &AREA), None, "{refusal}");
        }
        for refusal in [1, 8, 16, 17] {
            assert_eq!(of_numbers(refusal, 3, NAMES, &AREA[..8]), None, "{refusal}: zeros elsewhere");
            assert_eq!(of_numbers(refusal, 3, 0, &AREA[..8]), None, "{refusal}: zeros elsewhere");
            assert_eq!(of_numbers(refusal, 0, NAMES, &AREA[..8]), None, "{refusal}: zeros elsewhere");
        }
        for refusal in [9, 10, 11, 12, 13, 14, 15, 18, u32::MAX] {
            assert_eq!(of_numbers(refusal, 0, 0, &AREA), None, "{refusal}: of a run, of a conversion, or none");
            assert_eq!(of_numbers(refusal, 3, NAMES, &AREA[..8]), None, "{refusal}");
        }
        assert_eq!(of_numbers(17, 0, 0, &[0; LARGEST_TABLE]), None, "an area that is long enough");
        assert_eq!(of_numbers(0, 3, NAMES, &AREA[..8]), None, "longer than the area");
        assert_eq!(of_numbers(0, 3, NAMES, &[1, 1, 1, 1, 1, 1, 1, 1, 3]), None, "3 is no entry");
    }
}
