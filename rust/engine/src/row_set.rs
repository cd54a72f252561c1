//! A set of rows, as an element's record holds it.

use std::fmt;

/// Bytes of a row set, and so of an element's record.
pub const ELEMENT_BYTES: usize = 8;

/// The rows that hold at an element: row k as bit k, low byte first. A row of the table that is not in the set does not
/// hold there.
///
/// It prints as hexadecimal digits, the highest row first.
#[derive(Clone, Copy, Default, PartialEq, Eq, Hash)]
pub struct RowSet([u8; ELEMENT_BYTES]);

impl RowSet {
    /// The set in an element's record.
    pub(crate) fn of_record(record: [u8; ELEMENT_BYTES]) -> RowSet {
        RowSet(record)
    }

    /// The set that these digits print; `None` if none prints so.
    ///
    /// ```
    /// use gumbyra::RowSet;
    ///
    /// let set: RowSet = [0, 2].into_iter().collect();
    /// assert_eq!(set.to_string(), "0000000000000005");
    /// assert_eq!(RowSet::of_digits("0000000000000005"), Some(set));
    /// assert_eq!(RowSet::of_digits("5"), None);
    /// ```
    pub fn of_digits(digits: &str) -> Option<RowSet> {
        let mut set = RowSet::default();
        let pairs = digits.as_bytes().as_chunks::<2>().0;
        for (byte, pair) in set.0.iter_mut().rev().zip(pairs) {
            *byte = u8::from_str_radix(std::str::from_utf8(pair).ok()?, 16).ok()?;
        }
        Some(set).filter(|set| set.to_string() == digits)
    }

    /// Puts a row into the set.
    ///
    /// # Panics
    /// If no element lists a row so high.
    pub fn insert(&mut self, row: u8) {
        self.0[usize::from(row / 8)] |= 1 << (row % 8);
    }

    /// Is the row in the set?
    pub fn contains(&self, row: u8) -> bool {
        self.0.get(usize::from(row / 8)).is_some_and(|byte| byte >> (row % 8) & 1 == 1)
    }

    /// The rows of the set, rising.
    pub fn rows(self) -> impl Iterator<Item = u8> {
        (0..=u8::MAX).filter(move |&row| self.contains(row))
    }
}

impl FromIterator<u8> for RowSet {
    fn from_iter<T: IntoIterator<Item = u8>>(rows: T) -> RowSet {
        let mut set = RowSet::default();
        rows.into_iter().for_each(|row| set.insert(row));
        set
    }
}

impl fmt::LowerHex for RowSet {
    fn fmt(&self, f: &mut fmt::Formatter) -> fmt::Result {
        self.0.iter().rev().try_for_each(|byte| write!(f, "{byte:02x}"))
    }
}

impl fmt::Display for RowSet {
    fn fmt(&self, f: &mut fmt::Formatter) -> fmt::Result {
        fmt::LowerHex::fmt(self, f)
    }
}

impl fmt::Debug for RowSet {
    fn fmt(&self, f: &mut fmt::Formatter) -> fmt::Result {
        write!(f, "RowSet({self})")
    }
}

#[cfg(test)]
mod tests {
    use super::*;

    #[test]
    fn row_k_is_bit_k_low_byte_first() {
        const ROWS: u8 = 8 * ELEMENT_BYTES as u8;
        for row in 0..ROWS {
            let mut record = [0; ELEMENT_BYTES];
            record[usize::from(row / 8)] = 1 << (row % 8);
            let set = RowSet::of_record(record);
            assert_eq!(set.rows().collect::<Vec<_>>(), [row]);
            assert!(set.contains(row) && !set.contains(row + 1) && !set.contains(row + ROWS));
        }
        assert_eq!(
            RowSet::of_record([u8::MAX; ELEMENT_BYTES]).rows().collect::<Vec<_>>(),
            (0..ROWS).collect::<Vec<_>>()
        );
    }

    #[test]
    fn the_highest_row_is_printed_first() {
        let set = RowSet::of_record(std::array::from_fn(|at| [0x8e, 0x01][at.min(1)]));
        assert_eq!(set.to_string(), "01".repeat(ELEMENT_BYTES - 1) + "8e");
        assert_eq!(format!("{set:x} {set:?}"), format!("{set} RowSet({set})"));
    }

    #[test]
    fn digits_are_those_that_it_prints() {
        let digits = "01".repeat(ELEMENT_BYTES - 1) + "8e";
        let set = RowSet::of_digits(&digits).expect("a set");
        assert_eq!((set.to_string(), set.rows().collect::<RowSet>()), (digits.clone(), set));
        let upper = digits.replace('e', "E");
        let signed = digits.replacen("01", "+1", 1);
        for other in ["", "01", &digits[1..], &format!("{digits}0"), &format!("00{digits}"), &upper, &signed] {
            assert_eq!(RowSet::of_digits(other), None, "{other}");
        }
    }
}
