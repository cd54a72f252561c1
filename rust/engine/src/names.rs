//! A set of names, as a catalogue page lists them.

use gumbyra_table::NAMES;
use std::fmt;

/// A set of names: name n as bit n.
#[derive(Clone, Copy, PartialEq, Eq, Hash)]
pub struct Names(u64);

impl Names {
    /// The set of the bits that are set.
    pub(crate) fn of_bits(bits: u64) -> Names {
        Names(bits)
    }

    /// How many there are.
    pub fn len(self) -> usize {
        self.0.count_ones() as usize
    }

    /// Is there none?
    pub fn is_empty(self) -> bool {
        self.0 == 0
    }

    /// Is the name in the set?
    pub fn contains(self, name: u8) -> bool {
        name < NAMES && self.0 >> name & 1 == 1
    }

    /// The names of the set, rising.
    pub fn iter(self) -> impl Iterator<Item = u8> {
        (0..NAMES).filter(move |&name| self.contains(name))
    }

    /// The place of a name of the set among them.
    pub(crate) fn place(self, name: u8) -> Option<usize> {
        self.iter().position(|member| member == name)
    }
}

impl fmt::Debug for Names {
    fn fmt(&self, f: &mut fmt::Formatter) -> fmt::Result {
        f.debug_set().entries(self.iter()).finish()
    }
}

#[cfg(test)]
mod tests {
    use super::*;

    #[test]
    fn name_n_is_bit_n() {
        for name in 0..NAMES {
            let set = Names::of_bits(1 << name);
            assert_eq!((set.iter().collect::<Vec<_>>(), set.len()), (vec![name], 1));
            assert!(set.contains(name) && !set.contains(name + 1) && !set.contains(name + NAMES));
        }
        let set = Names::of_bits(1 << 63 | 1 << 4 | 1 << 1);
        assert_eq!([0, 1, 4, 63, 64].map(|name| set.place(name)), [None, Some(0), Some(1), Some(2), None]);
        assert_eq!(format!("{set:?}"), "{1, 4, 63}");
        assert!(!set.is_empty() && Names::of_bits(0).is_empty());
    }
}
