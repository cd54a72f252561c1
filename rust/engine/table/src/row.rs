//! What a row says, and its four bytes.

/// How many names there are, from 0 on.
pub const NAMES: u8 = 64;
/// How many role codes there are, from 0 on.
pub const ROLE_CODES: u8 = 32;

/// What a row says. Arguments are numbers of lower rows; a role is a code: 2k is role k, 2k + 1 its inverse.
///
/// ```
/// # use gumbyra_table as gumbyra;
/// use gumbyra::Row;
///
/// // Has some pump fitted to it, if row 0 says "is a pump" and code 1 is "has fitted to it".
/// let row = Row::Some { role: 1, row: 0 };
/// assert_eq!(row.bytes(), [6, 1, 0, 0]);
/// assert_eq!(Row::of_bytes([6, 1, 0, 0]), Some(row));
/// assert_eq!(Row::of_bytes([6, 1, 0, 7]), None, "the last byte is not used");
/// ```
#[derive(Clone, Copy, Debug, PartialEq, Eq, Hash)]
pub enum Row {
    /// Kind 1: the part has the name, 0 to 63.
    Name(u8),
    /// Kind 2: it hasn't the name.
    NotName(u8),
    /// Kind 3: both rows are true of it.
    Both(u8, u8),
    /// Kind 4: at least one of the rows is.
    Either(u8, u8),
    /// Kind 5: the row is true of all parts the role leads to, also if there are none.
    All {
        /// A code, 0 to 31.
        role: u8,
        /// The row that is true of them.
        row: u8,
    },
    /// Kind 6: the row is true of at least one part the role leads to.
    Some {
        /// A code, 0 to 31.
        role: u8,
        /// The row that is true of it.
        row: u8,
    },
    /// Kind 7, true of no part: every pair of the role is a pair of the wider one.
    Within {
        /// A code, 0 to 31.
        role: u8,
        /// A code, 0 to 31.
        wider: u8,
    },
    /// Kind 8, in drafts only: the row isn't true of it.
    Not(u8),
    /// Kind 9, in drafts only: the right row is true of it or the left row isn't.
    If(u8, u8),
}

impl Row {
    /// What four bytes say. `None` if no row has them, in a rule file or a draft: refusal 5.
    pub fn of_bytes(bytes: [u8; 4]) -> Option<Row> {
        Row::of_kind(bytes).filter(|row| row.bytes() == bytes && row.excess().is_none())
    }

    /// What the bytes that its kind uses say, whichever the others are and however high these. `None` if there is no
    /// such kind.
    fn of_kind([kind, role, left, right]: [u8; 4]) -> Option<Row> {
        Some(match kind {
            1 => Row::Name(left),
            2 => Row::NotName(left),
            3 => Row::Both(left, right),
            4 => Row::Either(left, right),
            5 => Row::All { role, row: left },
            6 => Row::Some { role, row: left },
            7 => Row::Within { role, wider: left },
            8 => Row::Not(left),
            9 => Row::If(left, right),
            _ => return None,
        })
    }

    /// Its four bytes: kind, role, left, right.
    pub fn bytes(self) -> [u8; 4] {
        let kind = self.kind();
        match self {
            Row::Name(name) | Row::NotName(name) => [kind, 0, name, 0],
            Row::Both(left, right) | Row::Either(left, right) | Row::If(left, right) => [kind, 0, left, right],
            Row::All { role, row } | Row::Some { role, row } => [kind, role, row, 0],
            Row::Within { role, wider } => [kind, role, wider, 0],
            Row::Not(row) => [kind, 0, row, 0],
        }
    }

    /// Its kind, 1 to 9.
    pub fn kind(self) -> u8 {
        match self {
            Row::Name(_) => 1,
            Row::NotName(_) => 2,
            Row::Both(..) => 3,
            Row::Either(..) => 4,
            Row::All { .. } => 5,
            Row::Some { .. } => 6,
            Row::Within { .. } => 7,
            Row::Not(_) => 8,
            Row::If(..) => 9,
        }
    }

    /// Is it of a kind that only a draft may have, 8 or 9?
    pub fn is_of_draft(self) -> bool {
        matches!(self, Row::Not(_) | Row::If(..))
    }

    /// The rows that it names, left before right.
    pub fn arguments(self) -> impl Iterator<Item = u8> {
        let arguments = match self {
            Row::Name(_) | Row::NotName(_) | Row::Within { .. } => [None, None],
            Row::All { row, .. } | Row::Some { row, .. } | Row::Not(row) => [Some(row), None],
            Row::Both(left, right) | Row::Either(left, right) | Row::If(left, right) => [Some(left), Some(right)],
        };
        arguments.into_iter().flatten()
    }

    /// What is higher than it may be, in words.
    fn excess(self) -> Option<&'static str> {
        match self {
            Row::Name(name) | Row::NotName(name) if name >= NAMES => Some("the name is above 63"),
            Row::All { role, .. } | Row::Some { role, .. } | Row::Within { role, .. } if role >= ROLE_CODES => {
                Some("the role is above 31")
            }
            Row::Within { wider, .. } if wider >= ROLE_CODES => Some("the wider role is above 31"),
            _ => None,
        }
    }
}

/// What is wrong with four bytes that no row has, in words.
pub(crate) fn trouble(bytes: [u8; 4]) -> &'static str {
    let Some(row) = Row::of_kind(bytes) else { return "there is no such kind" };
    // A byte that its kind does not use is written as zero.
    let [_, role, _, right] = row.bytes();
    match bytes {
        [_, given, _, _] if given != role => "this kind does not use the second byte, so that has to be 0",
        [_, _, _, given] if given != right => "this kind does not use the last byte, so that has to be 0",
        _ => row.excess().unwrap_or("nothing"),
    }
}

#[cfg(test)]
mod tests {
    use super::*;

    /// Every kind with every role and bytes at the bounds: what is taken is written again, and what isn't has its
    /// trouble.
    #[test]
    fn bytes_are_those_that_were_read() {
        let (mut rows, mut troubles) = (0, Vec::new());
        for kind in 0..=255 {
            for role in 0..=255 {
                for left in [0, 1, 31, 32, 63, 64, 255] {
                    for bytes in [0, 1, 255].map(|right| [kind, role, left, right]) {
                        let Some(row) = Row::of_bytes(bytes) else {
                            troubles.push(trouble(bytes));
                            continue;
                        };
                        rows += 1;
                        assert_eq!((row.bytes(), row.kind()), (bytes, kind));
                        assert_eq!(row.is_of_draft(), kind > 7);
                    }
                }
            }
        }
        // Names 0 to 63 five times; three kinds of two arguments; two along a role; codes 0 to 31 three times; "not".
        assert_eq!(rows, 2 * 5 + 3 * 7 * 3 + 2 * 32 * 7 + 32 * 3 + 7);
        troubles.sort();
        troubles.dedup();
        assert_eq!(troubles.len(), 6, "{troubles:?}");
    }

    #[test]
    fn trouble_is_told_of_the_byte_that_has_it() {
        let told = [
            ([0, 0, 0, 0], "there is no such kind"),
            ([10, 0, 0, 0], "there is no such kind"),
            ([3, 1, 0, 0], "this kind does not use the second byte, so that has to be 0"),
            ([8, 0, 0, 1], "this kind does not use the last byte, so that has to be 0"),
            ([2, 0, 64, 0], "the name is above 63"),
            ([6, 32, 0, 0], "the role is above 31"),
            ([7, 31, 32, 0], "the wider role is above 31"),
        ];
        for (bytes, expected) in told {
            assert_eq!((Row::of_bytes(bytes), trouble(bytes)), (None, expected), "{bytes:?}");
        }
    }

    #[test]
    fn arguments_are_rows_left_before_right() {
        let arguments = |bytes| Row::of_bytes(bytes).expect("a row").arguments().collect::<Vec<_>>();
        for bytes in [[1, 0, 5, 0], [2, 0, 5, 0], [7, 5, 9, 0]] {
            assert_eq!(arguments(bytes), [], "{bytes:?}");
        }
        for bytes in [[5, 3, 5, 0], [6, 3, 5, 0], [8, 0, 5, 0]] {
            assert_eq!(arguments(bytes), [5], "{bytes:?}");
        }
        for bytes in [[3, 0, 5, 9], [4, 0, 5, 9], [9, 0, 5, 9]] {
            assert_eq!(arguments(bytes), [5, 9], "{bytes:?}");
        }
    }
}
