//! Which rows of a draft a row of its rule file stands for.

use crate::row::Row;
use crate::table::Table;

/// What a row of a converted draft stands for: a row of the draft, or its opposite.
#[derive(Clone, Copy, Debug, PartialEq, Eq, Hash)]
pub struct Origin {
    /// The row of the draft.
    pub row: u8,
    /// Is it true exactly where that row isn't?
    pub opposite: bool,
}

/// For each row of the file that a draft becomes, the rows of the draft that it stands for, as first needed; there is
/// always one.
///
/// The draft is converted here once more, without proof, and `None` comes back unless that gives the file, byte for
/// byte. So what is told belongs to the bytes, whoever wrote them.
///
/// ```
/// # use gumbyra_table as gumbyra;
/// use gumbyra::{origins, Origin, Row, Table};
///
/// // Rule: if it is a dosing pump, it is a pump. Wanted: it isn't a pump.
/// let mut draft = Table::default();
/// let (dosing, pump) = (draft.name(0), draft.name(1));
/// let rule = draft.if_then(dosing, pump);
/// draft.rule(rule);
/// draft.wanted = draft.not(pump);
///
/// // What `gumbyra::convert` makes of it: not name 0; name 1; either of these, the rule; not name 1, wanted.
/// let rows = vec![Row::NotName(0), Row::Name(1), Row::Either(0, 1), Row::NotName(1)];
/// let mut file = Table { rows, rules: vec![2], wanted: 3, ..Table::default() };
///
/// let itself = |row| Origin { row, opposite: false };
/// let opposite = |row| Origin { row, opposite: true };
/// let told = origins(&draft.encode()?, &file.encode()?);
/// let of_wanted = vec![itself(draft.wanted), opposite(pump)];
/// assert_eq!(told, Some(vec![vec![opposite(dosing)], vec![itself(pump)], vec![itself(rule)], of_wanted]));
///
/// file.wanted = 1;
/// assert_eq!(origins(&draft.encode()?, &file.encode()?), None);
/// # Ok::<(), gumbyra::Fault>(())
/// ```
pub fn origins(draft: &[u8], file: &[u8]) -> Option<Vec<Vec<Origin>>> {
    let draft = Table::read_draft(draft).ok()?;
    let mut conversion = Conversion::of(&draft);
    let rules = draft.rules.iter().map(|&rule| conversion.number(Origin { row: rule, opposite: false })).collect();
    let wanted = conversion.number(Origin { row: draft.wanted, opposite: false });
    let Conversion { result: Table { rows, .. }, needed, numbers, .. } = conversion;
    let mut origins = vec![Vec::new(); rows.len()];
    for origin in needed {
        let number = numbers[usize::from(origin.row)][usize::from(origin.opposite)].expect("what is needed is written");
        origins[usize::from(number)].push(origin);
    }
    let result = Table { text: draft.text, rows, rules, wanted };
    (result.encode().ok()? == file).then_some(origins)
}

/// A draft as it becomes a rule file.
struct Conversion<'a> {
    draft: &'a Table,
    result: Table,
    /// What was asked for so far, once each.
    needed: Vec<Origin>,
    /// For each row of the draft the row of the result that stands for it, and the one for its opposite. Without it a
    /// row would be gone through once for each way that leads to it, and of such there can be two to the power of the
    /// rows.
    numbers: Vec<[Option<u8>; 2]>,
}

impl Conversion<'_> {
    /// The rows of kind 7, which stay and come first.
    fn of(draft: &Table) -> Conversion<'_> {
        let numbers = vec![[None; 2]; draft.rows.len()];
        let mut conversion = Conversion { draft, result: Table::default(), needed: Vec::new(), numbers };
        for (row, said) in draft.numbered().filter(|(_, said)| matches!(said, Row::Within { .. })) {
            conversion.needed.push(Origin { row, opposite: false });
            conversion.numbers[usize::from(row)][0] = Some(conversion.result.row(said));
        }
        conversion
    }

    /// The row of the result that stands for a row of the draft or its opposite.
    fn number(&mut self, origin: Origin) -> u8 {
        let at = |origin: Origin| (usize::from(origin.row), usize::from(origin.opposite));
        let (row, opposite) = at(origin);
        if let Some(number) = self.numbers[row][opposite] {
            return number;
        }
        self.needed.push(origin);
        let number = self.write(origin);
        self.numbers[row][opposite] = Some(number);
        number
    }

    /// The same, the row being written unless an equal one is there: "not" comes down to the names.
    fn write(&mut self, Origin { row, opposite }: Origin) -> u8 {
        let same = |row: u8| Origin { row, opposite };
        let turned = |row: u8| Origin { row, opposite: !opposite };
        match (self.draft.rows[usize::from(row)], opposite) {
            (Row::Name(name), false) | (Row::NotName(name), true) => self.result.name(name),
            (Row::NotName(name), false) | (Row::Name(name), true) => self.result.not_name(name),
            (Row::Both(left, right), false) | (Row::Either(left, right), true) => {
                self.pair(Row::Both, same(left), same(right))
            }
            (Row::Either(left, right), false) | (Row::Both(left, right), true) => {
                self.pair(Row::Either, same(left), same(right))
            }
            (Row::If(left, right), false) => self.pair(Row::Either, turned(left), same(right)),
            (Row::If(left, right), true) => self.pair(Row::Both, turned(left), same(right)),
            (Row::Not(row), _) => self.number(turned(row)),
            (Row::All { role, row }, false) | (Row::Some { role, row }, true) => {
                let row = self.number(same(row));
                self.result.all(role, row)
            }
            (Row::Some { role, row }, false) | (Row::All { role, row }, true) => {
                let row = self.number(same(row));
                self.result.some(role, row)
            }
            (Row::Within { .. }, _) => unreachable!("check 16: nothing names such a row"),
        }
    }

    /// Left before right, then the row.
    fn pair(&mut self, kind: impl Fn(u8, u8) -> Row, left: Origin, right: Origin) -> u8 {
        let left = self.number(left);
        let right = self.number(right);
        self.result.row(kind(left, right))
    }
}

#[cfg(test)]
mod tests {
    use super::*;

    fn itself(row: u8) -> Origin {
        Origin { row, opposite: false }
    }

    fn opposite(row: u8) -> Origin {
        Origin { row, opposite: true }
    }

    #[test]
    fn every_kind_and_its_opposite() {
        // Both, either, all and some over pump (row 0) and no hose (row 1), and an "if" of each two; wanted: the
        // opposite of the last.
        let mut draft = Table { text: b"hose".to_vec(), ..Table::default() };
        let (pump, no_hose) = (draft.name(0), draft.not_name(1));
        draft.within(3, 1);
        let (both, either) = (draft.both(pump, no_hose), draft.either(pump, no_hose));
        let (all, some) = (draft.all(2, both), draft.some(3, either));
        let rule = draft.if_then(all, some);
        draft.rule(rule);
        draft.wanted = draft.not(rule);
        let rows = [
            // Kind 7 first; then the rule: some along 2: not both, or some along 3: either.
            (Row::Within { role: 3, wider: 1 }, vec![itself(2)]),
            (Row::NotName(0), vec![opposite(0)]),
            (Row::Name(1), vec![opposite(1)]),
            (Row::Either(1, 2), vec![opposite(3)]),
            (Row::Some { role: 2, row: 3 }, vec![opposite(5)]),
            (Row::Name(0), vec![itself(0)]),
            (Row::NotName(1), vec![itself(1)]),
            (Row::Either(5, 6), vec![itself(4)]),
            (Row::Some { role: 3, row: 7 }, vec![itself(6)]),
            (Row::Either(4, 8), vec![itself(7)]),
            // Wanted: all along 2: both, and all along 3: not either.
            (Row::Both(5, 6), vec![itself(3)]),
            (Row::All { role: 2, row: 10 }, vec![itself(5)]),
            (Row::Both(1, 2), vec![opposite(4)]),
            (Row::All { role: 3, row: 12 }, vec![opposite(6)]),
            (Row::Both(11, 13), vec![itself(8), opposite(7)]),
        ];
        let (rows, expected): (Vec<Row>, Vec<Vec<Origin>>) = rows.into_iter().unzip();
        let file = Table { text: b"hose".to_vec(), rows, rules: vec![9], wanted: 14 };
        let [draft, file] = [draft, file].map(|table| table.encode().expect("a file"));
        assert_eq!(origins(&draft, &file), Some(expected));
        for at in 0..file.len() {
            let mut other = file.clone();
            other[at] ^= 1;
            assert_eq!(origins(&draft, &other), None, "byte {at}");
        }
    }

    #[test]
    fn a_tower_is_climbed_soon() {
        let mut draft = Table::default();
        draft.name(0);
        for row in 0..63 {
            draft.wanted = draft.both(row, row);
        }
        let bytes = draft.encode().expect("a draft");
        let told = origins(&bytes, &bytes).expect("a rule file already");
        assert_eq!(told, (0..64).map(|row| vec![itself(row)]).collect::<Vec<_>>());
        let ifs: Vec<Row> = std::iter::once(Row::Name(0)).chain((0..63).map(|row| Row::If(row, row))).collect();
        let too_long = Table { rows: ifs, wanted: 63, ..Table::default() }.encode().expect("a draft");
        assert_eq!(origins(&too_long, &too_long), None, "it becomes more than 64 rows");
    }

    #[test]
    fn what_is_no_draft_becomes_nothing() {
        assert_eq!(origins(b"", b""), None);
        assert_eq!(origins(b"FIT", &[1, 0, 0, 0, 0, 0, 1, 0, 0, b'F', b'I', b'T']), None);
    }
}
