//! The converter (document 02, \[1\]): a draft becomes a rule file in which "not" stands before names only and there is no "if". Its
//! kind 7 rows are kept, all of them, before the other rows (document 02, \[6\]).

use crate::concept::{Concept, Kinds, Role, Row};
use crate::draft::DraftConcept;
use crate::rulefile::{encode, Draft};
use crate::sizes::{LONGEST_FILE, MOST_ROWS};

/// The refusal of a result that needs more than 64 rows, more than 4,096 bytes or more than the area.
const TOO_LONG: u8 = 12;

/// The file that a draft becomes in an area of so many bytes, or the number of the refusal: 1 to 8, 16 or 12.
pub fn convert(draft: &[u8], area: usize) -> Result<Vec<u8>, u8> {
    let draft = Draft::read(draft)?;
    let mut table = Table::new(&draft.concepts);
    let rules: Vec<u8> = draft.tbox.iter().map(|&rule| table.write(rule, Sign::Itself)).collect();
    let &[wanted] = draft.wanted.as_slice() else { unreachable!("a draft is read with its own wanted row") };
    let wanted = table.write(wanted, Sign::Itself);
    let file = encode(draft.text, &table.rows, &rules, wanted);
    let fits = table.rows.len() <= MOST_ROWS && file.len() <= LONGEST_FILE.min(area);
    Some(file).filter(|_| fits).ok_or(TOO_LONG)
}

/// Is a row of the draft asked for, or its opposite?
#[derive(Clone, Copy)]
enum Sign {
    Itself,
    Opposite,
}

use Sign::{Itself, Opposite};

impl Sign {
    fn turned(self) -> Sign {
        match self {
            Itself => Opposite,
            Opposite => Itself,
        }
    }
}

/// The rows of the result: those of kind 7 as in the draft, then the others in the order in which they are first needed.
struct Table<'a> {
    draft: &'a [DraftConcept],
    /// For each row of the draft the row written for itself and for its opposite. Without it a row would be gone through once
    /// for each way that leads to it.
    written: Vec<[Option<u8>; 2]>,
    rows: Vec<Row>,
}

impl<'a> Table<'a> {
    /// The kind 7 rows only.
    fn new(draft: &'a [DraftConcept]) -> Table<'a> {
        let code = |role: Role| u8::try_from(role).expect("a role code of a row");
        let inclusions = draft.iter().filter_map(|row| row.inclusion());
        let rows = inclusions.map(|(narrow, wide)| [7, code(narrow), code(wide), 0]).collect();
        Table { draft, written: vec![[None; 2]; draft.len()], rows }
    }

    /// The row of the result that says what a row of the draft says, or the opposite.
    fn write(&mut self, row: usize, sign: Sign) -> u8 {
        if let Some(number) = self.written[row][sign as usize] {
            return number;
        }
        let number = match self.draft[row] {
            DraftConcept::Plain(concept) => self.write_plain(concept, sign),
            DraftConcept::Not(l) => self.write(l, sign.turned()),
            DraftConcept::If(l, r) => match sign {
                Itself => self.write_pair(4, (l, Opposite), (r, Itself)),
                Opposite => self.write_pair(3, (l, Itself), (r, Opposite)),
            },
        };
        self.written[row][sign as usize] = Some(number);
        number
    }

    /// "Both" and "either" are opposites if their arguments are, and so are "all" and "some" along one role.
    fn write_plain(&mut self, concept: Concept, sign: Sign) -> u8 {
        let kind = |itself: u8, opposite: u8| match sign {
            Itself => itself,
            Opposite => opposite,
        };
        match concept {
            Concept::Atomic(name) => self.share([kind(1, 2), 0, name, 0]),
            Concept::Negated(name) => self.share([kind(2, 1), 0, name, 0]),
            Concept::Conj(l, r) => self.write_pair(kind(3, 4), (l, sign), (r, sign)),
            Concept::Disj(l, r) => self.write_pair(kind(4, 3), (l, sign), (r, sign)),
            Concept::Univ(role, l) => self.write_along(kind(5, 6), role, (l, sign)),
            Concept::Exist(role, l) => self.write_along(kind(6, 5), role, (l, sign)),
            Concept::Inclusion(..) => unreachable!("check 16: nothing needs such a row"),
        }
    }

    /// Left before right, then the row.
    fn write_pair(&mut self, kind: u8, left: (usize, Sign), right: (usize, Sign)) -> u8 {
        let left = self.write(left.0, left.1);
        let right = self.write(right.0, right.1);
        self.share([kind, 0, left, right])
    }

    fn write_along(&mut self, kind: u8, role: Role, left: (usize, Sign)) -> u8 {
        let role = u8::try_from(role).expect("a role code of a row");
        let left = self.write(left.0, left.1);
        self.share([kind, role, left, 0])
    }

    /// The number of a row, which is written unless an equal one is there. Each row of the draft writes two at most, so a byte
    /// holds it even if there are too many for a file.
    fn share(&mut self, row: Row) -> u8 {
        let number = self.rows.iter().position(|&written| written == row).unwrap_or_else(|| {
            self.rows.push(row);
            self.rows.len() - 1
        });
        u8::try_from(number).expect("at most 128 rows")
    }
}
