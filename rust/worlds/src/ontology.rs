//! The rows, the TBox and the wanted concept of a rule file or a draft.

use crate::sizes::{CODES, LONGEST_FILE, MOST_ROWS, MOST_RULES, NAMES};

/// A role read forwards or, with `inverse`, backwards.
#[derive(Clone, Copy, Debug, PartialEq, Eq)]
pub struct RoleUse {
    pub role: usize,
    pub inverse: bool,
}

impl RoleUse {
    /// Code 2k is role k, 2k + 1 its inverse.
    fn of_code(code: u8) -> RoleUse {
        RoleUse { role: usize::from(code / 2), inverse: code % 2 == 1 }
    }

    /// The pair of the role that leads this way from `d` to `e`; the other way round it gives the way back.
    pub fn pair(self, d: usize, e: usize) -> (usize, usize) {
        if self.inverse {
            (e, d)
        } else {
            (d, e)
        }
    }
}

/// What a row says; arguments are numbers of lower rows.
#[derive(Clone, Copy, Debug, PartialEq, Eq)]
pub enum Concept {
    Name(usize),
    NotName(usize),
    Both(usize, usize),
    Either(usize, usize),
    All(RoleUse, usize),
    Some(RoleUse, usize),
    /// Of roles, not of elements: where the first leads, the second does too.
    Narrower(RoleUse, RoleUse),
    /// In drafts only.
    Not(usize),
    /// In drafts only.
    IfThen(usize, usize),
}

/// An accepted rule file or draft: every row of `tbox` must hold everywhere, all of `wanted` at one element: the file's own wanted row, or
/// those given in its place. None of these is of kind 7, and no argument is.
#[derive(Clone, Debug, PartialEq, Eq)]
pub struct Ontology {
    pub rows: Vec<Concept>,
    pub tbox: Vec<usize>,
    pub wanted: Vec<usize>,
}

/// The kinds of row of a rule file, and of a draft.
const RULE_FILE: [u8; 7] = [1, 2, 3, 4, 5, 6, 7];
const DRAFT: [u8; 9] = [1, 2, 3, 4, 5, 6, 7, 8, 9];

impl Ontology {
    /// Decodes a file; `None` if document 01's checks refuse it, whichever does.
    pub fn decode(file: &[u8]) -> Option<Ontology> {
        Ontology::decode_kinds(file, &RULE_FILE, None)
    }

    /// Decodes a file with these wanted rows in place of its own (document 02, \[7\]): a member is a member of all of them.
    pub fn decode_wanting(file: &[u8], wanted: &[u8]) -> Option<Ontology> {
        Ontology::decode_kinds(file, &RULE_FILE, Some(wanted))
    }

    /// Decodes a draft (document 02, \[1\]): kinds 8 and 9 pass too.
    pub fn decode_draft(draft: &[u8]) -> Option<Ontology> {
        Ontology::decode_kinds(draft, &DRAFT, None)
    }

    fn decode_kinds(file: &[u8], kinds: &[u8], wanted: Option<&[u8]>) -> Option<Ontology> {
        if file.len() > LONGEST_FILE {
            return None;
        }
        let (body, trailer) = file.split_last_chunk::<8>()?;
        let &[low, high, rows, rules, own, b'F', b'I', b'T'] = trailer else { return None };
        let (rows, rules) = (usize::from(rows), usize::from(rules));
        let table = body.get(usize::from(low) + 256 * usize::from(high)..)?;
        if rows == 0 || rows > MOST_ROWS || rules > MOST_RULES || table.len() != 4 * rows + rules {
            return None;
        }
        let (table, tbox) = table.split_at(4 * rows);
        let rows = decode_rows(table, kinds)?;
        let [tbox, wanted] = [tbox, wanted.unwrap_or(&[own])].map(|list| list.iter().map(|&row| row.into()).collect());
        let ontology = Ontology { rows, tbox, wanted };
        let serves = |&row: &usize| speaks_of_elements(&ontology.rows, row);
        ontology.tbox.iter().chain(&ontology.wanted).all(serves).then_some(ontology)
    }

    /// The names that have a row for them and a row against them, rising.
    pub fn kinds(&self) -> Vec<usize> {
        let has_both =
            |&name: &usize| [Concept::Name(name), Concept::NotName(name)].iter().all(|c| self.rows.contains(c));
        (0..NAMES).filter(has_both).collect()
    }

    /// The same rules, and wanted is an `a` that isn't a `b`. This is said in two rows of its own, whichever the file has.
    pub fn wanting_but_not(&self, a: usize, b: usize) -> Ontology {
        let (mut rows, first) = (self.rows.clone(), self.rows.len());
        rows.extend([Concept::Name(a), Concept::NotName(b)]);
        Ontology { rows, tbox: self.tbox.clone(), wanted: vec![first, first + 1] }
    }

    /// The kind 7 rows: narrower role, wider role.
    pub fn inclusions(&self) -> impl Iterator<Item = (RoleUse, RoleUse)> + '_ {
        self.rows.iter().filter_map(|&row| match row {
            Concept::Narrower(narrow, wide) => Some((narrow, wide)),
            _ => None,
        })
    }
}

/// Is there such a row, and can it hold at an element?
fn speaks_of_elements(rows: &[Concept], row: usize) -> bool {
    rows.get(row).is_some_and(|concept| !matches!(concept, Concept::Narrower(..)))
}

/// All rows; `None` if one has another kind or is malformed, names a row that isn't lower or is of kind 7, or repeats another.
/// Different bytes are different concepts, so repeats show in the concepts.
fn decode_rows(table: &[u8], kinds: &[u8]) -> Option<Vec<Concept>> {
    let mut rows = Vec::new();
    for row in table.chunks_exact(4) {
        let concept = decode_row(row[0], row[1], row[2], row[3], &rows)?;
        if !kinds.contains(&row[0]) || rows.contains(&concept) {
            return None;
        }
        rows.push(concept);
    }
    Some(rows)
}

/// The row after these, which its arguments must be among.
fn decode_row(kind: u8, role: u8, left: u8, right: u8, lower: &[Concept]) -> Option<Concept> {
    let unused = match kind {
        1 | 2 | 8 => role == 0 && right == 0,
        3 | 4 | 9 => role == 0,
        _ => right == 0,
    };
    let along = RoleUse::of_code(role);
    let (l, r) = (usize::from(left), usize::from(right));
    let [of_left, of_right] = [l, r].map(|row| speaks_of_elements(lower, row));
    let concept = match kind {
        1 if l < NAMES => Concept::Name(l),
        2 if l < NAMES => Concept::NotName(l),
        3 if of_left && of_right => Concept::Both(l, r),
        4 if of_left && of_right => Concept::Either(l, r),
        5 if of_left && role < CODES => Concept::All(along, l),
        6 if of_left && role < CODES => Concept::Some(along, l),
        7 if role < CODES && left < CODES => Concept::Narrower(along, RoleUse::of_code(left)),
        8 if of_left => Concept::Not(l),
        9 if of_left && of_right => Concept::IfThen(l, r),
        _ => return None,
    };
    unused.then_some(concept)
}
