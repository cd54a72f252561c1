//! The parts and links of an example, and what its roles lead to.

use gumbyra::{Assembly, Link, Row, RowSet, Table, NAMES, ROLE_CODES};

/// An assembly with its links as each part sees them.
pub struct Parts<'a> {
    pub table: &'a Table,
    pub assembly: &'a Assembly,
    /// For each part the role codes that lead from it, and where to: each link once, seen from both ends, in order.
    pub links: Vec<Vec<(u8, usize)>>,
    /// The names that each part has, rising.
    pub names: Vec<Vec<u8>>,
    /// For each role code those that it is within, itself too, as bits.
    wider: Vec<u32>,
}

impl<'a> Parts<'a> {
    /// The assembly of an answer that the engine gives to the rule file.
    pub fn of(table: &'a Table, assembly: &'a Assembly) -> Parts<'a> {
        let names = names_of(table, assembly);
        Parts { table, assembly, links: seen_links(assembly), names, wider: wider(table) }
    }

    /// Is the row true of the part?
    pub fn holds(&self, part: usize, row: u8) -> bool {
        self.assembly.elements[part].contains(row)
    }

    /// The parts that a role leads to from a part.
    pub fn reached(&self, part: usize, role: u8) -> impl Iterator<Item = usize> + '_ {
        let within = move |&&(narrower, _): &&(u8, usize)| self.wider[usize::from(narrower)] >> role & 1 == 1;
        self.links[part].iter().filter(within).map(|&(_, to)| to)
    }

    /// For each part the rows on which it depends there that the rules and the wanted row are true: both of a
    /// "both", the only one that is true of an "either", what an "all" leads to. Rows name lower ones, so one way down
    /// finds them all.
    pub fn needed(&self) -> Vec<RowSet> {
        let rules: RowSet = self.table.rules.iter().copied().collect();
        let mut needed = vec![rules; self.assembly.elements.len()];
        needed[0].insert(self.table.wanted);
        let rows: Vec<(u8, Row)> = self.table.numbered().collect();
        for &(row, said) in rows.iter().rev() {
            for part in (0..needed.len()).filter(|&part| needed[part].contains(row)).collect::<Vec<_>>() {
                self.add_needed(&mut needed, part, said);
            }
        }
        needed
    }

    /// What a row that is needed at a part needs in turn.
    fn add_needed(&self, needed: &mut [RowSet], part: usize, said: Row) {
        match said {
            Row::Both(left, right) => [left, right].into_iter().for_each(|row| needed[part].insert(row)),
            Row::Either(left, right) => match [left, right].map(|row| self.holds(part, row)) {
                [true, false] => needed[part].insert(left),
                [false, true] => needed[part].insert(right),
                _ => {}
            },
            Row::All { role, row } => self.reached(part, role).for_each(|to| needed[to].insert(row)),
            _ => {}
        }
    }
}

/// The names that each part has: a name without a row of its own is there where the row that denies it is not.
fn names_of(table: &Table, assembly: &Assembly) -> Vec<Vec<u8>> {
    let rows: Vec<(u8, u8, bool)> = (0..NAMES)
        .filter_map(|name| {
            let own = table.row_of_name(name).map(|row| (name, row, true));
            own.or_else(|| table.row_of_not_name(name).map(|row| (name, row, false)))
        })
        .collect();
    let names = |set: &RowSet| {
        let there = rows.iter().filter(|&&(_, row, says)| set.contains(row) == says);
        there.map(|&(name, _, _)| name).collect()
    };
    assembly.elements.iter().map(names).collect()
}

/// Each part's links, from both ends and each once: `L 1 3 3` and `L 3 2 1` are one.
fn seen_links(assembly: &Assembly) -> Vec<Vec<(u8, usize)>> {
    let mut seen = vec![Vec::new(); assembly.elements.len()];
    for &Link { from, role, to } in &assembly.links {
        let (from, to) = (usize::from(from), usize::from(to));
        seen[from].push((role, to));
        seen[to].push((role ^ 1, from));
    }
    for links in &mut seen {
        links.sort_unstable();
        links.dedup();
    }
    seen
}

/// For each role code those that it is within, itself too: by the rows of kind 7, chained, and turned round.
fn wider(table: &Table) -> Vec<u32> {
    let mut wider: Vec<u32> = (0..ROLE_CODES).map(|code| 1 << code).collect();
    for _ in 0..ROLE_CODES {
        for row in &table.rows {
            if let Row::Within { role, wider: wide } = *row {
                wider[usize::from(role)] |= wider[usize::from(wide)];
                wider[usize::from(role ^ 1)] |= wider[usize::from(wide ^ 1)];
            }
        }
    }
    wider
}
