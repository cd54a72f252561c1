//! How often things happened in the rows that elements list.
//!
//! In order: the counts; what there is to see in one example; the cases.

use super::needs::needs;
use super::tally::Tally;
use plain::{answer_as_placed, records, Answer, Lent, RowSet};
use std::collections::HashSet;
use worlds::ontology::RoleUse;
use worlds::world::Truth;
use worlds::{Concept, Example, Ontology, World};

/// In how many examples each case happened. The placed sets are those of `plain`.
#[derive(Default)]
pub struct ListingCounts(Tally);

impl ListingCounts {
    /// Counts what happened in the example of an answer, if it has one. The listing must be right.
    pub fn count(&mut self, file: &[u8], answer: &Answer) {
        let (Answer::Can { elements, links, .. }, Some(ontology)) = (answer, Ontology::decode(file)) else { return };
        let Answer::Can { elements: placed, .. } = answer_as_placed(file, &Lent::most()) else {
            panic!("no example of {file:02x?}")
        };
        let [element_records, link_records] = records(elements, links);
        let example = Example::read(&element_records, &link_records).expect("whole records");
        let world = example.world(&ontology);
        let truth = world.truth(&ontology);
        let seen = Seen { ontology: &ontology, world: &world, truth: &truth, links: example.links().collect(), placed };
        self.0.add(seen.cases());
    }

    /// Prints the counts and fails if a case was rare.
    pub fn assert_often(&self, least: usize) {
        self.0.assert_often("examples", least);
    }
}

/// One example and what holds in it.
struct Seen<'a> {
    ontology: &'a Ontology,
    world: &'a World,
    truth: &'a Truth,
    /// From, role code, to.
    links: Vec<[usize; 3]>,
    /// The rows that the procedure placed at each element.
    placed: Vec<RowSet>,
}

impl Seen<'_> {
    /// Does it pass for some row, what it says, and some element?
    fn any(&self, passes: impl Fn(usize, Concept, usize) -> bool) -> bool {
        let rows = || self.ontology.rows.iter().enumerate();
        (0..self.world.size()).any(|d| rows().any(|(row, &concept)| passes(row, concept, d)))
    }

    /// The same for kind 5 rows: number, role, argument, element.
    fn any_all(&self, passes: impl Fn(usize, RoleUse, usize, usize) -> bool) -> bool {
        self.any(|row, concept, d| matches!(concept, Concept::All(along, l) if passes(row, along, l, d)))
    }

    /// The same for kind 6 rows.
    fn any_some(&self, passes: impl Fn(usize, RoleUse, usize, usize) -> bool) -> bool {
        self.any(|row, concept, d| matches!(concept, Concept::Some(along, l) if passes(row, along, l, d)))
    }

    fn holds(&self, row: usize, d: usize) -> bool {
        self.truth[row][d]
    }

    /// Was the row listed only because it holds, not because the procedure placed it?
    fn added(&self, row: usize, d: usize) -> bool {
        self.holds(row, d) && !self.placed[d].contains(row)
    }

    fn leads_nowhere(&self, along: RoleUse, d: usize) -> bool {
        self.world.led_to(along, d).next().is_none()
    }

    /// The elements that links of the role's own code lead to from `d`: those told from the other end are left out.
    fn told_here(&self, along: RoleUse, d: usize) -> impl Iterator<Item = usize> + '_ {
        let code = 2 * along.role + usize::from(along.inverse);
        self.links.iter().filter(move |&&[from, of_link, _]| (from, of_link) == (d, code)).map(|&[_, _, to]| to)
    }

    fn has_kind_1_row(&self, name: usize) -> bool {
        self.ontology.rows.contains(&Concept::Name(name))
    }

    /// Every case, and whether it happened.
    fn cases(&self) -> Vec<(&'static str, bool)> {
        [self.cases_of_rows(), self.cases_of_arguments(), self.cases_of_roles(), self.cases_of_links()].concat()
    }

    /// Which rows are listed, and which of them the procedure had not placed.
    fn cases_of_rows(&self) -> Vec<(&'static str, bool)> {
        let needs = needs(self.ontology);
        let is_needed = |row: usize| needs[row] != [false, false];
        let lone = |concept| matches!(concept, Concept::NotName(name) if !self.has_kind_1_row(name));
        vec![
            ("a row was added", self.any(|k, _, d| self.added(k, d))),
            ("a row that nothing needs is listed", self.any(|k, _, d| !is_needed(k) && self.holds(k, d))),
            ("a row that nothing needs is not", self.any(|k, _, d| !is_needed(k) && !self.holds(k, d))),
            ("a row that is needed was added", self.any(|k, _, d| is_needed(k) && self.added(k, d))),
            ("a not-name was added", self.any(|k, c, d| matches!(c, Concept::NotName(_)) && self.added(k, d))),
            ("a not-name whose name has no row was added", self.any(|k, c, d| lone(c) && self.added(k, d))),
            ("both was added", self.any(|k, c, d| matches!(c, Concept::Both(..)) && self.added(k, d))),
            ("either was added", self.any(|k, c, d| matches!(c, Concept::Either(..)) && self.added(k, d))),
            ("all was added", self.any(|k, c, d| matches!(c, Concept::All(..)) && self.added(k, d))),
            ("some was added", self.any(|k, c, d| matches!(c, Concept::Some(..)) && self.added(k, d))),
        ]
    }

    /// Rows that do not hold although an argument does, at the element itself.
    fn cases_of_arguments(&self) -> Vec<(&'static str, bool)> {
        let fails = |row: usize, d: usize, argument: usize| !self.holds(row, d) && self.holds(argument, d);
        vec![
            ("both fails, left holds", self.any(|k, c, d| matches!(c, Concept::Both(l, _) if fails(k, d, l)))),
            ("both fails, right holds", self.any(|k, c, d| matches!(c, Concept::Both(_, r) if fails(k, d, r)))),
            ("either fails", self.any(|k, c, d| matches!(c, Concept::Either(..)) && !self.holds(k, d))),
            ("all fails, its argument holds", self.any(|k, c, d| matches!(c, Concept::All(_, l) if fails(k, d, l)))),
            ("some fails, its argument holds", self.any(|k, c, d| matches!(c, Concept::Some(_, l) if fails(k, d, l)))),
        ]
    }

    /// "All" and "some" by where the role leads, and from which end that is told.
    fn cases_of_roles(&self) -> Vec<(&'static str, bool)> {
        let (nowhere, somewhere) = (|r, d| self.leads_nowhere(r, d), |r, d| !self.leads_nowhere(r, d));
        let none_here = |r, l, d| self.told_here(r, d).all(|e| !self.holds(l, e));
        let all_here = |r, l, d| self.told_here(r, d).all(|e| self.holds(l, e));
        vec![
            ("all holds, its role leads nowhere", self.any_all(|k, r, _, d| nowhere(r, d) && self.holds(k, d))),
            ("all was added, its role leads nowhere", self.any_all(|k, r, _, d| nowhere(r, d) && self.added(k, d))),
            ("all holds, its role leads somewhere", self.any_all(|k, r, _, d| somewhere(r, d) && self.holds(k, d))),
            ("all was added, its role leads somewhere", self.any_all(|k, r, _, d| somewhere(r, d) && self.added(k, d))),
            ("all fails", self.any_all(|k, _, _, d| !self.holds(k, d))),
            ("all fails by the other end only", self.any_all(|k, r, l, d| !self.holds(k, d) && all_here(r, l, d))),
            ("some holds", self.any_some(|k, _, _, d| self.holds(k, d))),
            ("some holds by the other end only", self.any_some(|k, r, l, d| self.holds(k, d) && none_here(r, l, d))),
            ("some fails, its role leads nowhere", self.any_some(|_, r, _, d| nowhere(r, d))),
            ("some fails, its role leads somewhere", self.any_some(|k, r, _, d| somewhere(r, d) && !self.holds(k, d))),
        ]
    }

    /// What the links are like.
    fn cases_of_links(&self) -> Vec<(&'static str, bool)> {
        let links: HashSet<[usize; 3]> = self.links.iter().copied().collect();
        let turned = |&[from, code, to]: &[usize; 3]| [to, code ^ 1, from];
        vec![
            ("a link leads to itself", links.iter().any(|[from, _, to]| from == to)),
            ("a pair is told from both ends", links.iter().any(|link| links.contains(&turned(link)))),
            ("a link is told twice", links.len() < self.links.len()),
            ("a link has an odd code", links.iter().any(|[_, code, _]| code % 2 == 1)),
        ]
    }
}
