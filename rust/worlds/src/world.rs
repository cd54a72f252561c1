//! Finite worlds (interpretations), when a row holds at an element, and when a world obeys rules and kind 7 rows.

use crate::ontology::{Concept, Ontology, RoleUse};
use crate::sizes::ROLES;

/// Elements 0 to n - 1; where each name holds, and which pairs belong to each role.
#[derive(Clone, Debug, PartialEq, Eq)]
pub struct World {
    /// For each element the names that hold there, name k as bit k.
    names: Vec<u64>,
    /// For each role its pairs.
    pairs: Vec<Vec<(usize, usize)>>,
}

/// For each row and each element: does it hold there?
pub type Truth = Vec<Vec<bool>>;

impl World {
    /// A world in which no name holds and no role has a pair.
    pub fn new(size: usize) -> World {
        World { names: vec![0; size], pairs: vec![Vec::new(); ROLES] }
    }

    pub fn size(&self) -> usize {
        self.names.len()
    }

    /// Lets a name hold at an element.
    pub fn set_name(&mut self, name: usize, element: usize) {
        self.names[element] |= 1 << name;
    }

    /// Adds the pair (from, to) to a role. Gives whether it is new there.
    pub fn set_pair(&mut self, role: usize, from: usize, to: usize) -> bool {
        let is_new = !self.pairs[role].contains(&(from, to));
        if is_new {
            self.pairs[role].push((from, to));
        }
        is_new
    }

    /// Adds each pair of a narrower role to the wider one, again and again until that adds nothing.
    pub fn widen(&mut self, ontology: &Ontology) {
        while ontology.inclusions().any(|(narrow, wide)| self.widen_one(narrow, wide)) {}
    }

    /// Adds the pairs of one role to another. Gives whether one of them is new there.
    fn widen_one(&mut self, narrow: RoleUse, wide: RoleUse) -> bool {
        let mut grew = false;
        for (x, y) in self.pairs[narrow.role].clone() {
            let (d, e) = narrow.pair(x, y);
            let (from, to) = wide.pair(d, e);
            grew |= self.set_pair(wide.role, from, to);
        }
        grew
    }

    /// The elements that the role leads to from `d`.
    pub fn led_to(&self, along: RoleUse, d: usize) -> impl Iterator<Item = usize> + '_ {
        self.pairs[along.role].iter().filter_map(move |&(x, y)| {
            let (from, to) = along.pair(x, y);
            (from == d).then_some(to)
        })
    }

    /// Does the world obey every kind 7 row? Wherever the first role leads from an element, the second must lead.
    pub fn obeys_inclusions(&self, ontology: &Ontology) -> bool {
        let leads = |along: RoleUse, d: usize, e: usize| self.led_to(along, d).any(|to| to == e);
        let within = |(narrow, wide)| (0..self.size()).all(|d| self.led_to(narrow, d).all(|e| leads(wide, d, e)));
        ontology.inclusions().all(within)
    }

    /// Does the concept hold at `d`, given the truth of the lower rows?
    fn holds(&self, concept: Concept, truth: &Truth, d: usize) -> bool {
        match concept {
            Concept::Name(name) => self.names[d] >> name & 1 == 1,
            Concept::NotName(name) => self.names[d] >> name & 1 == 0,
            Concept::Both(l, r) => truth[l][d] && truth[r][d],
            Concept::Either(l, r) => truth[l][d] || truth[r][d],
            Concept::All(along, l) => self.led_to(along, d).all(|e| truth[l][e]),
            Concept::Some(along, l) => self.led_to(along, d).any(|e| truth[l][e]),
            // It is never listed, whether the world obeys it or not.
            Concept::Narrower(..) => false,
            Concept::Not(l) => !truth[l][d],
            Concept::IfThen(l, r) => !truth[l][d] || truth[r][d],
        }
    }

    /// Every row at every element. Arguments are lower rows, so one pass settles all.
    pub fn truth(&self, ontology: &Ontology) -> Truth {
        let mut truth = Truth::new();
        for &concept in &ontology.rows {
            let row = (0..self.size()).map(|d| self.holds(concept, &truth, d)).collect();
            truth.push(row);
        }
        truth
    }

    /// Does the world obey every rule and every kind 7 row, and is the element a member of the kit, every wanted row holding there?
    pub fn is_model(&self, ontology: &Ontology, element: usize) -> bool {
        let truth = self.truth(ontology);
        let obeys = ontology.tbox.iter().all(|&rule| truth[rule].iter().all(|&holds| holds));
        let is_member = element < self.size() && ontology.wanted.iter().all(|&row| truth[row][element]);
        obeys && self.obeys_inclusions(ontology) && is_member
    }
}
