//! Worlds in which only some names and pairs are settled, with bounds on where each row holds.
//!
//! Sets of elements are the bits of a byte: these worlds have at most eight elements. What kind 7 rows say of a pair that is settled is
//! settled with it, so every completion in which open pairs belong to no role obeys these rows.

use crate::ontology::{Concept, Ontology, RoleUse};
use crate::sizes::{NAMES, ROLES};
use crate::world::World;

/// A set of elements.
type Elements = u8;

/// The most elements of a partial world.
pub const MOST_ELEMENTS: usize = 8;

/// One thing to settle: does the name hold there, does the pair belong to the role?
#[derive(Clone, Copy, Debug, PartialEq, Eq)]
pub enum Question {
    Name(usize, usize),
    Pair(usize, usize, usize),
}

/// Elements that are settled to be in a set, and elements that can still be in it.
#[derive(Clone, Copy)]
pub struct Bounds {
    pub must: Elements,
    pub may: Elements,
}

impl Bounds {
    pub fn must_at(self, d: usize) -> bool {
        self.must >> d & 1 == 1
    }

    pub fn may_at(self, d: usize) -> bool {
        self.may >> d & 1 == 1
    }

    /// The elements of either set.
    fn or(self, other: Bounds) -> Bounds {
        Bounds { must: self.must | other.must, may: self.may | other.may }
    }
}

/// A world with open questions.
#[derive(Clone)]
pub struct PartialWorld {
    size: usize,
    names: [Bounds; NAMES],
    /// For each role and element the elements of its pairs, forwards and backwards.
    forward: [[Bounds; MOST_ELEMENTS]; ROLES],
    backward: [[Bounds; MOST_ELEMENTS]; ROLES],
}

impl PartialWorld {
    /// Nothing is settled.
    pub fn new(size: usize) -> PartialWorld {
        assert!((1..=MOST_ELEMENTS).contains(&size), "1 to 8 elements");
        let open = Bounds { must: 0, may: Elements::MAX >> (MOST_ELEMENTS - size) };
        let role = [open; MOST_ELEMENTS];
        PartialWorld { size, names: [open; NAMES], forward: [role; ROLES], backward: [role; ROLES] }
    }

    /// The same with one question settled, and all that follows by the kind 7 rows: a pair of the narrower role is one of the wider,
    /// and what is no pair of the wider is none of the narrower. A question that is open can be settled either way.
    pub fn settled(&self, ontology: &Ontology, question: Question, answer: bool) -> PartialWorld {
        let mut world = self.clone();
        match question {
            Question::Name(name, d) => settle(&mut world.names[name], d, answer),
            Question::Pair(role, d, e) => world.settle_pair(ontology, RoleUse { role, inverse: false }, d, e, answer),
        }
        world
    }

    /// Settles whether the role leads from `d` to `e`, and then the same of every role of which a kind 7 row says so. The way back is
    /// the same pair of the role, so rows turned round need no look of their own.
    fn settle_pair(&mut self, ontology: &Ontology, along: RoleUse, d: usize, e: usize, answer: bool) {
        let (from, to) = along.pair(d, e);
        let bounds = &mut self.forward[along.role][from];
        if bounds.must_at(to) || !bounds.may_at(to) {
            return;
        }
        settle(bounds, to, answer);
        settle(&mut self.backward[along.role][to], from, answer);
        for (narrow, wide) in ontology.inclusions() {
            let (given, follows) = if answer { (narrow, wide) } else { (wide, narrow) };
            if given.role == along.role {
                let (d, e) = given.pair(from, to);
                self.settle_pair(ontology, follows, d, e, answer);
            }
        }
    }

    /// The world in which open questions are answered no.
    pub fn completed(&self) -> World {
        let mut world = World::new(self.size);
        for d in 0..self.size {
            (0..NAMES).filter(|&name| self.names[name].must_at(d)).for_each(|name| world.set_name(name, d));
            for role in 0..ROLES {
                for e in (0..self.size).filter(|&e| self.forward[role][d].must_at(e)) {
                    world.set_pair(role, d, e);
                }
            }
        }
        world
    }

    fn led_to(&self, along: RoleUse, d: usize) -> Bounds {
        if along.inverse {
            self.backward[along.role][d]
        } else {
            self.forward[along.role][d]
        }
    }

    /// Where each row holds in every completion (`must`) and can hold in one (`may`, an upper bound).
    pub fn bounds(&self, ontology: &Ontology) -> Vec<Bounds> {
        let mut rows: Vec<Bounds> = Vec::with_capacity(ontology.rows.len());
        for &concept in &ontology.rows {
            rows.push(self.concept_bounds(concept, &rows));
        }
        rows
    }

    fn concept_bounds(&self, concept: Concept, rows: &[Bounds]) -> Bounds {
        match concept {
            Concept::Name(name) => self.names[name],
            Concept::NotName(name) => self.outside(self.names[name]),
            Concept::Both(l, r) => Bounds { must: rows[l].must & rows[r].must, may: rows[l].may & rows[r].may },
            Concept::Either(l, r) => rows[l].or(rows[r]),
            Concept::All(along, l) => self.gather(|d| {
                let ends = self.led_to(along, d);
                (ends.may & !rows[l].must == 0, ends.must & !rows[l].may == 0)
            }),
            Concept::Some(along, l) => self.gather(|d| {
                let ends = self.led_to(along, d);
                (ends.must & rows[l].must != 0, ends.may & rows[l].may != 0)
            }),
            Concept::Narrower(..) => Bounds { must: 0, may: 0 },
            Concept::Not(l) => self.outside(rows[l]),
            Concept::IfThen(l, r) => self.outside(rows[l]).or(rows[r]),
        }
    }

    /// The elements that are not in a set.
    fn outside(&self, Bounds { must, may }: Bounds) -> Bounds {
        let everywhere = Elements::MAX >> (MOST_ELEMENTS - self.size);
        Bounds { must: everywhere & !may, may: everywhere & !must }
    }

    /// Bounds from the pair (must, may) of each element.
    fn gather(&self, at: impl Fn(usize) -> (bool, bool)) -> Bounds {
        (0..self.size).fold(Bounds { must: 0, may: 0 }, |bounds, d| {
            let (must, may) = at(d);
            Bounds { must: bounds.must | Elements::from(must) << d, may: bounds.may | Elements::from(may) << d }
        })
    }

    /// An open question below a row that may hold at `d` but need not: the search goes on with it.
    pub fn open_question(&self, ontology: &Ontology, bounds: &[Bounds], row: usize, d: usize) -> Question {
        let is_open = |l: &usize| bounds[*l].may_at(d) && !bounds[*l].must_at(d);
        match ontology.rows[row] {
            Concept::Name(name) | Concept::NotName(name) => Question::Name(name, d),
            Concept::Narrower(..) => unreachable!("a kind 7 row is no goal and no argument"),
            Concept::Not(l) => self.open_question(ontology, bounds, l, d),
            Concept::Both(l, r) | Concept::Either(l, r) | Concept::IfThen(l, r) => {
                let argument = [l, r].into_iter().find(is_open).expect("an open row has an open argument");
                self.open_question(ontology, bounds, argument, d)
            }
            Concept::All(along, l) => {
                let matters = |e: usize| !bounds[l].must_at(e);
                self.open_along(ontology, bounds, along, l, d, matters)
            }
            Concept::Some(along, l) => {
                let matters = |e: usize| bounds[l].may_at(e);
                self.open_along(ontology, bounds, along, l, d, matters)
            }
        }
    }

    /// An open question at an end that the role may lead to and that matters: the pair, or the argument there.
    fn open_along(
        &self,
        ontology: &Ontology,
        bounds: &[Bounds],
        along: RoleUse,
        argument: usize,
        d: usize,
        matters: impl Fn(usize) -> bool,
    ) -> Question {
        let ends = self.led_to(along, d);
        let e = (0..self.size).find(|&e| ends.may_at(e) && matters(e)).expect("an open row has an end that matters");
        if ends.must_at(e) {
            self.open_question(ontology, bounds, argument, e)
        } else {
            let (from, to) = along.pair(d, e);
            Question::Pair(along.role, from, to)
        }
    }
}

fn settle(bounds: &mut Bounds, d: usize, answer: bool) {
    if answer {
        bounds.must |= 1 << d;
    } else {
        bounds.may &= !(1 << d);
    }
}
