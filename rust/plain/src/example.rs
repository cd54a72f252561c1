//! The example that a run leaves (document 01, "The example"), and the rows that hold in it (document 02, \[2\]).

use crate::concept::Concept;
use crate::evaluate::{evaluate, Names, RoleLink};
use crate::graph::{Graph, Link};
use crate::row_set::RowSet;
use crate::set_tests::existentials;
use crate::status::Status;
use crate::tableau::ROOT;

/// The elements' row sets and the links.
#[derive(Clone, Debug, PartialEq, Eq)]
pub struct Example {
    pub elements: Vec<RowSet>,
    pub links: Vec<RoleLink>,
}

impl Example {
    /// The same elements and links; each element has every row that holds there, and no other.
    pub fn evaluated(self, concepts: &[Concept]) -> Example {
        Example { elements: self.rows_that_hold(concepts), links: self.links }
    }

    /// The rows that hold at each element.
    pub fn rows_that_hold(&self, concepts: &[Concept]) -> Vec<RowSet> {
        let names: Vec<Names> = self.elements.iter().map(|&rows| names(concepts, rows)).collect();
        evaluate(concepts, &names, &self.links)
    }
}

/// A name holds where its kind 1 row is in the set.
fn names(concepts: &[Concept], rows: RowSet) -> Names {
    rows.rows().fold(0, |names, row| match concepts[row] {
        Concept::Atomic(name) => names | 1 << name,
        _ => names,
    })
}

/// The example of a graph whose root is yes or open: each element has the rows that the procedure placed in its state's set.
pub fn example(concepts: &[Concept], graph: &Graph) -> Example {
    // The states met so far; a state's place in the list is its element number.
    let mut states = vec![descend(graph, ROOT)];
    let mut links = Vec::new();
    let mut element = 0;
    while element < states.len() {
        let state = states[element];
        let rows = existentials(concepts, graph.nodes[state].rows);
        // A state has put one child for each of its kind 6 rows, in the same order.
        for ((role, _), child) in rows.into_iter().zip(graph.children(state)) {
            let to = number_of(&mut states, descend(graph, child));
            links.push((short(element), role, short(to)));
        }
        element += 1;
    }
    Example { elements: states.iter().map(|&state| graph.nodes[state].rows).collect(), links }
}

/// Down to a linked special node and its state.
fn descend(graph: &Graph, from: usize) -> usize {
    let mut node = from;
    loop {
        if let Link::State(state) = graph.nodes[node].link {
            return state;
        }
        node = live_child(graph, node);
    }
}

/// The first child that is yes, else the first open.
fn live_child(graph: &Graph, node: usize) -> usize {
    let first = |status| graph.children(node).find(|&child| graph.nodes[child].status == status);
    first(Status::Sat).or_else(|| first(Status::Open)).expect("a yes or open branch has a yes or open child")
}

/// The element number of a state; a state met first gets the next.
fn number_of(states: &mut Vec<usize>, state: usize) -> usize {
    states.iter().position(|&met| met == state).unwrap_or_else(|| {
        states.push(state);
        states.len() - 1
    })
}

/// Element numbers fit two bytes, since there are at most 4,096 nodes.
fn short(element: usize) -> u16 {
    u16::try_from(element).expect("at most 4,096 elements")
}
