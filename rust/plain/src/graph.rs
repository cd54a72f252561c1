//! The graph of the procedure: nodes, edges and alternatives, each record in an area that holds so many.

use crate::concept::Role;
use crate::row_set::RowSet;
use crate::status::Status;

/// A special node's link.
#[derive(Clone, Copy, Debug, PartialEq, Eq)]
pub enum Link {
    None,
    State(usize),
    Lapsed,
}

/// The state above a node and the role taken from there.
#[derive(Clone, Copy, Debug, PartialEq, Eq)]
pub struct Above {
    pub state: usize,
    pub role: Role,
}

/// A node of the graph.
#[derive(Clone, Copy, Debug, PartialEq, Eq)]
pub struct Node {
    pub rows: RowSet,
    pub status: Status,
    /// `None` if the node is a state.
    pub above: Option<Above>,
    pub link: Link,
}

impl Node {
    /// A new state.
    pub fn state(rows: RowSet) -> Node {
        Node { rows, status: Status::Unset, above: None, link: Link::None }
    }

    /// A new node that is no state.
    pub fn below(above: Above, rows: RowSet, status: Status, link: Link) -> Node {
        Node { rows, status, above: Some(above), link }
    }

    pub fn is_state(&self) -> bool {
        self.above.is_none()
    }
}

/// An edge between two nodes.
#[derive(Clone, Copy, Debug, PartialEq, Eq)]
pub struct Edge {
    pub from: usize,
    pub to: usize,
}

/// A set that a state could be enlarged by.
#[derive(Clone, Copy, Debug, PartialEq, Eq)]
pub struct Alternative {
    pub state: usize,
    pub rows: RowSet,
}

/// The three work areas.
#[derive(Clone, Copy, Debug, PartialEq, Eq)]
pub enum Area {
    Nodes,
    Edges,
    Alternatives,
}

impl Area {
    /// The refusal of a run whose next record has no place in this area (document 02, \[4\]).
    pub fn refusal(self) -> u8 {
        match self {
            Area::Nodes => 13,
            Area::Edges => 14,
            Area::Alternatives => 15,
        }
    }
}

/// How many records each work area holds.
#[derive(Clone, Copy, Debug, PartialEq, Eq)]
pub struct Capacity {
    pub nodes: usize,
    pub edges: usize,
    pub alternatives: usize,
}

impl Capacity {
    /// How many records this area holds.
    pub fn of(&self, area: Area) -> usize {
        match area {
            Area::Nodes => self.nodes,
            Area::Edges => self.edges,
            Area::Alternatives => self.alternatives,
        }
    }
}

/// The records in order of arrival.
#[derive(Clone, Debug)]
pub struct Graph {
    capacity: Capacity,
    pub nodes: Vec<Node>,
    pub edges: Vec<Edge>,
    pub alternatives: Vec<Alternative>,
}

impl Graph {
    /// A graph without records.
    pub fn new(capacity: Capacity) -> Graph {
        Graph { capacity, nodes: Vec::new(), edges: Vec::new(), alternatives: Vec::new() }
    }

    /// Adds a node and gives its number.
    pub fn add_node(&mut self, node: Node) -> Result<usize, Area> {
        let number = self.nodes.len();
        append(&mut self.nodes, node, self.capacity.nodes, Area::Nodes)?;
        Ok(number)
    }

    /// Adds an edge.
    pub fn add_edge(&mut self, from: usize, to: usize) -> Result<(), Area> {
        append(&mut self.edges, Edge { from, to }, self.capacity.edges, Area::Edges)
    }

    /// Adds an alternative, unless the state has it already: a repeat needs no place.
    pub fn add_alternative(&mut self, state: usize, rows: RowSet) -> Result<(), Area> {
        let alternative = Alternative { state, rows };
        if self.alternatives.contains(&alternative) {
            return Ok(());
        }
        append(&mut self.alternatives, alternative, self.capacity.alternatives, Area::Alternatives)
    }

    /// The ends of the edges from a node, in order of edges.
    pub fn children(&self, node: usize) -> impl Iterator<Item = usize> + '_ {
        self.edges.iter().filter(move |edge| edge.from == node).map(|edge| edge.to)
    }

    /// The starts of the edges to a node as they are now, in order of edges.
    pub fn parents(&self, node: usize) -> Vec<usize> {
        self.edges.iter().filter(|edge| edge.to == node).map(|edge| edge.from).collect()
    }

    /// The alternatives of a state, in order of arrival.
    pub fn alternatives_of(&self, state: usize) -> Vec<RowSet> {
        self.alternatives.iter().filter(|a| a.state == state).map(|a| a.rows).collect()
    }

    /// The state with this set. The root, node 0, is never looked up.
    pub fn find_state(&self, rows: RowSet) -> Option<usize> {
        (1..self.nodes.len()).find(|&n| self.nodes[n].is_state() && self.nodes[n].rows == rows)
    }

    /// The lowest node without status.
    pub fn lowest_unset(&self) -> Option<usize> {
        self.nodes.iter().position(|node| node.status == Status::Unset)
    }
}

/// Appends a record if its area has a place for it.
fn append<T>(records: &mut Vec<T>, record: T, room: usize, area: Area) -> Result<(), Area> {
    if records.len() >= room {
        return Err(area);
    }
    records.push(record);
    Ok(())
}
