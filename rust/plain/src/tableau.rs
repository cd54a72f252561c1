//! The procedure, record for record in document 01's order ("The procedure").
//!
//! In order: the run; expansion; putting a set; judging a node; updates.

use crate::concept::{inverse, Concept, NO_ROLE};
use crate::graph::{Above, Area, Capacity, Graph, Link, Node};
use crate::hierarchy::RoleHierarchy;
use crate::row_set::RowSet;
use crate::rulefile::RuleFile;
use crate::set_tests;
use crate::status::{fold, Status, StatusTable, BRANCH, STATE};

/// A step ends early if its next record has no place in an area.
type Step = Result<(), Area>;

/// Node 0, a state with the empty set.
pub const ROOT: usize = 0;

/// Runs the procedure and gives the graph it ends with, or the area in which the next record has no place.
pub fn run(file: &RuleFile, capacity: Capacity) -> Result<Graph, Area> {
    let mut tableau = Tableau {
        concepts: &file.concepts,
        hierarchy: RoleHierarchy::of(&file.concepts),
        tbox: file.tbox.iter().copied().collect(),
        wanted: file.wanted.iter().copied().collect(),
        graph: Graph::new(capacity),
    };
    tableau.graph.add_node(Node::state(RowSet::EMPTY))?;
    tableau.expand_all()?;
    Ok(tableau.graph)
}

struct Tableau<'a> {
    concepts: &'a [Concept],
    hierarchy: RoleHierarchy,
    tbox: RowSet,
    wanted: RowSet,
    graph: Graph,
}

impl Tableau<'_> {
    /// Until the root is yes, never or small or no node lacks a status, the lowest node without status is expanded.
    fn expand_all(&mut self) -> Step {
        while self.graph.nodes[ROOT].status.is_live() {
            match self.graph.lowest_unset() {
                Some(node) => self.expand(node)?,
                None => break,
            }
        }
        Ok(())
    }

    // ---- expansion

    fn expand(&mut self, n: usize) -> Step {
        let Node { rows, above, .. } = self.graph.nodes[n];
        // A state has nothing unfinished, and any other node without status has: a put made sure of both.
        match above {
            Some(above) => self.expand_branch(n, above, rows)?,
            None if n == ROOT => self.put_wanted()?,
            None => self.put_successors(n, rows)?,
        }
        self.judge(n)?;
        self.update_parents(n)
    }

    /// The lowest unfinished kind 3 row, otherwise the lowest unfinished kind 4 row: left, then right.
    fn expand_branch(&mut self, n: usize, above: Above, rows: RowSet) -> Step {
        if let Some((l, r)) = set_tests::lowest_conj(self.concepts, rows) {
            self.put(n, above, rows.with(l).with(r))?;
        } else if let Some((l, r)) = set_tests::lowest_disj(self.concepts, rows) {
            self.put(n, above, rows.with(l))?;
            self.put(n, above, rows.with(r))?;
        }
        Ok(())
    }

    /// The root puts the wanted rows and all rules.
    fn put_wanted(&mut self) -> Step {
        self.put(ROOT, Above { state: ROOT, role: NO_ROLE }, self.tbox.union(self.wanted))
    }

    /// For each kind 6 row, rising: its argument, the arguments of kind 5 rows with the same role or a wider one, and all rules.
    fn put_successors(&mut self, state: usize, rows: RowSet) -> Step {
        for (role, argument) in set_tests::existentials(self.concepts, rows) {
            let reached = set_tests::universal_arguments(self.concepts, &self.hierarchy, rows, role);
            self.put(state, Above { state, role }, reached.with(argument).union(self.tbox))?;
        }
        Ok(())
    }

    // ---- putting a set: putting and judging call each other. An alternative adds a row to the set, so the depth is at
    // most the number of rows and the calls may nest on the stack.

    /// Puts a set under a node. The edge comes last.
    fn put(&mut self, parent: usize, above: Above, rows: RowSet) -> Step {
        let node = self.put_node(above, rows)?;
        self.graph.add_edge(parent, node)
    }

    fn put_node(&mut self, above: Above, rows: RowSet) -> Result<usize, Area> {
        if set_tests::clash(self.concepts, rows) {
            self.graph.add_node(Node::below(above, rows, Status::Unsat, Link::None))
        } else if set_tests::unfinished(self.concepts, rows) {
            self.graph.add_node(Node::below(above, rows, Status::Unset, Link::None))
        } else {
            self.put_special(above, rows)
        }
    }

    /// A special node: what its kind 5 rows say of the state above must be there already.
    fn put_special(&mut self, above: Above, rows: RowSet) -> Result<usize, Area> {
        let asked = set_tests::universal_arguments(self.concepts, &self.hierarchy, rows, inverse(above.role));
        let lacking = asked.difference(self.graph.nodes[above.state].rows);
        if lacking == RowSet::EMPTY {
            self.put_linked(above, rows)
        } else {
            self.put_lapsed(above, rows, lacking)
        }
    }

    /// Links a special node to the state with its set, made if new, and sets its status.
    fn put_linked(&mut self, above: Above, rows: RowSet) -> Result<usize, Area> {
        let special = self.graph.add_node(Node::below(above, rows, Status::Unset, Link::None))?;
        let state = match self.graph.find_state(rows) {
            Some(state) => state,
            None => self.graph.add_node(Node::state(rows))?,
        };
        self.graph.nodes[special].link = Link::State(state);
        self.graph.add_edge(special, state)?;
        self.judge(special)?;
        Ok(special)
    }

    /// A special node that asks for more than the state above has; that state gets an alternative while it is live.
    fn put_lapsed(&mut self, above: Above, rows: RowSet, lacking: RowSet) -> Result<usize, Area> {
        let special = self.graph.add_node(Node::below(above, rows, Status::TooSmall, Link::Lapsed))?;
        if self.graph.nodes[above.state].status.is_live() {
            self.graph.add_alternative(above.state, lacking)?;
        }
        Ok(special)
    }

    // ---- judging: the status of a node from its children or its state

    fn judge(&mut self, n: usize) -> Step {
        match self.graph.nodes[n].link {
            Link::State(state) => return self.judge_linked(n, state),
            Link::None if self.graph.nodes[n].is_state() => self.fold_children(n, &STATE, Status::Sat),
            Link::None | Link::Lapsed => self.fold_children(n, &BRANCH, Status::Unsat),
        }
        Ok(())
    }

    fn fold_children(&mut self, n: usize, table: &StatusTable, from: Status) {
        let statuses = self.graph.children(n).map(|child| self.graph.nodes[child].status);
        self.graph.nodes[n].status = fold(table, from, statuses);
    }

    fn judge_linked(&mut self, special: usize, state: usize) -> Step {
        self.graph.nodes[special].status = match self.graph.nodes[state].status {
            Status::TooSmall => return self.put_alternatives(special, state),
            Status::Unset | Status::Open => Status::Open,
            settled => settled,
        };
        Ok(())
    }

    /// A special node whose state is small puts state set and alternative joined, for each alternative, and lapses.
    fn put_alternatives(&mut self, special: usize, state: usize) -> Step {
        let rows = self.graph.nodes[state].rows;
        let above = self.graph.nodes[special].above.expect("a special node is no state");
        for alternative in self.graph.alternatives_of(state) {
            self.put(special, above, rows.union(alternative))?;
        }
        self.graph.nodes[special].link = Link::Lapsed;
        self.judge(special)
    }

    // ---- updates

    /// Updates the parents of a node, in order of edges. An update acts on an open node only; if its status changes, its
    /// parents at that moment are updated, each fully before the next. The cascade can be as deep as there are nodes, so
    /// the updates to come are kept in a list, the next one last.
    fn update_parents(&mut self, n: usize) -> Step {
        let mut pending = self.graph.parents(n);
        pending.reverse();
        while let Some(node) = pending.pop() {
            if self.graph.nodes[node].status == Status::Open {
                self.judge(node)?;
                if self.graph.nodes[node].status != Status::Open {
                    pending.extend(self.graph.parents(node).into_iter().rev());
                }
            }
        }
        Ok(())
    }
}
