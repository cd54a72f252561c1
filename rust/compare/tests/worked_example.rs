//! The worked example of source document 001, section 4, against its narrative. The paper counts nodes from 1, document 01
//! from 0.

use compare::cases;
use compare::files::{file_of, Table};
use plain::graph::{Alternative, Graph, Link};
use plain::row_set::RowSet;
use plain::status::Status;
use plain::{tableau, Lent, RuleFile};

/// TBox {not A}, concept: not A and some r some r all r- all r- (A or B).
fn file() -> Vec<u8> {
    let (forward, inverse) = (0, 1);
    let mut table = Table::default();
    let (a, not_a, b) = (table.name(0), table.not_name(0), table.name(1));
    let either = table.either(a, b);
    let once = table.all(inverse, either);
    let twice = table.all(inverse, once);
    let some = table.some(forward, twice);
    let some_some = table.some(forward, some);
    let wanted = table.both(not_a, some_some);
    file_of(&table, &[not_a], wanted)
}

fn graph() -> Graph {
    let file = file();
    let file = RuleFile::read(&file).expect("the file is accepted");
    tableau::run(&file, Lent::by_program().capacity()).expect("the areas suffice")
}

/// The paper's numbers of the nodes that pass.
fn numbers(graph: &Graph, passes: impl Fn(usize) -> bool) -> Vec<usize> {
    (0..graph.nodes.len()).filter(|&n| passes(n)).map(|n| n + 1).collect()
}

#[test]
fn nodes_are_those_of_the_paper() {
    let graph = graph();
    assert_eq!(graph.nodes.len(), 17);
    assert_eq!(numbers(&graph, |n| graph.nodes[n].is_state()), [1, 4, 6, 12, 15, 17]);
    assert_eq!(numbers(&graph, |n| graph.nodes[n].link == Link::Lapsed), [3, 5, 7, 8, 13]);
    assert_eq!(numbers(&graph, |n| graph.nodes[n].status == Status::Unsat), [10]);
    assert_eq!(numbers(&graph, |n| graph.nodes[n].status == Status::TooSmall), [4, 5, 6, 7, 8]);
    assert_eq!(numbers(&graph, |n| graph.nodes[n].status.is_live()), []);
}

#[test]
fn alternatives_are_those_of_the_paper() {
    let (either, once) = (RowSet::EMPTY.with(3), RowSet::EMPTY.with(4));
    let expected = [Alternative { state: 6 - 1, rows: once }, Alternative { state: 4 - 1, rows: either }];
    assert_eq!(graph().alternatives, expected);
}

#[test]
fn the_file_is_one_of_the_vectors() {
    assert!(cases().iter().any(|case| case.file == file()));
}
