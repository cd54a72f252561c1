//! A cascade of updates through a long chain of states, on a small stack; large examples; and how deep updates and puts nest.

use compare::files::chains::{
    clocked_line, delay_line, ladder, shift_register, with_other_name, CONTENTS, DEEPEST, OTHER_NAME, RUNGS,
    RUNGS_AGAIN, RUNGS_OF_KINDS, THOUSAND_STATES,
};
use compare::files::parts::Parts;
use compare::files::wide::{wide, wide_with_inclusions};
use compare::{check_example, on_stack};
use plain::graph::{Edge, Graph, Link, Node};
use plain::status::Status;
use plain::{answer, tableau, Answer, Area, Lent, RuleFile};
use std::mem;

const SMALL_STACK: usize = 1 << 17;

/// The answer; an example is judged.
fn answer_on_small_stack(file: Vec<u8>) -> Answer {
    let of_run = file.clone();
    let answer = on_stack(SMALL_STACK, move || answer(&of_run, &Lent::most()));
    check_example(&file, &answer);
    answer
}

/// Checks that an example has at least so many elements.
fn check_elements(answer: Answer, least: usize) {
    match answer {
        Answer::Can { elements, .. } => assert!(elements.len() >= least, "{} elements", elements.len()),
        other => panic!("{other:?}"),
    }
}

/// Checks that a "cannot" took at least so many nodes.
fn check_cannot(answer: Answer, least: usize) {
    match answer {
        Answer::Cannot { used } => assert!(used.nodes >= least, "{used:?}"),
        other => panic!("{other:?}"),
    }
}

#[test]
fn a_chain_without_end_is_a_cycle() {
    check_elements(answer_on_small_stack(shift_register(false)), CONTENTS);
}

#[test]
fn a_forbidden_end_settles_the_whole_chain() {
    check_cannot(answer_on_small_stack(shift_register(true)), 20 * CONTENTS);
}

#[test]
fn a_thousand_states() {
    check_elements(answer_on_small_stack(delay_line(THOUSAND_STATES, false)), 1000);
    check_cannot(answer_on_small_stack(delay_line(THOUSAND_STATES, true)), 2000);
}

#[test]
fn a_line_with_a_clock() {
    check_elements(answer_on_small_stack(clocked_line(DEEPEST, false)), 6 * 128);
    check_cannot(answer_on_small_stack(clocked_line(DEEPEST, true)), 2600);
}

/// What the largest examples list is judged; so many elements and links they have.
#[test]
fn large_examples_of_64_rows() {
    let sizes = |files: Vec<Vec<u8>>| -> Vec<(usize, usize)> {
        let size = |file| match answer_on_small_stack(file) {
            Answer::Can { elements, links, .. } => (elements.len(), links.len()),
            other => panic!("{other:?}"),
        };
        files.into_iter().map(size).collect()
    };
    assert_eq!(sizes(wide()), [(1221, 2031), (512, 1536), (256, 1792), (128, 1920), (64, 1984)]);
    assert_eq!(sizes(wide_with_inclusions()), [(256, 1792), (128, 1920)]);
}

#[test]
fn ladders() {
    check_elements(answer_on_small_stack(ladder(RUNGS, false)), 2);
    let short = Answer::Short { area: Area::Edges, lent: 4096 };
    assert_eq!(answer_on_small_stack(ladder(RUNGS_AGAIN, true)), short);
}

fn graph_of(file: &[u8]) -> Graph {
    graph_wanting(file, &[Parts::of(file).wanted])
}

fn graph_wanting(file: &[u8], wanted: &[u8]) -> Graph {
    let file = RuleFile::read_wanting(file, wanted).expect("a file that is accepted");
    tableau::run(&file, Lent::most().capacity()).expect("places for all records")
}

/// The graph behind a catalogue's entry: a 0 that is none of the others.
fn graph_of_entry(file: &[u8]) -> Graph {
    let file = with_other_name(file);
    let place = |row: [u8; 4]| Parts::of(&file).rows.iter().position(|&other| other == row).expect("a row") as u8;
    graph_wanting(&file, &[place([1, 0, 0, 0]), place([2, 0, OTHER_NAME, 0])])
}

/// How deep the updates nest when "never" starts at the one node that clashes, in a graph without branches: there every parent
/// of a node that is never becomes so.
fn nested_updates(graph: &Graph) -> usize {
    let is_clash = |node: &Node| !node.is_state() && node.link == Link::None;
    let clash = graph.nodes.iter().position(is_clash).expect("a node that clashes");
    let mut never = vec![false; graph.nodes.len()];
    never[clash] = true;
    let deepest = nested_calls(graph, clash, &mut never);
    let statuses = graph.nodes.iter().map(|node| node.status == Status::Unsat);
    assert!(never.into_iter().eq(statuses), "the cascade of the run goes the same way");
    deepest
}

/// Updates the parents of a node. Those of its last parent are updated in the loop, those of another by a nested call.
fn nested_calls(graph: &Graph, mut node: usize, never: &mut [bool]) -> usize {
    let mut deepest = 0;
    loop {
        let parents = graph.parents(node);
        let Some((&last, others)) = parents.split_last() else { return deepest };
        for &parent in others {
            if !mem::replace(&mut never[parent], true) {
                deepest = deepest.max(1 + nested_calls(graph, parent, never));
            }
        }
        if mem::replace(&mut never[last], true) {
            return deepest;
        }
        node = last;
    }
}

#[test]
fn updates_nest() {
    assert_eq!(nested_updates(&graph_of(&delay_line(THOUSAND_STATES, true))), 189);
    assert_eq!(nested_updates(&graph_of(&clocked_line(DEEPEST, true))), 706);
    assert_eq!(nested_updates(&graph_of_entry(&clocked_line(DEEPEST, true))), 706);
}

/// How deep the puts nest, in a graph without branches: special nodes of which each is put under the one just made.
fn nested_puts(graph: &Graph) -> usize {
    let is_nested = |n: usize| !graph.nodes[n - 1].is_state() && graph.edges.contains(&Edge { from: n - 1, to: n });
    let is_special = |n: usize| !graph.nodes[n].is_state();
    let mut puts = 0;
    let depths = (1..graph.nodes.len()).filter(|&n| is_special(n)).map(|n| {
        puts = if is_nested(n) { puts + 1 } else { 1 };
        puts
    });
    depths.max().expect("a node that was put")
}

#[test]
fn puts_nest() {
    assert_eq!(nested_puts(&graph_of(&ladder(RUNGS, false))), 32);
    assert_eq!(nested_puts(&graph_of_entry(&ladder(RUNGS_OF_KINDS, false))), 30);
}
