//! The whole run: from the bytes of a file and the lengths of the areas to the answer, and its printing.

use crate::concept::Concept;
use crate::evaluate::RoleLink;
use crate::example::{example, Example};
use crate::graph::{Area, Capacity, Graph};
use crate::row_set::RowSet;
use crate::rulefile::RuleFile;
use crate::sizes::{ALTERNATIVE, EDGE, ELEMENT, LINK, MOST_RECORDS, NODE};
use crate::status::Status;
use crate::tableau::{run, ROOT};
use std::fmt::Write;

/// The lengths of the five lent areas, in bytes. What the areas hold has no say in the answer.
#[derive(Clone, Copy, Debug, PartialEq, Eq)]
pub struct Lent {
    pub nodes: usize,
    pub edges: usize,
    pub alternatives: usize,
    pub elements: usize,
    pub links: usize,
}

impl Lent {
    /// Work areas for so many records, example areas of so many bytes.
    pub fn records(nodes: usize, edges: usize, alternatives: usize, elements: usize, links: usize) -> Lent {
        Lent { nodes: nodes * NODE, edges: edges * EDGE, alternatives: alternatives * ALTERNATIVE, elements, links }
    }

    /// Just the records that a run used and just the records of its example.
    pub fn just(used: Used, elements: usize, links: usize) -> Lent {
        let Used { nodes, edges, alternatives } = used;
        Lent::records(nodes, edges, alternatives, 0, 0).with_example(elements, links)
    }

    /// The most records that count, and room for every example that a run in them can give.
    pub fn most() -> Lent {
        let used = Used { nodes: MOST_RECORDS, edges: MOST_RECORDS, alternatives: MOST_RECORDS };
        Lent::just(used, MOST_RECORDS, MOST_RECORDS)
    }

    /// The same work areas, and example areas for so many elements and links.
    pub fn with_example(self, elements: usize, links: usize) -> Lent {
        Lent { elements: elements * ELEMENT, links: links * LINK, ..self }
    }

    /// What the printing program lends.
    pub fn by_program() -> Lent {
        Lent::records(1024, 4096, 4096, 8192, 49152)
    }

    /// Whole records count, and at most 4,096 of each.
    pub fn capacity(&self) -> Capacity {
        Capacity {
            nodes: MOST_RECORDS.min(self.nodes / NODE),
            edges: MOST_RECORDS.min(self.edges / EDGE),
            alternatives: MOST_RECORDS.min(self.alternatives / ALTERNATIVE),
        }
    }

    /// Do the example areas hold so many elements and links?
    pub fn holds(&self, elements: usize, links: usize) -> bool {
        elements * ELEMENT <= self.elements && links * LINK <= self.links
    }
}

/// How many records a run used.
#[derive(Clone, Copy, Debug, PartialEq, Eq)]
pub struct Used {
    pub nodes: usize,
    pub edges: usize,
    pub alternatives: usize,
}

/// What a run answers.
#[derive(Clone, Debug, PartialEq, Eq)]
pub enum Answer {
    /// A file check refuses the file: 1 to 8 or 16.
    Refused(u8),
    /// Refusal 13, 14 or 15: the procedure's next record has no place in this area, of which so many records count as lent.
    Short { area: Area, lent: usize },
    /// Refusal 11: the verdict is "can" and an example area is too short for so many.
    TooLong { elements: usize, links: usize },
    /// The wanted rows cannot hold together anywhere.
    Cannot { used: Used },
    /// It can, and this is an example; an element lists every row that holds there.
    Can { used: Used, elements: Vec<RowSet>, links: Vec<RoleLink> },
}

/// The answer to a file, given the lengths of the areas.
pub fn answer(file: &[u8], lent: &Lent) -> Answer {
    answer_listing(RuleFile::read(file), lent, Example::evaluated)
}

/// The answer to a file with these wanted rows in place of its own: can there be a member of all of them? (Document 02, \[7\].)
pub fn answer_wanting(file: &[u8], wanted: &[u8], lent: &Lent) -> Answer {
    answer_listing(RuleFile::read_wanting(file, wanted), lent, Example::evaluated)
}

/// The same, but an element of the example lists the rows that the procedure placed there and no other, as before request 2 of
/// document 02. The tests compare the two examples.
pub fn answer_as_placed(file: &[u8], lent: &Lent) -> Answer {
    answer_listing(RuleFile::read(file), lent, |example, _| example)
}

/// The answer to a file that was read, with the rows of an example listed in one way or the other.
fn answer_listing(
    read: Result<RuleFile, u8>,
    lent: &Lent,
    list: impl FnOnce(Example, &[Concept]) -> Example,
) -> Answer {
    let file = match read {
        Ok(file) => file,
        Err(number) => return Answer::Refused(number),
    };
    match run(&file, lent.capacity()) {
        Ok(graph) => verdict(&file.concepts, &graph, lent, list),
        Err(area) => Answer::Short { area, lent: lent.capacity().of(area) },
    }
}

/// Root yes or open means "can"; never or small means "cannot".
pub(crate) fn is_can(graph: &Graph) -> bool {
    !matches!(graph.nodes[ROOT].status, Status::Unsat | Status::TooSmall)
}

/// The answer that a run's graph gives.
fn verdict(
    concepts: &[Concept],
    graph: &Graph,
    lent: &Lent,
    list: impl FnOnce(Example, &[Concept]) -> Example,
) -> Answer {
    let used = Used { nodes: graph.nodes.len(), edges: graph.edges.len(), alternatives: graph.alternatives.len() };
    if !is_can(graph) {
        return Answer::Cannot { used };
    }
    let placed = example(concepts, graph);
    let (elements, links) = (placed.elements.len(), placed.links.len());
    if !lent.holds(elements, links) {
        return Answer::TooLong { elements, links };
    }
    let Example { elements, links } = list(placed, concepts);
    Answer::Can { used, elements, links }
}

/// The bytes that an example fills in its two areas: the elements' records, then the links'.
pub fn records(elements: &[RowSet], links: &[RoleLink]) -> [Vec<u8>; 2] {
    let numbers = links.iter().flat_map(|&(from, role, to)| [from, role, to]);
    [elements.iter().flat_map(|rows| rows.record()).collect(), numbers.flat_map(u16::to_le_bytes).collect()]
}

/// The lines that the printing program prints.
pub fn print(answer: &Answer) -> String {
    match answer {
        Answer::Refused(number) => format!("REFUSED {number}\n"),
        Answer::Short { area, lent } => format!("REFUSED {} {lent}\n", area.refusal()),
        Answer::TooLong { elements, links } => format!("REFUSED 11 {elements} {links}\n"),
        Answer::Cannot { used } => format!("CANNOT\n{}", print_used(used)),
        Answer::Can { used, elements, links } => print_can(used, elements, links),
    }
}

fn print_can(used: &Used, elements: &[RowSet], links: &[RoleLink]) -> String {
    let mut text = format!("CAN {} {}\n{}", elements.len(), links.len(), print_used(used));
    for (number, rows) in elements.iter().enumerate() {
        writeln!(text, "E {number} {rows}").expect("writing to a string does not fail");
    }
    for (from, role, to) in links {
        writeln!(text, "L {from} {role} {to}").expect("writing to a string does not fail");
    }
    text
}

fn print_used(used: &Used) -> String {
    format!("USED {} {} {}\n", used.nodes, used.edges, used.alternatives)
}

#[cfg(test)]
mod tests {
    use super::*;

    #[test]
    fn whole_records_count_and_at_most_4096() {
        let lent = Lent { nodes: 64 * 9 + 63, edges: 16 * 5000, alternatives: 15, elements: 0, links: 0 };
        assert_eq!(lent.capacity(), Capacity { nodes: 9, edges: 4096, alternatives: 0 });
    }
}
