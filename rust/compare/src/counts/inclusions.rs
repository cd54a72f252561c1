//! How often things happened in runs of files with kind 7 rows.
//!
//! In order: the counts; where "all" rows reach along narrower roles in the graph of a run, which is the plain program's; pairs of an
//! example that belong to a role only by a narrower one; the cases.

use super::tally::Tally;
use crate::files::inclusions::{Follow, Wider};
use crate::files::parts::{Parts, INCLUSION};
use crate::sizes::CODES;
use plain::concept::{inverse, Concept, Role};
use plain::graph::{Above, Graph, Link};
use plain::set_tests::existentials;
use plain::{records, tableau, Answer, Lent, RowSet, RuleFile};
use worlds::{Example, Ontology};

/// In how many files each case happened.
#[derive(Default)]
pub struct InclusionCounts(Tally);

impl InclusionCounts {
    /// Counts what happened with a file and its answer, which must be right.
    pub fn count(&mut self, bytes: &[u8], answer: &Answer) {
        let file = RuleFile::read(bytes).expect("a rule file");
        let parts = Parts::of(bytes);
        let graph = tableau::run(&file, Lent::by_program().capacity()).ok();
        let reaches = graph.iter().flat_map(|graph| reaches(&file, graph, &parts)).collect();
        let graph_roles = graph.iter().flat_map(roles_taken).collect();
        let seen = Seen { bytes, parts, answer, reaches, graph_roles };
        self.0.add([seen.cases_of_file(), seen.cases_of_reaches(), seen.cases_of_example()].concat());
    }

    /// Prints the counts and fails if a case was rare.
    pub fn assert_often(&self, least: usize) {
        self.0.assert_often("files", least);
    }
}

/// An "all" row adds to a set, or asks the state above for more, along a role that is strictly narrower than its own; without that it
/// would not.
struct Reach {
    narrow: u8,
    wide: u8,
    is_downward: bool,
}

/// Where that happens in the graph of a run.
fn reaches(file: &RuleFile, graph: &Graph, parts: &Parts) -> Vec<Reach> {
    let wider = Wider::of(&parts.rows, Follow::All);
    let down = (0..graph.nodes.len()).filter(|&n| graph.children(n).next().is_some()).flat_map(|n| {
        let rows = graph.nodes[n].rows;
        let roles = if graph.nodes[n].is_state() { existentials(&file.concepts, rows) } else { Vec::new() };
        let tbox: RowSet = file.tbox.iter().copied().collect();
        roles.into_iter().map(move |(role, argument)| (rows, role, tbox.with(argument), true))
    });
    let asks_at_once = |&n: &usize| graph.nodes[n].link == Link::Lapsed && graph.children(n).next().is_none();
    let up = (0..graph.nodes.len()).filter(asks_at_once).filter_map(|n| {
        let Above { state, role } = graph.nodes[n].above?;
        Some((graph.nodes[n].rows, inverse(role), graph.nodes[state].rows, false))
    });
    let by_one = |(rows, role, there, is_downward)| {
        reached_by_narrower(file, &wider, rows, role, there).into_iter().map(move |(narrow, wide)| Reach {
            narrow,
            wide,
            is_downward,
        })
    };
    down.chain(up).flat_map(by_one).collect()
}

/// The roles of the set's "all" rows that are strictly wider than the role and whose arguments are not there, and not those of an "all"
/// row along the role itself.
fn reached_by_narrower(file: &RuleFile, wider: &Wider, rows: RowSet, role: Role, there: RowSet) -> Vec<(u8, u8)> {
    let alls = || {
        rows.rows().filter_map(|row| match file.concepts[row] {
            Concept::Univ(along, argument) => Some((along, argument)),
            _ => None,
        })
    };
    let code = |role: Role| u8::try_from(role).expect("a role code");
    let is_new = |argument: usize| !there.contains(argument) && alls().all(|all| all != (role, argument));
    let by_narrower = alls().filter(|&(along, argument)| along != role && is_new(argument));
    by_narrower
        .map(|(along, _)| (code(role), code(along)))
        .filter(|&(narrow, wide)| narrow < CODES && wider.has(narrow, wide))
        .collect()
}

/// The roles that were taken from states.
fn roles_taken(graph: &Graph) -> Vec<u8> {
    graph.nodes.iter().filter_map(|node| u8::try_from(node.above?.role).ok()).filter(|&code| code < CODES).collect()
}

/// A file, its answer and its run.
struct Seen<'a> {
    bytes: &'a [u8],
    parts: Parts,
    answer: &'a Answer,
    reaches: Vec<Reach>,
    graph_roles: Vec<u8>,
}

impl Seen<'_> {
    fn is_can(&self) -> bool {
        matches!(self.answer, Answer::Can { .. })
    }

    fn is_cannot(&self) -> bool {
        matches!(self.answer, Answer::Cannot { .. })
    }

    /// The verdict, the table, and what it makes of the roles in use.
    fn cases_of_file(&self) -> Vec<(&'static str, bool)> {
        let without = plain::answer(&self.parts.without_inclusions().bytes(), &Lent::by_program());
        let (first, last) = (self.parts.rows[0], self.parts.rows[self.parts.rows.len() - 1]);
        let wider = Wider::of(&self.parts.rows, Follow::All);
        let symmetric = |&code: &u8| wider.has(code, code ^ 1);
        let one_of_two =
            |&code: &u8| (0..CODES).any(|other| other != code && wider.has(code, other) && wider.has(other, code));
        let within_itself = |row: &[u8; 4]| row[0] == INCLUSION && row[1] == row[2];
        vec![
            ("can", self.is_can()),
            ("cannot", self.is_cannot()),
            ("cannot, and can without the kind 7 rows", self.is_cannot() && matches!(without, Answer::Can { .. })),
            ("the table begins with kind 7", first[0] == INCLUSION),
            ("the table ends with kind 7", last[0] == INCLUSION),
            ("a third of the rows are of kind 7", 3 * self.parts.inclusions().len() >= self.parts.rows.len()),
            ("a role is said to be within itself", self.parts.rows.iter().any(within_itself)),
            ("a symmetric role was taken", self.graph_roles.iter().any(symmetric)),
            ("a role of a circle was taken", self.graph_roles.iter().any(one_of_two)),
        ]
    }

    /// "All" rows along narrower roles.
    fn cases_of_reaches(&self) -> Vec<(&'static str, bool)> {
        let [one, unturned] = [Follow::One, Follow::Unturned].map(|follow| Wider::of(&self.parts.rows, follow));
        let any = |passes: &dyn Fn(&Reach) -> bool| self.reaches.iter().any(passes);
        let chained = |reach: &Reach| !one.has(reach.narrow, reach.wide);
        let was_turned = |reach: &Reach| !unturned.has(reach.narrow, reach.wide);
        let of_other_role = |reach: &Reach| reach.narrow / 2 != reach.wide / 2;
        let to_inverse = |reach: &Reach| of_other_role(reach) && reach.narrow % 2 != reach.wide % 2;
        vec![
            ("all reaches down along a narrower role only", any(&|r| r.is_downward)),
            ("the state above lacks something by a narrower role only", any(&|r| !r.is_downward)),
            ("down, by a chain only", any(&|r| r.is_downward && chained(r))),
            ("up, by a chain only", any(&|r| !r.is_downward && chained(r))),
            ("down, by a row turned round only", any(&|r| r.is_downward && was_turned(r))),
            ("up, by a row turned round only", any(&|r| !r.is_downward && was_turned(r))),
            ("by a chain with a row turned round only", any(&|r| chained(r) && was_turned(r))),
            ("along a role narrower than its own inverse", any(&|r| !of_other_role(r))),
            ("along a role narrower than another's inverse", any(&to_inverse)),
        ]
    }

    /// Rows that hold or fail in the example only because a pair belongs to a wider role.
    fn cases_of_example(&self) -> Vec<(&'static str, bool)> {
        let whats =
            ["some holds by a narrower role only", "all fails by a narrower role only", "a pair is of both directions"];
        let Answer::Can { elements, links, .. } = self.answer else { return whats.map(|what| (what, false)).to_vec() };
        let ontology = Ontology::decode(self.bytes).expect("a rule file");
        let [elements, links] = records(elements, links);
        let example = Example::read(&elements, &links).expect("whole records");
        let (world, as_listed) = (example.world(&ontology), example.world_as_listed(&ontology));
        let (truth, told) = (world.truth(&ontology), as_listed.truth(&ontology));
        let differs = |kind: u8, holds: bool| {
            let of_kind = (0..truth.len()).filter(|&row| self.parts.rows[row][0] == kind);
            of_kind.into_iter().any(|row| (0..world.size()).any(|d| truth[row][d] == holds && told[row][d] != holds))
        };
        let wider = Wider::of(&self.parts.rows, Follow::All);
        let both_ways = example.links().any(|[_, code, _]| wider.has(code as u8, code as u8 ^ 1));
        let happened = [differs(6, true), differs(5, false), both_ways];
        whats.into_iter().zip(happened).collect()
    }
}
