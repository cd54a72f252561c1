//! Role codes turned round (document 02, \[5\]): an answering function on every pair of codes, against answers worked out by hand, on the
//! root's put, whose role no row has, and on random files in which all 32 codes are in use. Code 2k is role k, code 2k + 1 its
//! inverse; what is turned round is told here by that, and not by a sum or by cases.

use crate::files::{file_of, Table};
use crate::sizes::CODES;
use crate::{check_example, random_file, Answering, Prng, Shape};
use plain::concept::Concept;
use plain::evaluate::RoleLink;
use plain::graph::{Graph, Link};
use plain::{tableau, Answer, Lent, RowSet, RuleFile, Used};

/// One code is the other turned round: they are of one role, and not the same.
fn opposed(code: u8, other: u8) -> bool {
    code / 2 == other / 2 && code != other
}

fn rows(rows: &[u8]) -> RowSet {
    rows.iter().fold(RowSet::EMPTY, |set, &row| set.with(usize::from(row)))
}

/// Checks each of the 1,024 pairs of codes.
pub fn check_pairs(mut answer: impl Answering) {
    for c in 0..CODES {
        for d in 0..CODES {
            check_asked_name(&mut answer, c, d);
            check_refused_name(&mut answer, c, d);
        }
    }
}

/// The kit is "some c (all d A)": what it is fitted to asks the kit for A exactly if d is c turned round. The example is one link
/// from the kit, along c.
fn check_asked_name(answer: &mut impl Answering, c: u8, d: u8) {
    let mut table = Table::default();
    let name = table.name(0);
    let all = table.all(d, name);
    let some = table.some(c, all);
    let (used, kit) = match opposed(c, d) {
        // The eight-node run of document 01: an alternative with A, and the kit has A. "All d A" holds there, since nothing leads
        // along d from it.
        true => (Used { nodes: 8, edges: 7, alternatives: 1 }, rows(&[name, all, some])),
        // Nothing is asked. "All d A" fails at the kit if d is c, which leads to an element without A.
        false if c == d => (Used { nodes: 5, edges: 4, alternatives: 0 }, rows(&[some])),
        false => (Used { nodes: 5, edges: 4, alternatives: 0 }, rows(&[all, some])),
    };
    let expected = Answer::Can { used, elements: vec![kit, rows(&[all])], links: vec![(0, u16::from(c), 1)] };
    let file = file_of(&table, &[], some);
    assert_eq!(answer(&file, &Lent::by_program()), expected, "codes {c} and {d}");
}

/// "Some c (all d A)" and not A: it cannot be exactly if d is c turned round.
fn check_refused_name(answer: &mut impl Answering, c: u8, d: u8) {
    let mut table = Table::default();
    let (name, not_name) = (table.name(0), table.not_name(0));
    let all = table.all(d, name);
    let some = table.some(c, all);
    let both = table.both(some, not_name);
    let file = file_of(&table, &[], both);
    let given = answer(&file, &Lent::by_program());
    check_example(&file, &given);
    assert_eq!(matches!(given, Answer::Cannot { .. }), opposed(c, d), "codes {c} and {d}: {given:?}");
    assert_eq!(matches!(given, Answer::Can { .. }), !opposed(c, d), "codes {c} and {d}: {given:?}");
}

/// Checks the root's put: "with a role that no row has, turned round or not". A kit that is "all d A", for one code or for all of
/// them, asks nothing of the root: its special node and its state are the only nodes besides.
pub fn check_root(mut answer: impl Answering) {
    let mut check = |table: &Table, kit: &[u8]| {
        let file = file_of(table, kit, kit[0]);
        let used = Used { nodes: 3, edges: 2, alternatives: 0 };
        let expected = Answer::Can { used, elements: vec![rows(kit)], links: Vec::new() };
        assert_eq!(answer(&file, &Lent::by_program()), expected, "{file:02x?}");
    };
    for code in 0..CODES {
        let mut table = Table::default();
        let name = table.name(0);
        let all = table.all(code, name);
        check(&table, &[all]);
    }
    let mut table = Table::default();
    let name = table.name(0);
    let every: Vec<u8> = (0..CODES).map(|code| table.all(code, name)).collect();
    check(&table, &every);
}

/// How often each code was met.
type Times = [usize; CODES as usize];

/// Checks random files over all 16 roles against the plain program and the meaning of ALCI. Each code was often one along which a
/// special node asked the state above it for more, and often one of a link whose other direction is the role of a row.
pub fn check_random(mut answer: impl Answering) {
    let shape = Shape { names: 2, roles: 16, compound: 24, rules: 2, text: 0 };
    let mut prng = Prng::new(95);
    let (mut asked, mut backward) = (Times::default(), Times::default());
    for _ in 0..30_000 {
        let file = random_file(&mut prng, shape);
        let expected = plain::answer(&file, &Lent::most());
        assert_eq!(answer(&file, &Lent::most()), expected, "{file:02x?}");
        check_example(&file, &expected);
        let file = RuleFile::read(&file).expect("a random file is accepted");
        if let Ok(graph) = tableau::run(&file, Lent::most().capacity()) {
            asking_codes(&graph).for_each(|code| asked[code] += 1);
        }
        if let Answer::Can { links, .. } = expected {
            backward_codes(&file, &links).for_each(|code| backward[code] += 1);
        }
    }
    println!("how often along each code the state above was asked for more: {asked:?}");
    println!("how often a link of each code is followed backwards by a row: {backward:?}");
    assert!(asked.iter().chain(&backward).all(|&times| times >= 300), "{asked:?} {backward:?}");
}

/// The roles of the special nodes that lapsed at once, since the state above lacks what they ask of it.
fn asking_codes(graph: &Graph) -> impl Iterator<Item = usize> + '_ {
    let at_once = |n: &usize| graph.nodes[*n].link == Link::Lapsed && graph.children(*n).next().is_none();
    let above = |n: usize| graph.nodes[n].above.map(|above| usize::from(above.role));
    (0..graph.nodes.len()).filter(at_once).filter_map(above)
}

/// The codes of the links that some row of kind 5 or 6 leads along backwards.
fn backward_codes<'a>(file: &'a RuleFile, links: &'a [RoleLink]) -> impl Iterator<Item = usize> + 'a {
    let leads_back = |code: u16, row: &Concept| match *row {
        Concept::Univ(role, _) | Concept::Exist(role, _) => role / 2 == code / 2 && role != code,
        _ => false,
    };
    let codes = links.iter().map(|&(_, code, _)| code);
    codes.filter(move |&code| file.concepts.iter().any(|row| leads_back(code, row))).map(usize::from)
}
