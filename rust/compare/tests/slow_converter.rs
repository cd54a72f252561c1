//! The plain converter against a slow one: it writes each rule out as one expression, turns its parts round where "not" and "if" ask
//! for it, and then numbers the parts as they end, equal parts once, after the kind 7 rows.

use compare::files::inclusions::with_inclusions;
use compare::files::{encode, Row};
use compare::{random_draft, Conversion, Prng, Shape};
use worlds::ontology::RoleUse;
use worlds::{Concept, Ontology};

/// An expression: kind, role, name, and the expressions that it is about.
#[derive(Clone, PartialEq)]
struct Term {
    kind: u8,
    role: u8,
    name: u8,
    arguments: Vec<Term>,
}

fn literal(kind: u8, name: usize) -> Term {
    Term { kind, role: 0, name: name as u8, arguments: Vec::new() }
}

fn pair(kind: u8, left: Term, right: Term) -> Term {
    Term { kind, role: 0, name: 0, arguments: vec![left, right] }
}

fn code(role: RoleUse) -> u8 {
    2 * role.role as u8 + u8::from(role.inverse)
}

fn along(kind: u8, role: RoleUse, argument: Term) -> Term {
    Term { kind, role: code(role), name: 0, arguments: vec![argument] }
}

/// A kind 7 row, with the wider role in the place of a name.
fn inclusion((narrow, wide): (RoleUse, RoleUse)) -> (Term, Row) {
    let (role, name) = (code(narrow), code(wide));
    (Term { kind: 7, role, name, arguments: Vec::new() }, [7, role, name, 0])
}

/// A row of a draft written out.
fn term(draft: &Ontology, row: usize) -> Term {
    match draft.rows[row] {
        Concept::Name(name) => literal(1, name),
        Concept::NotName(name) => literal(2, name),
        Concept::Both(l, r) => pair(3, term(draft, l), term(draft, r)),
        Concept::Either(l, r) => pair(4, term(draft, l), term(draft, r)),
        Concept::All(role, l) => along(5, role, term(draft, l)),
        Concept::Some(role, l) => along(6, role, term(draft, l)),
        Concept::Narrower(..) => panic!("nothing needs such a row"),
        Concept::Not(l) => opposite(term(draft, l)),
        Concept::IfThen(l, r) => pair(4, opposite(term(draft, l)), term(draft, r)),
    }
}

/// Names and not-names, "both" and "either", "all" and "some" are exchanged.
fn opposite(term: Term) -> Term {
    let kind = [2, 1, 4, 3, 6, 5][usize::from(term.kind) - 1];
    Term { kind, arguments: term.arguments.into_iter().map(opposite).collect(), ..term }
}

/// The number of an expression among those that ended before it, or else the next.
fn number(term: &Term, rows: &mut Vec<(Term, Row)>) -> u8 {
    let arguments: Vec<u8> = term.arguments.iter().map(|argument| number(argument, rows)).collect();
    let row = match arguments[..] {
        [left, right] => [term.kind, 0, left, right],
        [left] => [term.kind, term.role, left, 0],
        _ => [term.kind, 0, term.name, 0],
    };
    let number = rows.iter().position(|(ended, _)| ended == term).unwrap_or_else(|| {
        rows.push((term.clone(), row));
        rows.len() - 1
    });
    number as u8
}

/// What becomes of an accepted draft.
fn convert_slowly(draft: &[u8]) -> Conversion {
    let ontology = Ontology::decode_draft(draft).expect("a draft");
    let mut rows: Vec<(Term, Row)> = ontology.inclusions().map(inclusion).collect();
    let rules: Vec<u8> = ontology.tbox.iter().map(|&rule| number(&term(&ontology, rule), &mut rows)).collect();
    let wanted = number(&term(&ontology, ontology.wanted[0]), &mut rows);
    let rows: Vec<Row> = rows.into_iter().map(|(_, row)| row).collect();
    let text = draft.len() - 8 - ontology.tbox.len() - 4 * ontology.rows.len();
    let file = encode(&draft[..text], &rows, &rules, wanted);
    if rows.len() > 64 || file.len() > 4096 {
        Err(12)
    } else {
        Ok(file)
    }
}

#[test]
fn both_converters_agree() {
    let shapes = [
        Shape { names: 2, roles: 1, compound: 8, rules: 3, text: 8 },
        Shape { names: 3, roles: 2, compound: 14, rules: 6, text: 8 },
        Shape { names: 20, roles: 16, compound: 30, rules: 64, text: 8 },
    ];
    let mut prng = Prng::new(71);
    let (mut converted, mut refused) = (0, 0);
    for round in 0..30_000 {
        let shape = shapes[round % shapes.len()];
        let mut draft = random_draft(&mut prng, shape);
        if round % 2 == 0 {
            draft = with_inclusions(&mut prng, &draft, shape.roles);
        }
        let conversion = plain::convert(&draft, usize::MAX);
        assert_eq!(conversion, convert_slowly(&draft), "{draft:02x?}");
        match conversion {
            Ok(_) => converted += 1,
            Err(_) => refused += 1,
        }
    }
    println!("converted {converted}, refused {refused}");
    assert!(converted > 20_000 && refused > 50);
}
