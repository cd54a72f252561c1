//! An answer in words: the verdict, the parts of the example, and what the run took.
//!
//! Of a part are told its names; what is asked of it; and the rows that can't be seen from names and links. So nothing
//! is told of rules, which are true everywhere; of "both" and "either", since the rows that they name are told or seen;
//! of "not" a name that is a noun; of "all" where the role leads nowhere and no rule depends on it; of "some" name
//! where a link shows it. Rows that neither a rule nor the wanted row needs are questions: they are answered with yes
//! and no.

use crate::assembly::Parts;
use crate::phrases::{count, link, Said};
use crate::wording::Wording;
use gumbyra::{Assembly, Row, RowSet, Table, Used};

/// "Cannot" in words.
pub fn cannot(table: &Table, wording: &Wording, used: &Used) -> String {
    let verdict = "CANNOT: no assembly of any size obeys the rules and has such a part.";
    format!("{verdict}\nWanted: {}\n\n{}", wording.row(table.wanted), source(wording, used))
}

/// "Can" in words, with the example.
pub fn can(table: &Table, wording: &Wording, used: &Used, assembly: &Assembly) -> String {
    let parts = Parts::of(table, assembly);
    let needed = parts.needed();
    let example: String = (0..needed.len()).map(|part| told(&parts, wording, part, needed[part])).collect();
    let verdict = format!("CAN: here is an example that obeys the rules, with {}.", count(needed.len(), "part"));
    let wanted = wording.row(table.wanted);
    format!("{verdict}\nWanted: {wanted}. That is part 0.\n\n{example}\n{}", source(wording, used))
}

/// Where the words come from, and what the run took.
fn source(wording: &Wording, Used { nodes, edges, alternatives }: &Used) -> String {
    let [nodes, edges] = [count(*nodes, "node"), count(*edges, "edge")];
    format!("{}\nUsed: {nodes}, {edges}, {}.\n", wording.source(), count(*alternatives, "alternative"))
}

/// A part: its names, then a line for each row that is told, for each link, and for what is asked.
fn told(parts: &Parts, wording: &Wording, part: usize, needed: RowSet) -> String {
    let names: Vec<String> = parts.names[part].iter().map(|&name| wording.name(name).is()).collect();
    let names = if names.is_empty() { "has none of the names".to_string() } else { names.join(", ") };
    let questions = questions(parts.table);
    let rows = parts.table.numbered().filter(|(row, _)| !questions.contains(row));
    let rows = rows.filter(|&(row, said)| is_told(parts, wording, part, needed, row, said));
    let mut lines: Vec<String> = rows.map(|(row, _)| wording.row(row).to_string()).collect();
    lines.extend(parts.links[part].iter().map(|&(role, to)| told_link(parts, wording, role, to)));
    for (holds, heading) in [(true, "asked, yes: "), (false, "asked, no: ")] {
        let rows = questions.iter().filter(|&&row| parts.holds(part, row) == holds);
        let words: Vec<&str> = rows.map(|&row| wording.row(row)).collect();
        lines.extend((!words.is_empty()).then(|| format!("{heading}{}", words.join("; "))));
    }
    let lines: String = lines.iter().map(|line| format!("  {line}\n")).collect();
    format!("part {part}: {names}\n{lines}")
}

/// The rows that neither a rule nor the wanted row needs, but for names and what speaks of roles.
pub fn questions(table: &Table) -> Vec<u8> {
    let mut needed: Vec<u8> = [table.rules.as_slice(), &[table.wanted]].concat();
    let mut at = 0;
    while let Some(&row) = needed.get(at) {
        at += 1;
        for argument in table.rows[usize::from(row)].arguments() {
            if !needed.contains(&argument) {
                needed.push(argument);
            }
        }
    }
    let asks = |row: &Row| !matches!(row, Row::Name(_) | Row::NotName(_) | Row::Within { .. });
    table.numbered().filter(|(row, said)| asks(said) && !needed.contains(row)).map(|(row, _)| row).collect()
}

/// Is a row that holds at a part told there?
fn is_told(parts: &Parts, wording: &Wording, part: usize, needed: RowSet, row: u8, said: Row) -> bool {
    let holds = parts.holds(part, row) && !parts.table.is_rule(row);
    holds
        && match said {
            Row::NotName(name) => matches!(wording.name(name), Said::Phrase(_)),
            Row::All { role, .. } => needed.contains(row) || parts.reached(part, role).next().is_some(),
            Row::Some { role, row } => !is_shown(parts, part, role, row),
            _ => false,
        }
}

/// Does a link of the part show that its role leads to some part with a name? Of other rows, and of wider roles, links
/// show nothing.
fn is_shown(parts: &Parts, part: usize, role: u8, row: u8) -> bool {
    let is_name = matches!(parts.table.rows[usize::from(row)], Row::Name(_));
    is_name && parts.links[part].iter().any(|&(code, to)| code == role && parts.holds(to, row))
}

/// "is fitted to part 0 (a dosing pump)".
fn told_link(parts: &Parts, wording: &Wording, role: u8, to: usize) -> String {
    let names: Vec<String> = parts.names[to].iter().map(|&name| wording.name(name).remark()).collect();
    let other = if names.is_empty() { format!("part {to}") } else { format!("part {to} ({})", names.join(", ")) };
    match (wording.role(role), wording.role(role ^ 1)) {
        (Some(words), _) => link(words, &other),
        (None, Some(inverse)) => format!("\"{inverse}\" backwards: {other}"),
        (None, None) => format!("along {role}: {other}"),
    }
}
