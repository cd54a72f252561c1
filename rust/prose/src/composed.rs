//! Words for each row of a table, composed of its bytes with the words of names and roles: `is a pump and (some "has
//! fitted to it": is a roller head)`.

use crate::phrases::Said;
use gumbyra::{Row, Table};

/// Words longer than this stand in no other words: the row's number stands there instead. So the words of 64 rows stay
/// short, though a row may name the one before it twice.
const LONGEST: usize = 100;

/// The composed words of each row, in order. The table is one that was read: a row names lower rows only.
pub fn composed(table: &Table, name: &dyn Fn(u8) -> Said, role: &dyn Fn(u8) -> String) -> Vec<String> {
    let mut all: Vec<String> = Vec::new();
    for &row in &table.rows {
        let words = match row {
            Row::Name(n) => name(n).is(),
            Row::NotName(n) => name(n).is_not(),
            Row::Both(left, right) => joined(table, &all, " and ", [left, right]),
            Row::Either(left, right) => joined(table, &all, " or ", [left, right]),
            Row::All { role: code, row: of } => format!("all {}: {}", role(code), followed(table, &all, of)),
            Row::Some { role: code, row: of } => format!("some {}: {}", role(code), followed(table, &all, of)),
            Row::Within { role: code, wider } => format!("{} is within {}", role(code), role(wider)),
            Row::Not(of) => opposite(table, &all, of, name),
            Row::If(left, right) => format!("if {} then {}", operand(table, &all, left), operand(table, &all, right)),
        };
        all.push(words);
    }
    all
}

/// The words of a lower row, or its number if they are long.
fn named(all: &[String], row: u8) -> Option<&String> {
    all.get(usize::from(row)).filter(|words| words.chars().count() <= LONGEST)
}

fn number(row: u8) -> String {
    format!("row {row}")
}

/// Is the row a name, or "not" a name?
fn is_literal(table: &Table, row: u8) -> bool {
    matches!(table.rows[usize::from(row)], Row::Name(_) | Row::NotName(_))
}

/// A row's words as a part of others: in brackets unless the row is a name or "not" a name.
fn operand(table: &Table, all: &[String], row: u8) -> String {
    match named(all, row) {
        Some(words) if is_literal(table, row) => words.clone(),
        Some(words) => format!("({words})"),
        None => number(row),
    }
}

/// Two rows joined; the same joint within needs no brackets.
fn joined(table: &Table, all: &[String], joint: &str, rows: [u8; 2]) -> String {
    let plain = |row: u8| match table.rows[usize::from(row)] {
        Row::Both(..) => joint == " and ",
        Row::Either(..) => joint == " or ",
        _ => false,
    };
    let words = rows.map(|row| match named(all, row) {
        Some(words) if plain(row) => words.clone(),
        _ => operand(table, all, row),
    });
    words.join(joint)
}

/// What a role leads to; a role that leads on needs no brackets.
fn followed(table: &Table, all: &[String], row: u8) -> String {
    match (named(all, row), table.rows[usize::from(row)]) {
        (Some(words), Row::All { .. } | Row::Some { .. }) => words.clone(),
        _ => operand(table, all, row),
    }
}

fn opposite(table: &Table, all: &[String], row: u8, name: &dyn Fn(u8) -> Said) -> String {
    match table.rows[usize::from(row)] {
        Row::Name(n) => name(n).is_not(),
        Row::NotName(n) => name(n).is(),
        _ => format!("not {}", operand(table, all, row)),
    }
}

#[cfg(test)]
mod tests {
    use super::*;

    fn words_of(table: &Table) -> Vec<String> {
        let name = |name: u8| match name {
            0 => Said::Noun("pump".to_string()),
            1 => Said::Phrase("has seals".to_string()),
            other => Said::Number(other),
        };
        composed(table, &name, &|code| format!("\"role {code}\""))
    }

    #[test]
    fn brackets_stand_where_they_are_needed() {
        let mut table = Table::default();
        let (pump, seals, other) = (table.name(0), table.not_name(1), table.name(2));
        let some = table.some(3, pump);
        let both = table.both(pump, some);
        let three = table.both(both, seals);
        let either = table.either(three, other);
        let all = table.all(0, either);
        let twice = table.some(1, all);
        let negated = table.not(pump);
        let deep = table.not(either);
        let rule = table.if_then(negated, twice);
        table.within(2, 0);
        let words = words_of(&table);
        let said = |row: u8| words[usize::from(row)].as_str();
        assert_eq!([said(pump), said(seals), said(other)], ["is a pump", "has no seals", "has name 2"]);
        assert_eq!(said(some), "some \"role 3\": is a pump");
        assert_eq!(said(three), "is a pump and (some \"role 3\": is a pump) and has no seals");
        assert_eq!(said(either), format!("({}) or has name 2", said(three)));
        assert_eq!(said(all), format!("all \"role 0\": ({})", said(either)));
        assert_eq!(said(twice), format!("some \"role 1\": {}", said(all)));
        assert_eq!([said(negated), said(deep)], ["is no pump", &format!("not ({})", said(either))]);
        assert_eq!(said(rule), format!("if (is no pump) then row {twice}"));
        assert_eq!(words.last().map(String::as_str), Some("\"role 2\" is within \"role 0\""));
    }

    /// Each row names the one before it twice: without the numbers the last would have 2 to the 63 names.
    #[test]
    fn words_stay_short() {
        let mut table = Table::default();
        let mut row = table.name(0);
        while table.rows.len() < 64 {
            row = table.both(row, row);
        }
        let words = words_of(&table);
        assert_eq!(words.len(), 64);
        assert!(words.iter().all(|words| words.chars().count() < 2 * LONGEST + 20));
    }
}
