//! A rule file or a draft in words.

use crate::judged::Kind;
use crate::phrases::count;
use crate::wording::Wording;
use gumbyra::{Row, Table};

/// What it is, its title, its role codes, its rows, rules and wanted row, and where the words come from.
pub fn page(kind: Kind, table: &Table) -> String {
    let wording = Wording::of(table);
    let mut page = format!(
        "A {kind} of {} and {}, {} of text.\n",
        count(table.rows.len(), "row"),
        count(table.rules.len(), "rule"),
        count(table.text.len(), "byte"),
    );
    if !wording.title().is_empty() {
        page += &format!("{}\n", wording.title());
    }
    page += &roles(table, &wording);
    page += &rows(table, &wording);
    page += "\nRules, each true of every part:";
    page += if table.rules.is_empty() { " none\n" } else { "\n" };
    for &rule in &table.rules {
        page += &line(rule, &wording);
    }
    page += "Wanted:\n";
    page += &line(table.wanted, &wording);
    page + "\n" + wording.source() + "\n"
}

fn line(row: u8, wording: &Wording) -> String {
    format!("{row:>3}  {}\n", wording.row(row))
}

/// The role codes that the rows name, with their words.
fn roles(table: &Table, wording: &Wording) -> String {
    let mut codes: Vec<u8> = table.rows.iter().flat_map(|&row| codes(row)).collect();
    codes.sort_unstable();
    codes.dedup();
    let told = |code: u8| {
        let backwards = if code % 2 == 1 { format!(" ({} backwards)", code - 1) } else { String::new() };
        Some(format!("{code}{backwards} {}", wording.role(code)?))
    };
    let told: Vec<String> = codes.into_iter().filter_map(told).collect();
    match told.as_slice() {
        [] => String::new(),
        told => format!("Role codes: {}.\n", told.join(", ")),
    }
}

/// The role codes that a row names.
fn codes(row: Row) -> Vec<u8> {
    match row {
        Row::All { role, .. } | Row::Some { role, .. } => vec![role],
        Row::Within { role, wider } => vec![role, wider],
        _ => Vec::new(),
    }
}

/// The table of rows: number, bytes, made of, says.
fn rows(table: &Table, wording: &Wording) -> String {
    let mut lines = vec![["row", "bytes", "made of", "says"].map(str::to_string)];
    for (number, row) in table.numbered() {
        let bytes = row.bytes().map(|byte| byte.to_string()).join(" ");
        lines.push([number.to_string(), bytes, made_of(row), wording.row(number).to_string()]);
    }
    let width = |column: usize| lines.iter().map(|line| line[column].chars().count()).max().unwrap_or(0);
    let (bytes, made_of) = (width(1), width(2));
    let line = |[number, of_bytes, of_rows, says]: &[String; 4]| {
        format!("{number:>3}  {of_bytes:<bytes$}  {of_rows:<made_of$}  {says}").trim_end().to_string() + "\n"
    };
    "\n".to_string() + &lines.iter().map(line).collect::<String>()
}

/// What the bytes of a row say, by numbers, as in docs/RULE-FILES.md.
pub fn made_of(row: Row) -> String {
    match row {
        Row::Name(name) => format!("name {name}"),
        Row::NotName(name) => format!("not name {name}"),
        Row::Both(left, right) => format!("{left} and {right}"),
        Row::Either(left, right) => format!("{left} or {right}"),
        Row::All { role, row } => format!("all along {role}: {row}"),
        Row::Some { role, row } => format!("some along {role}: {row}"),
        Row::Within { role, wider } => format!("{role} within {wider}"),
        Row::Not(row) => format!("not {row}"),
        Row::If(left, right) => format!("if {left} then {right}"),
    }
}
