//! Which words a row gets: those of the text's lists, composed ones, and those of a draft's row.

mod common;

use common::shown;
use gumbyra::{convert, origins, Row, Table, LONGEST_FILE};
use prose::phrases::Said;
use prose::showing::file;
use prose::wording::Wording;

/// Rows: name 0; not name 0; name 1; some along 3: 2; 1 or 3, the rule. Wanted: 0.
fn table(text: &str) -> Table {
    let mut table = Table { text: text.into(), ..Table::default() };
    let [pump, no_pump, head] = [table.name(0), table.not_name(0), table.name(1)];
    let some = table.some(3, head);
    let rule = table.either(no_pump, some);
    table.rule(rule);
    table.wanted = pump;
    table
}

fn rows(table: &Table) -> Vec<String> {
    let wording = Wording::of(table);
    (0..table.rows.len()).map(|row| wording.row(row as u8).to_string()).collect()
}

const NAMES: &str = "Names:\n0 pump\n1 roller head\n";
const ROLES: &str = "Role codes:\n2 is fitted to\n3 has fitted to it\n";
const ROWS: &str = "Rows:\n0 is a pump\n1 isn't one\n2 is the head\n3 has its head\n4 a pump has its head\n";

#[test]
fn names_and_roles_make_words() {
    let words = rows(&table(&format!("Pumps\n{NAMES}{ROLES}")));
    let head = "some \"has fitted to it\": is a roller head";
    assert_eq!(words, ["is a pump", "is no pump", "is a roller head", head, &format!("is no pump or ({head})")]);
    let backwards = table("Role codes:\n2 is fitted to\n");
    assert_eq!(rows(&backwards)[3], "some \"is fitted to\" backwards: has name 1");
    assert_eq!(rows(&table(""))[3], "some along 3: has name 1");
    assert_eq!(rows(&table("Role codes:\n3 \nNames:\n1  \n"))[3], "some along 3: has name 1");
}

/// The words of the list of rows; of a name those of the list of names, unless they are the same.
#[test]
fn names_are_preferred() {
    let listed = rows(&table(ROWS));
    assert_eq!(listed, ["is a pump", "isn't one", "is the head", "has its head", "a pump has its head"]);
    let named = rows(&table(&format!("{NAMES}{ROWS}")));
    assert_eq!(named, ["is a pump", "isn't one", "is a roller head", "has its head", "a pump has its head"]);
    let wording =
        Wording::of(&table(&format!("{NAMES}{ROWS}").replace("0 pump", "0 red").replace("is a pump", "is red")));
    assert_eq!((wording.row(0), wording.name(0)), ("is red", &Said::Phrase("is red".to_string())));
}

/// What a terminal would take for a command is no part of the words.
#[test]
fn words_are_clean() {
    let rows = ROWS.replace("its", "i\x07s");
    let page = shown(file(&table(&format!("\x1b[2JPumps\t1\n{rows}")).encode().expect("a file")));
    assert!(page.contains("\n[2JPumps 1\n") && page.contains("a pump has i s head"), "{page}");
    assert!(!page.contains(|c: char| c.is_control() && c != '\n'), "{page:?}");
}

/// The rows of what a draft becomes, with their words.
fn converted(draft: &Table) -> Vec<(Row, String)> {
    let bytes = draft.encode().expect("a draft");
    let mut area = [0; LONGEST_FILE];
    let file = convert(&bytes, &mut area).expect("a rule file");
    let table = Table::read(file).expect("a rule file");
    let wording = Wording::of_converted(draft, &table, &origins(&bytes, file).expect("what the draft becomes"));
    assert!(wording.source().starts_with("The answer is that of the rule file which the draft becomes.\n"));
    table.rows.iter().zip(0..).map(|(&said, row)| (said, wording.row(row).to_string())).collect()
}

/// The draft's own words, those of its own "not", else "not:" before the words of what a row denies.
#[test]
fn converted_rows_have_the_words_of_the_draft() {
    let text =
        "Rows of the draft:\n0 is a pump\n1 is red\n2 holds a pump\n3 holds none\n4 is one of both\n5 is so if\n";
    let mut draft = Table { text: text.into(), ..Table::default() };
    let [pump, red] = [draft.name(0), draft.name(1)];
    let some = draft.some(0, pump);
    draft.not(some);
    let either = draft.either(red, some);
    draft.wanted = draft.if_then(either, pump);
    let expected = [
        (Row::NotName(1), "is not red"),
        (Row::NotName(0), "is no pump"),
        (Row::All { role: 0, row: 1 }, "holds none"),
        (Row::Both(0, 2), "not: is one of both"),
        (Row::Name(0), "is a pump"),
        (Row::Either(3, 4), "is so if"),
    ];
    assert_eq!(converted(&draft), expected.map(|(row, words)| (row, words.to_string())));
    // Without words for rows they are composed, and denied the same way.
    draft.text = b"Names:\n0 pump\n".to_vec();
    let words: Vec<String> = converted(&draft).into_iter().map(|(_, words)| words).collect();
    let some = "some along 0: is a pump";
    let either = format!("has name 1 or ({some})");
    assert_eq!(words[..3], ["hasn't name 1".to_string(), "is no pump".to_string(), format!("not ({some})")]);
    assert_eq!(
        words[3..],
        [format!("not: {either}"), "is a pump".to_string(), format!("if ({either}) then is a pump")]
    );
}
