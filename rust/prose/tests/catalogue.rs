//! Catalogue pages, on samples and on small files.

mod common;

use common::{indented, sample, sample_text};
use gumbyra::{Refusal, Sizes, Table};
use prose::catalogue_page::page;

fn with_nodes(nodes: usize) -> Sizes {
    Sizes { nodes, ..Sizes::USUAL }
}

#[test]
fn the_page_is_what_is_beside_the_sample() {
    let page = page(&sample("kinds.fit"), Sizes::USUAL).expect("a page");
    assert_eq!(page, sample_text("kinds.page"));
    assert!(page.contains("\nEvery peristaltic pump is a pump and a dosing pump.\n"));
    assert!(sample_text("kinds.md").contains(&indented(&page)), "samples/kinds.md lacks\n{}", indented(&page));
}

/// 60 nodes are not enough for most of what is asked of peristaltic pumps. What is called for then decides more.
#[test]
fn what_is_not_decided_is_marked() {
    let short = page(&sample("kinds.fit"), with_nodes(60)).expect("a page");
    assert!(short.contains(" 2 peristaltic pump         yes    ?  yes    ?    ?    ?    ?\n"), "{short}");
    assert!(sample_text("kinds.md").contains(&indented(&short)), "samples/kinds.md lacks\n{}", indented(&short));
    assert!(short.ends_with(
        "\n11 entries are not decided, for want of nodes (60 lent). More may decide them: ./catalogue FILE 120\n"
    ));
    let more = page(&sample("kinds.fit"), with_nodes(120)).expect("a page");
    assert!(more.matches(" ?").count() < short.matches(" ?").count());
}

/// Which area was short, and what to call: only the numbers that are not the usual ones, and those before them.
#[test]
fn the_last_line_tells_what_to_call() {
    let last = |sizes: Sizes| {
        let page = page(&sample("kinds.fit"), sizes).expect("a page");
        page.lines().last().expect("a line").to_string()
    };
    let edges = last(Sizes { edges: 20, ..Sizes::USUAL });
    assert!(edges.contains("for want of edges (20 lent). More may decide them: ./catalogue FILE 1024 40"), "{edges}");
    let none = last(with_nodes(0));
    assert_eq!(
        none,
        "49 entries are not decided, for want of nodes (0 lent). More may decide them: ./catalogue FILE 1"
    );
    let alternatives = page(&needs_alternatives(), Sizes { alternatives: 0, ..Sizes::USUAL }).expect("a page");
    let expected = "for want of alternatives (0 lent). More may decide them: ./catalogue FILE 1024 4096 1\n";
    assert!(alternatives.ends_with(expected), "{alternatives}");
}

/// A file of which a run needs an alternative: what has name 0 is fitted to something to which only name 1 is fitted.
fn needs_alternatives() -> Vec<u8> {
    let mut table = Table::default();
    let [named, not_named, other, _] = [table.name(0), table.not_name(0), table.name(1), table.not_name(1)];
    let only_other = table.all(1, other);
    let fitted = table.some(0, only_other);
    let rule = table.either(not_named, fitted);
    table.rule(rule);
    table.wanted = named;
    table.encode().expect("a rule file")
}

/// Without a list of names a name has the words of its row.
#[test]
fn words_of_rows_do_too() {
    let pump = "   every          1    2\n 1 dosing pump  yes    -\n 2 flush valve    -  yes\n\n\
        Not listed, without a row of kind 1 or one of kind 2: box, controller, canister.\n";
    assert_eq!(page(&sample("pump.fit"), Sizes::USUAL).as_deref(), Ok(pump));
    let acid = page(&sample("acid.fit"), Sizes::USUAL).expect("a page");
    let lines = [
        "   every               1    2    3",
        " 1 acid pump         yes    -    -",
        " 2 acid-proof          -  yes    -",
        " 3 has rubber seals    -    -  yes",
    ];
    let not_listed = "Not listed, without a row of kind 1 or one of kind 2: flush valve.\n";
    assert_eq!(acid, format!("{}\n\n{not_listed}", lines.join("\n")));
}

/// Phrases and numbers in sentences; the words that are told by number are those of no list.
#[test]
fn what_is_no_noun_is_said_too() {
    // Acid pumps are acid-proof; nothing has rubber seals and is acid-proof; acid pumps have rubber seals.
    let mut table = Table::default();
    let [pump, no_pump] = [table.name(1), table.not_name(1)];
    let [proof, not_proof, seals, no_seals] = [table.name(2), table.not_name(2), table.name(3), table.not_name(3)];
    let rules = [table.either(no_pump, proof), table.either(no_seals, not_proof)];
    rules.into_iter().for_each(|rule| table.rule(rule));
    table.wanted = pump;
    let numbers = page(&table.encode().expect("a file"), Sizes::USUAL).expect("a page");
    assert!(numbers.ends_with(" 3 name 3    -    -  yes\n\nEvery part that has name 1 has name 2.\n"), "{numbers}");
    let rows = "0 is an acid pump\n1 is no acid pump\n2 is acid-proof\n3 is not acid-proof\n4 has seals\n5 has none\n";
    table.text = format!("Rows:\n{rows}6 a\n7 b\n").into();
    let words = page(&table.encode().expect("a file"), Sizes::USUAL).expect("a page");
    assert!(words.ends_with("\nEvery acid pump is acid-proof.\n"), "{words}");
    let rule = table.either(no_pump, seals);
    table.rule(rule);
    table.text = "Names:\n1 S\u{e4}urepumpe\n2 acid-proof part\n".into();
    let none = page(&table.encode().expect("a file"), Sizes::USUAL).expect("a page");
    assert!(none.ends_with("\nThere can be no S\u{e4}urepumpe.\n"), "{none}");
    assert!(none.contains(" 1 S\u{e4}urepumpe       yes  yes  yes\n 2 acid-proof part    -  yes    -\n"), "{none}");
}

#[test]
fn a_file_without_pairs_and_one_that_is_refused() {
    let mut table = Table::default();
    table.wanted = table.name(0);
    let nothing = "No name has both a row of kind 1 and one of kind 2, so there is nothing to tell.\n";
    assert_eq!(page(&table.encode().expect("a file"), Sizes::USUAL).as_deref(), Ok(nothing));
    assert_eq!(page(&sample("order.fit"), Sizes::USUAL), Err(Refusal::Argument));
    assert_eq!(page(&sample("hose.draft"), Sizes::USUAL), Err(Refusal::Row));
}
