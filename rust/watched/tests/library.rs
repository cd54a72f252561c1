//! The library, its header, the wrapper and the documents say the same: the version, the sentence of each refusal, and
//! what a rule file is.

use gumbyra::{library_sentence, library_version, Refusal, VERSION};

/// A document of the repository.
fn document(path: &str) -> String {
    let path = format!("{}/../../{path}", env!("CARGO_MANIFEST_DIR"));
    std::fs::read_to_string(&path).unwrap_or_else(|error| panic!("{path}: {error}"))
}

/// All refusals, rising.
const REFUSALS: [Refusal; 15] = [
    Refusal::Length,
    Refusal::Mark,
    Refusal::Counts,
    Refusal::Extent,
    Refusal::Row,
    Refusal::Argument,
    Refusal::Repeat,
    Refusal::NoSuchRow,
    Refusal::ExampleTooLong { elements: 0, links: 0 },
    Refusal::ResultTooLong,
    Refusal::NodesShort { lent: 0 },
    Refusal::EdgesShort { lent: 0 },
    Refusal::AlternativesShort { lent: 0 },
    Refusal::Inclusion,
    Refusal::TableShort,
];

#[test]
fn the_version_is_the_same_everywhere() {
    let numbers: Vec<u32> = VERSION.split('.').map(|number| number.parse().expect("a number")).collect();
    let [major, minor, patch] = numbers[..] else { panic!("{VERSION}") };
    assert_eq!(library_version(), 10_000 * major + 100 * minor + patch);
    let header = document("c/include/gumbyra.h");
    let of_header = header.lines().find_map(|line| line.strip_prefix("#define GUMBYRA_VERSION "));
    assert_eq!(of_header, Some(library_version().to_string().as_str()));
    let of_table = document("rust/engine/table/Cargo.toml");
    assert!(of_table.lines().any(|line| line == format!("version = \"{VERSION}\"")), "{of_table}");
}

#[test]
fn the_library_has_the_sentences() {
    for number in (0..=300).chain([u32::MAX - 1, u32::MAX]) {
        let refusal = REFUSALS.iter().find(|refusal| u32::from(refusal.number()) == number);
        assert_eq!(library_sentence(number), refusal.map_or("", Refusal::sentence), "{number}");
    }
}

/// For callers and translators: docs/USE.md has each number with its sentence and what to do, rising, and no other.
#[test]
fn the_list_of_messages_is_complete() {
    let document = document("docs/USE.md");
    let (_, list) = document.split_once("## Refusals\n").expect("the list of refusals");
    // An item is `- **5** SENTENCE *What to do.*`, and may go on in further lines.
    let items: Vec<String> = list.split("\n- **").skip(1).map(|item| item.replace("\n  ", " ")).collect();
    assert_eq!(items.len(), REFUSALS.len(), "{items:#?}");
    for (item, refusal) in items.iter().zip(&REFUSALS) {
        let start = format!("{}** {} *{}*", refusal.number(), refusal.sentence(), refusal.advice());
        assert!(item.starts_with(&start), "{item} does not begin with {start}");
    }
}

/// The table whose first line begins with this.
fn table<'a>(document: &'a str, start: &str) -> Vec<&'a str> {
    document.lines().skip_while(|line| !line.starts_with(start)).take_while(|line| line.starts_with('|')).collect()
}

/// The first page of the wrapper's documentation has the two tables of docs/RULE-FILES.md.
#[test]
fn the_format_is_told_in_the_same_words() {
    let (page, rule_files) = (document("rust/engine/src/format.md"), document("docs/RULE-FILES.md"));
    for (start, lines) in [("| part | bytes | holds |", 6), ("| kind | true of a part if |", 11)] {
        let expected = table(&rule_files, start);
        assert_eq!(expected.len(), lines, "{expected:#?}");
        assert_eq!(table(&page, start), expected);
    }
}
