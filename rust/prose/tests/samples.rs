//! The samples in words: every file and draft, every answer; some as they are kept in `shown`.

mod common;

use common::{failed, fit, indented, refused, sample, sample_text, shown};
use gumbyra::{convert, Sizes, Table, LONGEST_FILE};
use prose::command::Ending;
use prose::showing::{self, answer, file};

/// All samples of a kind, by their names without the ending.
fn stems(ending: &str) -> Vec<String> {
    let folder = format!("{}/../../samples", env!("CARGO_MANIFEST_DIR"));
    let names = std::fs::read_dir(folder).expect("samples").map(|entry| entry.expect("a name").file_name());
    let stems = names.filter_map(|name| Some(name.to_str()?.strip_suffix(ending)?.to_string()));
    let mut stems: Vec<String> = stems.collect();
    stems.sort();
    stems
}

/// The rows of the first table below a heading of a sample's page: number, bytes, made of, says.
fn rows_of_page(page: &str, heading: &str) -> Vec<[String; 4]> {
    let (_, table) = page.split_once(heading).unwrap_or_else(|| panic!("no table {heading}"));
    let lines = table.lines().skip(1).take_while(|line| line.starts_with("| "));
    let cells = |line: &str| {
        let cells: Vec<String> = line.trim_matches('|').split(" | ").map(|cell| cell.trim().replace('`', "")).collect();
        cells.try_into().unwrap_or_else(|cells| panic!("not four cells: {cells:?}"))
    };
    lines.map(cells).collect()
}

/// The rows that a page of `show` has, the same way.
fn rows_shown(page: &str) -> Vec<[String; 4]> {
    let mut lines = page.lines().skip_while(|line| !line.starts_with("row  bytes"));
    let head = lines.next().expect("a table");
    let [bytes, made_of, says] = ["bytes", "made of", "says"].map(|word| head.find(word).expect("a column"));
    let columns = |line: &str| {
        [&line[..bytes], &line[bytes..made_of], &line[made_of..says], &line[says..]].map(|cell| cell.trim().to_string())
    };
    lines.take_while(|line| !line.is_empty()).map(columns).collect()
}

/// Each file that is not refused has the rows that its page has.
#[test]
fn every_file_has_the_rows_of_its_page() {
    let mut files = 0;
    for ending in [".fit", ".draft"] {
        for stem in stems(ending) {
            if ending == ".fit" && stems(".draft").contains(&stem) {
                continue;
            }
            let Ending::Shown(page) = file(&sample(&format!("{stem}{ending}"))) else { continue };
            assert_eq!(
                rows_shown(&page),
                rows_of_page(&sample_text(&format!("{stem}.md")), "| says |\n"),
                "{stem}{ending}"
            );
            assert!(
                page.ends_with("\nThe words of the rows are those of the text, and not proved.\n"),
                "{stem}{ending}"
            );
            files += 1;
        }
    }
    assert_eq!(files, 9 + 1 + 3, "rule files; a draft that ends in .fit; drafts");
}

/// What a draft became has the numbers that its page has; the words of its text are for other rows, and not used.
#[test]
fn converted_files_have_no_words_of_other_rows() {
    for stem in stems(".draft") {
        let page = shown(file(&sample(&format!("{stem}.fit"))));
        let numbers = |rows: Vec<[String; 4]>| {
            rows.into_iter().map(|[row, bytes, made_of, _]| [row, bytes, made_of]).collect::<Vec<_>>()
        };
        let of_page = rows_of_page(&sample_text(&format!("{stem}.md")), "| stands for |\n");
        assert_eq!(numbers(rows_shown(&page)), numbers(of_page), "{stem}");
        assert!(
            page.contains("composed: those of the text are for the rows of a draft, and ./show of the draft has them.")
        );
    }
}

fn kept(name: &str) -> String {
    let path = format!("{}/tests/shown/{name}.txt", env!("CARGO_MANIFEST_DIR"));
    std::fs::read_to_string(&path).unwrap_or_else(|error| panic!("{path}: {error}"))
}

#[test]
fn pages_are_as_they_are_kept() {
    assert_eq!(shown(file(&sample("pump.fit"))), kept("pump.fit"));
    assert_eq!(shown(file(&sample("hose.draft"))), kept("hose.draft"));
    assert_eq!(shown(file(&sample("hose.fit"))), kept("hose.fit"));
    assert_eq!(shown(answer(&sample("glued.fit"), &sample("glued.txt"))), kept("glued.answer"));
    assert_eq!(shown(answer(&sample("questions.fit"), &sample("questions.txt"))), kept("questions.answer"));
}

/// The pages of samples show what `./show` prints.
#[test]
fn pages_of_samples_show_what_is_printed() {
    for (stem, ending) in [("pump", "fit"), ("hose", "draft")] {
        let page = shown(answer(&sample(&format!("{stem}.{ending}")), &sample(&format!("{stem}.txt"))));
        let lines = indented(&page);
        assert!(sample_text(&format!("{stem}.md")).contains(&lines), "samples/{stem}.md lacks\n{lines}");
    }
}

/// Each sample with the answer that is beside it; a draft with the answer to what it becomes.
#[test]
fn every_answer_is_shown() {
    for stem in stems(".txt") {
        let text = sample(&format!("{stem}.txt"));
        for ending in [".fit", ".draft"].into_iter().filter(|ending| stems(ending).contains(&stem)) {
            let bytes = sample(&format!("{stem}{ending}"));
            let first = String::from_utf8_lossy(&text).split_whitespace().next().expect("a word").to_string();
            match answer(&bytes, &text) {
                Ending::Shown(page) => assert!(page.starts_with(&format!("{first}: ")), "{stem}: {page}"),
                Ending::Refused(lines) => assert_eq!(first, "REFUSED", "{stem}: {lines}"),
                Ending::Failed(sentence) => panic!("{stem}{ending}: {sentence}"),
            }
        }
    }
}

/// Decided here, a sample has the page of the answer beside it, and at the end what was lent.
#[test]
fn every_sample_is_decided() {
    for stem in stems(".txt") {
        let draft = stems(".draft").contains(&stem);
        let bytes = sample(&format!("{stem}.{}", if draft { "draft" } else { "fit" }));
        match (showing::fit(&bytes), answer(&bytes, &sample(&format!("{stem}.txt")))) {
            (Ending::Shown(decided), Ending::Shown(page)) => {
                assert_eq!(decided, format!("{page}Lent: 1024 nodes, 4096 edges, 4096 alternatives.\n"), "{stem}");
            }
            (Ending::Shown(decided), Ending::Refused(lines)) => {
                let enlarged = decided.ends_with("Lent: 2048 nodes, 4096 edges, 4096 alternatives.\n");
                assert!(stem == "needs" && enlarged || stem == "unconverted", "{stem}: {decided}{lines}");
            }
            (decided, page) => assert_eq!(decided, page, "{stem}"),
        }
    }
}

#[test]
fn refusals_tell_the_place() {
    let places = [
        ("order.fit", 6, "Judged as a rule file: row 4 names row 5, which is not lower than itself."),
        ("nameless.fit", 6, "Judged as a rule file: row 0 names row 1, which is not lower than itself."),
        (
            "edited.fit",
            4,
            "Judged as a rule file: text, rows, rules and trailer are told to have 526 bytes, and the file has 619.",
        ),
        (
            "listed.fit",
            16,
            "Judged as a rule file: rule 0 of the list is row 0, which is of kind 7 and speaks of roles.",
        ),
    ];
    for (name, number, place) in places {
        let lines = refused(file(&sample(name)));
        assert!(lines.starts_with(&format!("REFUSED {number}: ")) && lines.contains(place), "{name}: {lines}");
        assert!(lines.lines().last().is_some_and(|line| line.starts_with("What to do: ")), "{name}: {lines}");
        assert_eq!(refused(showing::fit(&sample(name))), lines);
        assert_eq!(refused(answer(&sample(name), format!("REFUSED {number}\n").as_bytes())), lines);
        assert!(
            failed(answer(&sample(name), b"CANNOT\nUSED 1 1 0\n")).contains(&format!("the file gets refusal {number}"))
        );
    }
    let draft_as_file = refused(answer(&sample("hose.draft"), b"REFUSED 5\n"));
    assert!(draft_as_file.contains("Judged as a rule file: row 5 is of kind 8: that is for drafts"), "{draft_as_file}");
    let short = refused(answer(&sample("needs.fit"), b"REFUSED 13 1024\n"));
    assert!(short.starts_with("REFUSED 13 1024: ") && short.contains("./show --fit"), "{short}");
    assert_eq!(refused(answer(&sample("needs.fit"), short.lines().next().expect("a line").as_bytes())), short);
}

/// A draft that is refused was judged as one.
#[test]
fn drafts_are_judged_as_drafts() {
    let rows = [[1, 0, 0, 0], [8, 0, 2, 0], [8, 0, 0, 0]];
    let draft = [b"text".as_slice(), rows.as_flattened(), &[4, 0, 3, 0, 2], b"FIT"].concat();
    let lines = refused(file(&draft));
    assert!(lines.contains("Judged as a draft: row 1 names row 2, which is not lower than itself."), "{lines}");
    assert!(refused(answer(&draft, b"REFUSED 6\n")).contains("Judged as a draft: row 1"));
    assert!(refused(answer(&draft, b"REFUSED 5\n")).contains("Judged as a rule file: row 1 is of kind 8"));
    let twelve = (0..63).map(|row| [9, 0, row, row]).collect::<Vec<_>>();
    let tower = [[1, 0, 0, 0].as_slice(), twelve.as_flattened(), &[0, 0, 64, 0, 63], b"FIT"].concat();
    assert!(shown(file(&tower)).starts_with("A draft of 64 rows and 0 rules"));
    let lines = refused(showing::fit(&tower));
    assert!(lines.starts_with("REFUSED 12: ") && lines.contains("say less"), "{lines}");
    assert_eq!(refused(answer(&tower, b"REFUSED 12\n")), lines);
    assert!(failed(answer(&tower, b"CANNOT\nUSED 1 0 0\n")).contains("refusal 12"));
}

/// An answer that is none, or of another file.
#[test]
fn strangers_are_told() {
    let pump = sample("pump.fit");
    let text = sample_text("pump.txt");
    let strangers = [
        (String::new(), "it is empty"),
        ("yes\n".to_string(), "first line"),
        ("CANNOT\n".to_string(), "USED"),
        ("CANNOT\nUSED 1 2\n".to_string(), "line 2"),
        ("REFUSED 9\n".to_string(), "there is no refusal \"REFUSED 9\""),
        ("REFUSED 13\n".to_string(), "there is no refusal \"REFUSED 13\""),
        ("REFUSED 6\n".to_string(), "the engine gives another"),
        ("REFUSED 12\n".to_string(), "the engine gives another"),
        ("REFUSED 13 588\n".to_string(), "the engine gives another"),
        ("REFUSED 11 5 7\n".to_string(), "the engine gives another"),
        (sample_text("acid.txt"), "the engine gives another"),
        (text.replace("USED 588", "USED 589"), "the engine gives another"),
        (text.replace("CAN 5 6", "CAN 5 7"), "has 11 lines"),
        (text.replace("CAN 5 6", "CAN 4 7"), "line 7 is not L"),
        (text.replace("CAN 5 6", "CAN -5 6"), "\"-5\" is no number"),
        (text.replace("CAN 5 6", "CAN 18446744073709551615 6"), "has 11 lines"),
        (text.replace("E 3 0", "E 2 0"), "line 6 is not E 3"),
        (text.replace("E 3 00", "E 3 0"), "line 6 is not E 3"),
        (text.replace("E 3 0000000000", "E 3 0000000002"), "the engine gives another"),
        (text.replace("L 3 2 1", "L 3 2 5"), "the engine gives another"),
        (text.replace("L 3 2 1", "L 3 32 1"), "the engine gives another"),
        (text.replace("L 3 2 1", "L 3 2222 1"), "line 13 is not L"),
        (text.replace("L 3 2 1", "L 3 2 1 "), "\"\" is no number"),
        (text.replace("L 1 6 4", "L 1 6 3"), "the engine gives another"),
        (text.replace("L 1 6 4", "L 1 0 3"), "the engine gives another"),
        (text.replace("00000000003fe061", "00000000003fe041"), "the engine gives another"),
        (sample_text("hose.txt"), "the engine gives another"),
    ];
    for (text, why) in strangers {
        let sentence = failed(answer(&pump, text.as_bytes()));
        assert!(sentence.contains(why), "{sentence} of\n{text}");
    }
    assert!(failed(answer(&pump, b"\xff")).contains("it is no text"));
    assert!(failed(answer(&sample("hose.fit"), text.as_bytes())).contains("does not belong"));
}

/// A draft may do without "not" and "if". Its answer is told of the rows that it is about: those of the draft as it
/// stands, or those of what it becomes.
#[test]
fn a_draft_without_not_and_if_has_two_answers() {
    let text = "Rows of the draft:\n0 holds water\n1 leaks\n2 leaks or holds water\nWanted in the draft:\n2 it\n";
    let mut draft = Table { text: text.into(), ..Table::default() };
    let [holds, leaks] = [draft.name(0), draft.name(1)];
    draft.wanted = draft.either(leaks, holds);
    let draft = draft.encode().expect("a draft");
    let mut area = [0; LONGEST_FILE];
    let converted = convert(&draft, &mut area).expect("a rule file").to_vec();
    let answers = [&draft, &converted].map(|file| fit(file, Sizes::USUAL));
    assert_ne!(answers[0], answers[1]);
    for (answer_to, source) in answers.iter().zip(["The words", "The answer is that of the rule file which"]) {
        let page = shown(answer(&draft, answer_to.as_bytes()));
        assert!(page.contains("part 0: leaks\n\n") && page.contains(source), "{page}");
    }
    assert!(shown(file(&draft)).ends_with("those of the text, and not proved.\n"));
    assert!(failed(answer(&converted, answers[0].as_bytes())).contains("the engine gives another"));
}

/// A list `Rows:` that was written for a draft is not used for what the draft becomes; the draft has its words.
#[test]
fn words_of_a_draft_are_not_told_of_other_rows() {
    for stem in stems(".draft") {
        let mut draft = Table::read_draft(&sample(&format!("{stem}.draft"))).expect("a draft");
        let text = String::from_utf8(draft.text.clone()).expect("a text");
        for (old, new) in [(" of the draft", ""), (" in the draft", "")] {
            draft.text = String::from_utf8(draft.text).expect("a text").replace(old, new).into();
        }
        assert_ne!(draft.text, text.into_bytes());
        let bytes = draft.encode().expect("a draft");
        assert!(shown(file(&bytes)).ends_with("those of the text, and not proved.\n"), "{stem}");
        let mut area = [0; LONGEST_FILE];
        let converted = convert(&bytes, &mut area).expect("a rule file");
        let page = shown(file(converted));
        assert!(page.contains("The words of the rows are composed: the text"), "{page}");
        let of_draft = shown(answer(&bytes, &sample(&format!("{stem}.txt"))));
        assert_eq!(of_draft, shown(answer(&sample(&format!("{stem}.draft")), &sample(&format!("{stem}.txt")))));
        assert_eq!(fit(converted, Sizes::USUAL), sample_text(&format!("{stem}.txt")));
    }
}
