//! Tables (`gumbyra_table`) against the engine: what they refuse and with which number, where they say that a file is
//! wrong, and what they write. The engine is asked with nothing lent: then a file that passes every check gets refusal
//! 13, and a draft 12.

use compare::counts::{cases_of_checks, Tally};
use compare::files::inclusions::with_inclusions;
use compare::files::kinds::random_question as random_kinds;
use compare::files::misplaced::with_misplaced;
use compare::files::parts::{Parts, INCLUSION};
use compare::files::wanted::random_question as random_wanted;
use compare::protocol::cases::{catalogue_cases, wanted_cases};
use compare::{cases, damage, draft_cases, encode, random_bytes, random_draft, random_file, Prng, Shape};
use gumbyra::{convert, Refusal, Sizes, Space};
use gumbyra_table::{Fault, Place, Row, Table};

const SHAPE: Shape = Shape { names: 2, roles: 2, compound: 12, rules: 4, text: 40 };
const NOTHING: Sizes = Sizes { nodes: 0, edges: 0, alternatives: 0, elements: 0, links: 0 };
const ROUNDS: usize = 60_000;
/// Each case came at least so often.
const OFTEN: usize = 50;

/// Is it asked for as a rule file or as a draft?
#[derive(Clone, Copy, PartialEq, Eq)]
enum As {
    File,
    Draft,
}

/// The refusal of the check that fails, by the engine or the converter.
fn refused(file: &[u8], read_as: As) -> Option<Refusal> {
    let refusal = match read_as {
        As::File => Space::with(NOTHING).fit(file).expect_err("no verdict without a node"),
        As::Draft => convert(file, &mut []).expect_err("no file without a byte"),
    };
    let is_accepted = match read_as {
        As::File => matches!(refusal, Refusal::NodesShort { .. }),
        As::Draft => refusal == Refusal::ResultTooLong,
    };
    (!is_accepted).then_some(refusal)
}

/// Its number; 0 if none fails.
fn refusal(file: &[u8], read_as: As) -> u8 {
    refused(file, read_as).map_or(0, |refusal| refusal.number())
}

/// What the wrapper tells of a refusal.
fn told(refusal: Refusal, file: &[u8], read_as: As) -> Option<Fault> {
    match read_as {
        As::File => refusal.fault(file),
        As::Draft => refusal.fault_of_draft(file),
    }
}

fn read(file: &[u8], read_as: As) -> Result<Table, Fault> {
    match read_as {
        As::File => Table::read(file),
        As::Draft => Table::read_draft(file),
    }
}

/// How often each check refused, and each place was told.
#[derive(Default)]
struct Counts {
    checks: Tally,
    places: Tally,
}

impl Counts {
    fn assert_often(&self, counted: &str, least: usize) {
        self.checks.assert_often(counted, least);
        self.places.assert_often(counted, least);
    }
}

/// A table is refused as the engine refuses it and where it is wrong; else its bytes come back.
fn check(file: &[u8], read_as: As, counts: &mut Counts) {
    let (refusal, table) = (refused(file, read_as), read(file, read_as));
    let expected = refusal.map(|refusal| refusal.number());
    assert_eq!(table.as_ref().err().map(|fault| fault.number()), expected, "{file:02x?}");
    counts.checks.add(cases_of_checks(|number| expected == Some(number)));
    match table {
        Ok(table) => assert_eq!(table.encode().as_deref(), Ok(file)),
        Err(fault) => {
            let is_right = is_right_place(fault, file, read_as);
            assert!(is_right, "{fault}: {file:02x?}");
            let of_refusal = refusal.and_then(|refusal| told(refusal, file, read_as));
            assert_eq!(of_refusal, (fault.number() > 4).then_some(fault), "{file:02x?}");
            counts.places.add(cases_of_places(fault));
        }
    }
}

/// Which place of which refusal.
fn cases_of_places(fault: Fault) -> Vec<(&'static str, bool)> {
    let (number, place) = (fault.number(), fault.place());
    vec![
        ("1 to 4, the file", number <= 4 && place == Place::File),
        ("5, a row", number == 5 && matches!(place, Place::Row(_))),
        ("6, a row", number == 6 && matches!(place, Place::Row(_))),
        ("7, two rows", number == 7 && matches!(place, Place::Rows(..))),
        ("8, a rule", number == 8 && matches!(place, Place::Rule(_))),
        ("8, the wanted row", number == 8 && place == Place::Wanted),
        ("16, a row", number == 16 && matches!(place, Place::Row(_))),
        ("16, a rule", number == 16 && matches!(place, Place::Rule(_))),
        ("16, the wanted row", number == 16 && place == Place::Wanted),
    ]
}

/// Is the place told the first that is wrong? With it the engine gives the number to a file that ends there, and to one
/// that ends before it doesn't.
fn is_right_place(fault: Fault, file: &[u8], read_as: As) -> bool {
    let (number, place) = (fault.number(), fault.place());
    if number <= 4 {
        return place == Place::File;
    }
    let parts = Parts::of(file);
    if number == 16 && parts.rows.iter().all(|row| row[0] == INCLUSION) {
        return place == if parts.rules.is_empty() { Place::Wanted } else { Place::Rule(0) };
    }
    let is_refused = |rows: usize, rules: usize, wanted: u8| {
        let (rows, rules) = (parts.rows[..rows].to_vec(), parts.rules[..rules].to_vec());
        refusal(&Parts { text: Vec::new(), rows, rules, wanted }.bytes(), read_as) == number
    };
    let (rows, rules, other) = (parts.rows.len(), parts.rules.len(), a_row_of_parts(&parts));
    match place {
        Place::File => false,
        Place::Row(row) => {
            let row = usize::from(row);
            // Before the first row of parts none can be wrong in the way of 16: it would name a row, and so be one.
            let is_first = row == 0 || number == 16 && row <= usize::from(other) || !is_refused(row, 0, other);
            is_first && is_refused(row + 1, 0, other)
        }
        Place::Rows(first, second) => {
            let [first, second] = [first, second].map(usize::from);
            first < second && parts.rows[first] == parts.rows[second] && !is_refused(second, 0, other)
        }
        Place::Rule(at) => is_refused(rows, at + 1, other) && !is_refused(rows, at, other),
        Place::Wanted => is_refused(rows, rules, parts.wanted) && !is_refused(rows, rules, other),
    }
}

/// The first row that is not of kind 7, and so can be wanted; 0 if there is none.
fn a_row_of_parts(parts: &Parts) -> u8 {
    parts.rows.iter().position(|row| row[0] != INCLUSION).unwrap_or(0) as u8
}

/// A rule file or a draft, whole or damaged, with kind 7 rows in one of two and one of these in a wrong place; or
/// random bytes.
fn random_question(prng: &mut Prng) -> Vec<u8> {
    let mut file = if prng.below(2) == 0 { random_file(prng, SHAPE) } else { random_draft(prng, SHAPE) };
    if prng.below(2) == 0 {
        file = with_inclusions(prng, &file, SHAPE.roles);
    }
    match prng.below(8) {
        0 => random_bytes(prng),
        1 => random_kinds(prng, SHAPE),
        2 => with_misplaced(prng, &file).map_or(file, |(_, wrong)| wrong),
        3..6 => {
            damage(prng, &mut file);
            file
        }
        _ => file,
    }
}

#[test]
fn random_files_and_drafts_are_refused_alike() {
    let mut prng = Prng::new(171);
    let (mut of_files, mut of_drafts) = (Counts::default(), Counts::default());
    for _ in 0..ROUNDS {
        let file = random_question(&mut prng);
        check(&file, As::File, &mut of_files);
        check(&file, As::Draft, &mut of_drafts);
    }
    of_files.assert_often("random files", OFTEN);
    of_drafts.assert_often("random drafts", OFTEN);
}

#[test]
fn the_vectors_are_refused_alike() {
    let (mut of_files, mut of_drafts) = (Counts::default(), Counts::default());
    let files = cases().into_iter().map(|case| case.file).chain(draft_cases().into_iter().map(|case| case.draft));
    let wanted = wanted_cases().into_iter().map(|(case, _, _)| case.file);
    let kinds = catalogue_cases().into_iter().map(|(case, _, _)| case.file);
    for file in files.chain(wanted).chain(kinds) {
        check(&file, As::File, &mut of_files);
        check(&file, As::Draft, &mut of_drafts);
    }
    // The rarest, a rule of kind 7, comes with one of the files.
    of_files.assert_often("vectors", 1);
    of_drafts.assert_often("vectors as drafts", 1);
}

/// The refusal of the check that a file with a list of wanted rows fails.
fn refused_wanting(file: &[u8], list: &[u8]) -> Option<Refusal> {
    let refusal = Space::with(NOTHING).fit_wanted(file, list).expect_err("no verdict without a node");
    (!matches!(refusal, Refusal::NodesShort { .. })).then_some(refusal)
}

/// Where a row of the list is told to be wrong, without the list there is no such refusal, and with one row of it there
/// is.
#[test]
fn lists_of_wanted_rows_are_refused_alike() {
    let mut prng = Prng::new(172);
    let (mut checks, mut lists) = (Tally::default(), Tally::default());
    for _ in 0..ROUNDS {
        let (file, list) = random_wanted(&mut prng, SHAPE);
        let (refusal, fault) = (refused_wanting(&file, &list), Table::read_wanted(&file, &list).err());
        let expected = refusal.map(|refusal| refusal.number());
        assert_eq!(fault.map(|fault| fault.number()), expected, "{file:02x?} wanting {list:?}");
        checks.add(cases_of_checks(|number| expected == Some(number)));
        let told = refusal.and_then(|refusal| refusal.fault_wanted(&file, &list));
        assert_eq!(told, fault.filter(|fault| fault.number() > 4), "{file:02x?} wanting {list:?}");
        let is_of_list = fault.is_some_and(|fault| fault.place() == Place::Wanted);
        let by_one = refusal.is_some() && list.iter().any(|&row| refused_wanting(&file, &[row]) == refusal);
        assert_eq!(is_of_list, by_one && refused_wanting(&file, &[]) != refusal, "{file:02x?} wanting {list:?}");
        let is_own_wrong = refusal.is_none() && Table::read(&file).is_err();
        lists.add(vec![("one of the list is wrong", is_of_list), ("the file's own row is wrong", is_own_wrong)]);
    }
    checks.assert_often("files with lists", OFTEN);
    lists.assert_often("files with lists", OFTEN);
}

// ---- what is written

/// The texts of the samples that are accepted, and not converted, are what `tell` writes of their words.
#[test]
fn samples_are_told_in_their_words() {
    let folder = concat!(env!("CARGO_MANIFEST_DIR"), "/../../samples");
    let mut told = 0;
    for entry in std::fs::read_dir(folder).expect("samples") {
        let path = entry.expect("a sample").path();
        let file = std::fs::read(&path).expect("a sample");
        let is_converted = path.with_extension("draft").exists() && path.extension().is_some_and(|end| end == "fit");
        if is_converted || !file.ends_with(b"FIT") {
            continue;
        }
        let Ok(table) = Table::read(&file).or(Table::read_draft(&file)) else { continue };
        let mut other = Table { text: Vec::new(), ..table.clone() };
        other.tell(&table.words());
        assert_eq!(String::from_utf8(other.text), String::from_utf8(table.text), "{}", path.display());
        told += 1;
    }
    println!("{told} samples told");
    assert!(told >= 12);
}

/// A row of any bytes that it can hold, in a file or not.
fn random_row(prng: &mut Prng) -> Row {
    let bound = [4, 40, 256][prng.below(3)];
    let [kind, role, left, right] = [9, bound, bound, bound].map(|bound| prng.byte_below(bound));
    match kind {
        0 => Row::Name(left),
        1 => Row::NotName(left),
        2 => Row::Both(left, right),
        3 => Row::Either(left, right),
        4 => Row::All { role, row: left },
        5 => Row::Some { role, row: left },
        6 => Row::Within { role, wider: left },
        7 => Row::Not(left),
        _ => Row::If(left, right),
    }
}

/// One part of the table is another, right or wrong.
fn change(prng: &mut Prng, table: &mut Table) {
    let at = prng.below(table.rows.len());
    match prng.below(10) {
        0 => table.rows[at] = random_row(prng),
        1 => table.rows.push(random_row(prng)),
        2 => table.rows.push(table.rows[at]),
        3 => table.rows.swap(at, 0),
        4 => table.rules.push(prng.byte_below(table.rows.len() + 3)),
        5 => table.wanted = prng.byte_below(table.rows.len() + 3),
        6 => table.text.resize(4096 - 4 * table.rows.len() - 12 + prng.below(8), 0),
        7 => table.rules.resize(62 + prng.below(6), 0),
        8 => table.rows.extend((0..70 - table.rows.len() as u8).map(Row::NotName)),
        _ => table.rows.truncate(at),
    }
}

/// A table that was changed once or twice is written if the engine takes its bytes; if not, it is refused with the
/// engine's number.
#[test]
fn what_is_written_is_accepted() {
    let mut prng = Prng::new(173);
    let (mut refused, mut written) = (Tally::default(), Tally::default());
    for _ in 0..ROUNDS {
        let file = if prng.below(2) == 0 { random_file(&mut prng, SHAPE) } else { random_draft(&mut prng, SHAPE) };
        let mut table = Table::read_draft(&with_inclusions(&mut prng, &file, SHAPE.roles)).expect("a draft");
        change(&mut prng, &mut table);
        if prng.below(2) == 0 && !table.rows.is_empty() {
            change(&mut prng, &mut table);
        }
        let rows: Vec<[u8; 4]> = table.rows.iter().map(|row| row.bytes()).collect();
        let bytes = encode(&table.text, &rows, &table.rules, table.wanted);
        let read_as = if table.is_draft() { As::Draft } else { As::File };
        let encoded = table.encode();
        let number = encoded.as_ref().map_or_else(|fault| fault.number(), |_| 0);
        assert_eq!(number, refusal(&bytes, read_as), "{table:?}");
        let (is_written, is_draft) = (encoded.is_ok(), table.is_draft());
        if let Ok(encoded) = encoded {
            assert_eq!((&encoded, read(&encoded, read_as)), (&bytes, Ok(table)));
        }
        written.add(vec![("a rule file", is_written && !is_draft), ("a draft", is_written && is_draft)]);
        // A table has its mark and its extent by itself.
        let cases = cases_of_checks(|check| check == number);
        refused.add(cases.into_iter().filter(|(check, _)| !["refusal 2", "refusal 4"].contains(check)).collect());
    }
    written.assert_often("tables that are written", 1000);
    refused.assert_often("tables", OFTEN);
}
