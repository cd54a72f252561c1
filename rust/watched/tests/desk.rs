//! The desk with stand-ins for the engine, its converter and its catalogue: one that touches or leaves a byte, writes elsewhere, tells a
//! wrong count or gives no answer is told as broken.
//!
//! In order: the engine; lines that are no question; the converter; the engine with wanted rows; the catalogue.

use gumbyra::{catalogue, convert, fit, fit_wanted, Areas, Catalogue, Refusal, Verdict, WorkAreas};
use watched::lending::{Engine, WantedEngine};
use watched::{cataloguer, converter, Cataloguer, Converter, Desk, Lending};

const CAN: &[u8] = b"fit 010000000000010000464954 9 9 9 99 99";
const CANNOT: &[u8] = b"fit 0100000002000000030000010000030002464954 9 9 9 99 99";
const REFUSED: &[u8] = b"fit - 9 9 9 99 99";
const SHORT: &[u8] = b"fit 010000000000010000464954 2 9 9 99 99";
/// A row of kind 7, wanted.
const INCLUSION: &[u8] = b"fit 070000000000010000464954 9 9 9 99 99";

fn answer(engine: Engine, question: &[u8]) -> String {
    Desk::new(Lending::to(engine), Converter::new(), Cataloguer::new()).answer(question)
}

#[test]
fn the_engine_breaks_no_promise() {
    assert_eq!(answer(fit, CAN), "CAN 1 0;USED 3 2 0;E 0 0000000000000001");
    assert_eq!(answer(fit, CANNOT), "CANNOT;USED 3 2 0");
    assert_eq!(answer(fit, REFUSED), "REFUSED 1");
    assert_eq!(answer(fit, SHORT), "REFUSED 13 2");
    assert_eq!(answer(fit, INCLUSION), "REFUSED 16");
}

/// Touches the last byte of a work area and of an example area.
fn touching<'a>(file: &[u8], areas: Areas<'a>) -> Result<Verdict<'a>, Refusal> {
    let (Some(edge), Some(element)) = (areas.edges.last_mut(), areas.elements.last_mut()) else { panic!("no bytes") };
    (*edge, *element) = (edge.wrapping_add(1), element.wrapping_add(1));
    fit(file, areas)
}

#[test]
fn a_touched_byte_is_told() {
    assert_eq!(answer(touching, CAN), "BROKEN elements: bytes past the result changed");
    assert_eq!(answer(touching, CANNOT), "BROKEN elements: the area changed");
    assert_eq!(answer(touching, REFUSED), "BROKEN edges: the area changed");
    assert_eq!(answer(touching, INCLUSION), "BROKEN edges: the area changed");
    assert_eq!(answer(touching, SHORT), "BROKEN elements: the area changed");
}

/// Leaves the last eight bytes of a work area as they were.
fn leaving<'a>(file: &[u8], areas: Areas<'a>) -> Result<Verdict<'a>, Refusal> {
    let all_but_eight = areas.nodes.len() - 8;
    fit(file, Areas { nodes: &mut areas.nodes[..all_but_eight], ..areas })
}

#[test]
fn a_byte_left_over_is_told() {
    assert_eq!(answer(leaving, CAN), "BROKEN nodes: a byte is not zero");
    assert_eq!(answer(leaving, CANNOT), "BROKEN nodes: a byte is not zero");
    assert_eq!(answer(leaving, SHORT), "BROKEN nodes: a byte is not zero");
    assert_eq!(answer(leaving, REFUSED), "REFUSED 1");
}

/// Tells one record more than counted as lent.
fn miscounting<'a>(file: &[u8], areas: Areas<'a>) -> Result<Verdict<'a>, Refusal> {
    fit(file, areas).map_err(|refusal| match refusal {
        Refusal::NodesShort { lent } => Refusal::NodesShort { lent: lent + 1 },
        other => other,
    })
}

#[test]
fn a_wrong_count_is_told() {
    assert_eq!(answer(miscounting, SHORT), "BROKEN nodes: 3 records are told, 2 counted as lent");
    assert_eq!(answer(miscounting, REFUSED), "REFUSED 1");
}

fn failing<'a>(_: &[u8], _: Areas<'a>) -> Result<Verdict<'a>, Refusal> {
    panic!("no answer\nof the engine")
}

#[test]
fn a_call_without_answer_is_told() {
    assert_eq!(answer(failing, CAN), "BROKEN no answer of the engine");
}

#[test]
fn a_line_that_is_no_question_is_told() {
    let other_words = [b"".as_slice(), b" ", b"fits", b"FIT - 1 1 1 1 1", b"\xff\xfe", b"fit\t- 1 1 1 1 1"];
    assert!(other_words
        .iter()
        .all(|line| answer(fit, line) == "UNKNOWN the words are: fit, convert, wanted, catalogue"));
    let other_fits = [b"fit".as_slice(), b"fit ", b"fit 0 1 1 1 1 1", b"fit - 1 1 1 1", b"fit - 1 1 1 1 1\r"];
    assert!(other_fits.iter().all(|line| answer(fit, line) == "UNKNOWN fit FILE N E A EB LB"));
    let other_converts =
        [b"convert".as_slice(), b"convert ", b"convert 0 1", b"convert -", b"convert - 1 1", b"convert - 1\r"];
    assert!(other_converts.iter().all(|line| answer(fit, line) == "UNKNOWN convert DRAFT AREA"));
    let other_wanteds =
        [b"wanted".as_slice(), b"wanted - 1 1 1 1 1", b"wanted - 0 1 1 1 1 1", b"wanted - - 1 1 1 1 1\r"];
    assert!(other_wanteds.iter().all(|line| answer(fit, line) == "UNKNOWN wanted FILE ROWS N E A EB LB"));
    let other_catalogues =
        [b"catalogue".as_slice(), b"catalogue - 1 1 1", b"catalogue - 1 1 1 1 1", b"catalogue - - 1 1 1"];
    assert!(other_catalogues.iter().all(|line| answer(fit, line) == "UNKNOWN catalogue FILE AREA N E A"));
}

/// A name and its opposite, wanted, in an area with some bytes more.
const CONVERTED: &[u8] = b"convert 01000000080000000000020001464954 20";
const TOO_LONG: &[u8] = b"convert 01000000080000000000020001464954 11";
const NO_DRAFT: &[u8] = b"convert - 20";
const OF_INCLUSION: &[u8] = b"convert 070000000000010000464954 20";

fn answer_draft(call: converter::Call, question: &[u8]) -> String {
    Desk::new(Lending::new(), Converter::to(call), Cataloguer::new()).answer(question)
}

#[test]
fn the_converter_breaks_no_promise() {
    assert_eq!(answer_draft(convert, CONVERTED), "OK 020000000000010000464954");
    assert_eq!(answer_draft(convert, TOO_LONG), "REFUSED 12");
    assert_eq!(answer_draft(convert, NO_DRAFT), "REFUSED 1");
    assert_eq!(answer_draft(convert, OF_INCLUSION), "REFUSED 16");
}

/// Touches the last byte of the area.
fn touching_last<'a>(draft: &[u8], area: &'a mut [u8]) -> Result<&'a [u8], Refusal> {
    let last = area.last_mut().expect("bytes");
    *last = last.wrapping_add(1);
    convert(draft, area)
}

#[test]
fn a_touched_byte_of_the_area_is_told() {
    assert_eq!(answer_draft(touching_last, CONVERTED), "BROKEN area: bytes past the result changed");
    assert_eq!(answer_draft(touching_last, TOO_LONG), "BROKEN area: the area changed");
    assert_eq!(answer_draft(touching_last, NO_DRAFT), "BROKEN area: the area changed");
    assert_eq!(answer_draft(touching_last, OF_INCLUSION), "BROKEN area: the area changed");
}

/// Writes one byte further on and gives that part.
fn shifted<'a>(draft: &[u8], area: &'a mut [u8]) -> Result<&'a [u8], Refusal> {
    convert(draft, &mut area[1..])
}

#[test]
fn a_file_at_another_place_is_told() {
    assert_eq!(answer_draft(shifted, CONVERTED), "BROKEN the file is not at the start of the area");
    assert_eq!(answer_draft(shifted, TOO_LONG), "REFUSED 12");
}

fn failing_draft<'a>(_: &[u8], _: &'a mut [u8]) -> Result<&'a [u8], Refusal> {
    panic!("no answer\nof the converter")
}

#[test]
fn a_conversion_without_answer_is_told() {
    assert_eq!(answer_draft(failing_draft, CONVERTED), "BROKEN no answer of the converter");
}

/// A name and its opposite, both wanted, neither, and no row.
const BOTH: &[u8] = b"wanted 01000000020000000000020009464954 0001 9 9 9 99 99";
const NEITHER: &[u8] = b"wanted 01000000020000000000020009464954 - 9 9 9 99 99";
const NO_ROW: &[u8] = b"wanted 01000000020000000000020000464954 0002 9 9 9 99 99";

fn answer_wanted(engine: WantedEngine, question: &[u8]) -> String {
    Desk::new(Lending::new().with_wanted(engine), Converter::new(), Cataloguer::new()).answer(question)
}

#[test]
fn with_wanted_rows_the_engine_breaks_no_promise() {
    assert_eq!(answer_wanted(fit_wanted, BOTH), "CANNOT;USED 2 1 0");
    assert_eq!(answer_wanted(fit_wanted, NEITHER), "CAN 1 0;USED 3 2 0;E 0 0000000000000002");
    assert_eq!(answer_wanted(fit_wanted, NO_ROW), "REFUSED 8");
}

/// Touches the last byte of an example area, and of a work area before a refusal is sure.
fn touching_wanted<'a>(file: &[u8], wanted: &[u8], areas: Areas<'a>) -> Result<Verdict<'a>, Refusal> {
    let (Some(node), Some(link)) = (areas.nodes.last_mut(), areas.links.last_mut()) else { panic!("no bytes") };
    (*node, *link) = (node.wrapping_add(1), link.wrapping_add(1));
    fit_wanted(file, wanted, areas)
}

#[test]
fn with_wanted_rows_a_touched_byte_is_told() {
    assert_eq!(answer_wanted(touching_wanted, BOTH), "BROKEN links: the area changed");
    assert_eq!(answer_wanted(touching_wanted, NEITHER), "BROKEN links: bytes past the result changed");
    assert_eq!(answer_wanted(touching_wanted, NO_ROW), "BROKEN nodes: the area changed");
}

/// One name with both rows, its table in just one byte, in more, in none; and a file whose own wanted row is no row.
const JUST: &[u8] = b"catalogue 01000000020000000000020000464954 1 9 9 9";
const MORE: &[u8] = b"catalogue 01000000020000000000020000464954 5 9 9 9";
const NO_ROOM: &[u8] = b"catalogue 01000000020000000000020000464954 0 9 9 9";
const NO_FILE: &[u8] = b"catalogue 01000000020000000000020002464954 5 9 9 9";

fn answer_kinds(call: cataloguer::Call, question: &[u8]) -> String {
    Desk::new(Lending::new(), Converter::new(), Cataloguer::to(call)).answer(question)
}

#[test]
fn the_catalogue_breaks_no_promise() {
    let answers = [JUST, MORE, NO_ROOM, NO_FILE].map(|question| answer_kinds(catalogue, question));
    assert_eq!(answers, ["TABLE 1 01", "TABLE 1 01", "REFUSED 17", "REFUSED 8"]);
}

/// Touches the last byte of the table's area.
fn touching_table<'a>(file: &[u8], work: WorkAreas, table: &'a mut [u8]) -> Result<Catalogue<'a>, Refusal> {
    table.iter_mut().last().into_iter().for_each(|last| *last = last.wrapping_add(1));
    catalogue(file, work, table)
}

/// Touches the last byte of a work area.
fn touching_work<'a>(file: &[u8], work: WorkAreas, table: &'a mut [u8]) -> Result<Catalogue<'a>, Refusal> {
    work.alternatives.iter_mut().last().into_iter().for_each(|last| *last = last.wrapping_add(1));
    catalogue(file, work, table)
}

#[test]
fn a_byte_that_a_catalogue_touched_is_told() {
    let answers = [JUST, MORE, NO_ROOM, NO_FILE].map(|question| answer_kinds(touching_table, question));
    let changed = ["BROKEN table: bytes past the result changed", "REFUSED 17", "BROKEN table: the area changed"];
    assert_eq!(answers, ["TABLE 1 01", changed[0], changed[1], changed[2]]);
    let answers = [JUST, MORE, NO_ROOM, NO_FILE].map(|question| answer_kinds(touching_work, question));
    let changed = "BROKEN alternatives: the area changed";
    assert_eq!(answers, ["TABLE 1 01", "TABLE 1 01", changed, changed]);
}

/// Leaves the last bytes of a work area as they were.
fn leaving_work<'a>(file: &[u8], work: WorkAreas, table: &'a mut [u8]) -> Result<Catalogue<'a>, Refusal> {
    let all_but_eight = work.edges.len() - 8;
    catalogue(file, WorkAreas { edges: &mut work.edges[..all_but_eight], ..work }, table)
}

/// Writes one byte further on and gives that part.
fn shifted_table<'a>(file: &[u8], work: WorkAreas, table: &'a mut [u8]) -> Result<Catalogue<'a>, Refusal> {
    catalogue(file, work, &mut table[1..])
}

fn failing_catalogue<'a>(_: &[u8], _: WorkAreas, _: &'a mut [u8]) -> Result<Catalogue<'a>, Refusal> {
    panic!("no answer\nof the catalogue")
}

#[test]
fn other_faults_of_a_catalogue_are_told() {
    assert_eq!(answer_kinds(leaving_work, MORE), "BROKEN edges: a byte is not zero");
    assert_eq!(answer_kinds(leaving_work, NO_ROOM), "REFUSED 17");
    assert_eq!(answer_kinds(shifted_table, MORE), "BROKEN the table is not at the start of the area");
    assert_eq!(answer_kinds(failing_catalogue, MORE), "BROKEN no answer of the catalogue");
}
