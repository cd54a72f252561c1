//! Long chains, large examples, and updates and puts that nest deep, on a stack of 1 MiB, in areas of the most records that count: by the
//! engine's call, and by its call with wanted rows, which has the file's own row to go by and is another copy of the code; and updates and
//! puts that nest deep in an entry of a catalogue.

use compare::files::chains::{
    clocked_line, delay_line, ladder, shift_register, with_other_name, DEEPEST, OTHER_NAME, RUNGS, RUNGS_AGAIN,
    RUNGS_OF_KINDS, THOUSAND_STATES,
};
use compare::files::parts::Parts;
use compare::files::wide::{wide, wide_with_inclusions};
use compare::{on_stack, STACK};
use plain::catalogue::{CAN, CANNOT};
use plain::{print, Lent, Page};
use watched::{Cataloguer, Lending};

/// The engine's two calls and the plain program agree on a file. The plain one runs where it has room.
fn check(file: Vec<u8>, verdict: &str) {
    let lent = Lent::most();
    let expected = plain::answer(&file, &lent);
    assert!(print(&expected).starts_with(verdict), "{expected:?}");
    let own = [Parts::of(&file).wanted];
    let of_list = file.clone();
    let answer = on_stack(STACK, move || Lending::new().answer(&file, &lent));
    assert_eq!(answer, expected);
    let answer = on_stack(STACK, move || Lending::new().answer_wanted(&of_list, &own, &lent));
    assert_eq!(answer, expected, "by a list of the file's own row");
}

/// The catalogue and the plain program agree on a file with name 0, which everything has, and another name. Whether every 0 is one of the
/// others is the entry of a deep run.
fn check_kinds(file: Vec<u8>, entry: u8) {
    let (lent, names) = (Lent::most(), vec![0, OTHER_NAME]);
    let expected = plain::catalogue(&file, 4, &lent);
    assert_eq!(expected, Page::Filled { names, table: vec![CANNOT, entry, CANNOT, CANNOT] });
    let page = on_stack(STACK, move || Cataloguer::new().catalogue(&file, 4, &lent));
    assert_eq!(page, expected);
}

#[test]
fn never_goes_back_through_a_long_chain() {
    check(shift_register(true), "CANNOT\n");
    check(shift_register(false), "CAN ");
}

#[test]
fn never_goes_through_a_thousand_states() {
    check(delay_line(THOUSAND_STATES, true), "CANNOT\n");
    check(delay_line(THOUSAND_STATES, false), "CAN ");
}

#[test]
fn updates_nest_deep() {
    check(clocked_line(DEEPEST, true), "CANNOT\n");
    check(clocked_line(DEEPEST, false), "CAN ");
}

#[test]
fn large_examples_of_64_rows() {
    wide().into_iter().chain(wide_with_inclusions()).for_each(|file| check(file, "CAN "));
}

#[test]
fn puts_nest_deep() {
    check(ladder(RUNGS, false), "CAN ");
    check(ladder(RUNGS_AGAIN, true), "REFUSED 14 4096\n");
}

#[test]
fn entries_of_a_catalogue_nest_deep() {
    check_kinds(with_other_name(&clocked_line(DEEPEST, true)), CANNOT);
    check_kinds(with_other_name(&clocked_line(DEEPEST, false)), CAN);
    check_kinds(with_other_name(&ladder(RUNGS_OF_KINDS, false)), CAN);
}
