//! The text of a file, the order of the checks and the kinds of a draft.

use compare::encode;
use plain::{text, text_wanting, Draft, RuleFile};

const ROWS: [[u8; 4]; 3] = [[1, 0, 0, 0], [5, 31, 0, 0], [6, 0, 1, 0]];

#[test]
fn the_text_is_the_leading_part_of_the_file() {
    let bytes = encode(b"flush valve", &ROWS, &[1, 1], 2);
    let file = RuleFile::read(&bytes).expect("the file is accepted");
    assert_eq!(file.text, b"flush valve");
    assert_eq!(file.text.as_ptr(), bytes.as_ptr(), "uncopied");
    assert_eq!((file.tbox, file.wanted), (vec![1, 1], vec![2]));
}

#[test]
fn the_text_of_a_refused_file_is_the_empty_part_at_its_start() {
    let mut bytes = encode(b"flush valve", &ROWS, &[1, 1], 2);
    assert_eq!(text(&bytes), b"flush valve");
    *bytes.last_mut().expect("a byte") = 0;
    assert_eq!((text(&bytes).as_ptr(), text(&bytes).len()), (bytes.as_ptr(), 0));
}

#[test]
fn the_text_goes_by_the_wanted_rows_that_are_given() {
    let texts = |own: u8, wanted: &[u8]| {
        let bytes = encode(b"abc", &[[1, 0, 0, 0], [7, 0, 2, 0]], &[0], own);
        let part = |text: &[u8]| (text.as_ptr() == bytes.as_ptr()).then(|| text.to_vec()).expect("its start");
        [part(text_wanting(&bytes, wanted)), part(text(&bytes))]
    };
    let (abc, none) = (b"abc".to_vec(), Vec::new());
    assert_eq!(texts(0, &[0]), [abc.clone(), abc.clone()]);
    // The file's own is no row, or of kind 7; the list has a row, or none at all.
    assert_eq!([texts(9, &[0]), texts(9, &[])], [[abc.clone(), none.clone()], [abc.clone(), none.clone()]]);
    assert_eq!([texts(1, &[0]), texts(1, &[])], [[abc.clone(), none.clone()], [abc.clone(), none.clone()]]);
    // The list names no row, or one of kind 7.
    assert_eq!([texts(0, &[7]), texts(0, &[0, 1])], [[none.clone(), abc.clone()], [none.clone(), abc]]);
    assert_eq!(texts(9, &[2]), [none.clone(), none]);
}

#[test]
fn each_check_covers_all_rows_before_the_next() {
    let refusal = |rows: &[[u8; 4]], rules: &[u8], wanted: u8| RuleFile::read(&encode(b"", rows, rules, wanted)).err();
    let name = [1, 0, 0, 0];
    // An argument that isn't lower in row 0, but a bad kind in row 1; a repeat before an argument that isn't lower; and so on.
    assert_eq!(refusal(&[[3, 0, 0, 0], [7, 0, 0, 1]], &[9], 9), Some(5));
    assert_eq!(refusal(&[name, name, [3, 0, 2, 0]], &[9], 9), Some(6));
    assert_eq!(refusal(&[name, name], &[9], 9), Some(7));
    assert_eq!(refusal(&[name], &[1], 0), Some(8));
    assert_eq!(refusal(&[name], &[0], 1), Some(8));
    assert_eq!(refusal(&[name, [7, 0, 0, 0]], &[1], 2), Some(8));
    assert_eq!(refusal(&[name, [7, 0, 0, 0]], &[1], 0), Some(16));
    assert_eq!(refusal(&[name], &[0], 0), None);
}

#[test]
fn a_draft_has_two_kinds_more() {
    let name = [1, 0, 0, 0];
    let refusals = |row: [u8; 4]| {
        let bytes = encode(b"", &[name, row], &[], 1);
        (RuleFile::read(&bytes).err(), Draft::read(&bytes).err())
    };
    assert_eq!(refusals([3, 0, 0, 0]), (None, None));
    assert_eq!(refusals([8, 0, 0, 0]), (Some(5), None));
    assert_eq!(refusals([9, 0, 0, 0]), (Some(5), None));
    // An unused byte, an argument that isn't lower: check 6 follows check 5.
    for row in [[10, 0, 0, 0], [0, 0, 0, 0], [8, 1, 0, 0], [8, 0, 0, 1], [9, 1, 0, 0]] {
        assert_eq!(refusals(row), (Some(5), Some(5)), "{row:?}");
    }
    for row in [[8, 0, 1, 0], [9, 0, 1, 0], [9, 0, 0, 1]] {
        assert_eq!(refusals(row), (Some(5), Some(6)), "{row:?}");
    }
}
