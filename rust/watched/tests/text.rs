//! The text of a file from the engine: that part of the file which the plain program says, uncopied. Of a file with its own wanted row,
//! then of one with a list of wanted rows in its place.

use compare::counts::{cases_of_checks, Tally};
use compare::files::inclusions::with_inclusions;
use compare::files::wanted::random_question;
use compare::files::{encode, Row};
use compare::protocol::cases::wanted_cases;
use compare::{cases, damage, random_bytes, random_file, Prng, Shape};
use gumbyra::{text, text_wanted};
use plain::RuleFile;

const SHAPE: Shape = Shape { names: 2, roles: 2, compound: 12, rules: 4, text: 40 };
const ROWS: [Row; 2] = [[1, 0, 0, 0], [6, 1, 0, 0]];
/// A file of these rows and one rule with the longest text that check 1 lets pass.
const LONGEST_TEXT: usize = 4096 - 4 * ROWS.len() - 1 - 8;

/// How often each refusal came, in checking order; 0 counts accepted files with a text, the place after the refusals those without.
type Kinds = [usize; NO_TEXT + 1];
const CHECKS: [u8; 9] = [1, 2, 3, 4, 5, 6, 7, 8, 16];
const NO_TEXT: usize = 1 + CHECKS.len();

fn check(file: &[u8], kinds: &mut Kinds) {
    let (text, expected) = (text(file), plain::text(file));
    assert_eq!((text.as_ptr(), text.len()), (expected.as_ptr(), expected.len()), "{file:02x?}");
    let kind = match RuleFile::read(file) {
        Ok(read) if read.text.is_empty() => NO_TEXT,
        Ok(_) => 0,
        Err(number) => 1 + CHECKS.iter().position(|&check| check == number).expect("a file check"),
    };
    kinds[kind] += 1;
}

fn assert_often(what: &str, kinds: &Kinds, least: usize) {
    println!("{what}: accepted with a text, refusals {CHECKS:?}, accepted without: {kinds:?}");
    assert!(kinds.iter().all(|&times| times >= least), "{kinds:?}");
}

#[test]
fn of_every_case() {
    let mut kinds = Kinds::default();
    cases().iter().for_each(|case| check(&case.file, &mut kinds));
    // The rarest, refusal 1, comes with eight of the files.
    assert_often("vectors", &kinds, 8);
}

#[test]
fn of_random_files_before_and_after_damage() {
    let mut prng = Prng::new(31);
    let (mut whole, mut damaged) = (Kinds::default(), Kinds::default());
    for round in 0..40_000 {
        let mut file = random_file(&mut prng, SHAPE);
        if round % 4 == 0 {
            file = with_inclusions(&mut prng, &file, SHAPE.roles);
        }
        check(&file, &mut whole);
        damage(&mut prng, &mut file);
        check(&file, &mut damaged);
    }
    assert!(whole[0] >= 5000 && whole[NO_TEXT] >= 5000, "{whole:?}");
    assert_often("damaged", &damaged, 100);
}

#[test]
fn of_random_bytes() {
    let mut prng = Prng::new(33);
    let mut kinds = Kinds::default();
    (0..40_000).for_each(|_| check(&random_bytes(&mut prng), &mut kinds));
    assert_often("random bytes", &kinds, 40);
}

#[test]
fn of_every_length() {
    let mut prng = Prng::new(32);
    let mut kinds = Kinds::default();
    for length in 0..=LONGEST_TEXT + 1 {
        let mut expected = vec![0; length];
        prng.fill(&mut expected);
        let file = encode(&expected, &ROWS, &[1], 0);
        assert_eq!(text(&file), if length <= LONGEST_TEXT { &expected[..] } else { b"" });
        check(&file, &mut kinds);
    }
    assert_eq!((kinds[0], kinds[1], kinds[NO_TEXT]), (LONGEST_TEXT, 1, 1));
}

/// The text of a file with a list of wanted rows, and with a list of its own one.
fn check_wanted(file: &[u8], list: &[u8], tallies: &mut [Tally; 2]) {
    let check = |text: &[u8], expected: &[u8]| {
        assert_eq!((text.as_ptr(), text.len()), (expected.as_ptr(), expected.len()), "{file:02x?} wanting {list:?}");
    };
    check(text_wanted(file, list), plain::text_wanting(file, list));
    let own: Vec<u8> = file.iter().rev().nth(3).into_iter().copied().collect();
    check(text_wanted(file, &own), text(file));
    let read = RuleFile::read_wanting(file, list);
    tallies[0].add(cases_of_list(file, list, read.is_ok()));
    tallies[1].add(cases_of_checks(|number| read == Err(number)));
}

/// What the list has to do with the text.
fn cases_of_list(file: &[u8], list: &[u8], is_list_good: bool) -> Vec<(&'static str, bool)> {
    let is_own_good = RuleFile::read(file).is_ok();
    let has_text = !text(file).is_empty() || !text_wanted(file, list).is_empty();
    vec![
        ("a text by the list, and none by the file's own row", has_text && is_list_good && !is_own_good),
        ("none by the list, and a text by the file's own row", has_text && !is_list_good && is_own_good),
        ("the same text by both", has_text && is_list_good && is_own_good),
        ("a text of no bytes by both", !has_text && is_list_good && is_own_good),
        ("refused by both", !is_list_good && !is_own_good),
        ("a text, no row being wanted", has_text && is_list_good && list.is_empty()),
        ("a text, several being wanted", has_text && is_list_good && list.len() > 1),
    ]
}

#[test]
fn of_every_case_with_wanted_rows() {
    let mut tallies = Default::default();
    wanted_cases().iter().for_each(|(case, _, _)| check_wanted(&case.file, &case.rows, &mut tallies));
    // The rarest come with two of the files.
    tallies.iter().for_each(|tally| tally.assert_often("vectors with wanted rows", 2));
}

#[test]
fn of_random_files_with_random_lists() {
    let mut prng = Prng::new(34);
    let mut tallies = Default::default();
    for _ in 0..60_000 {
        let (file, list) = random_question(&mut prng, SHAPE);
        check_wanted(&file, &list, &mut tallies);
    }
    let [lists, checks] = tallies;
    lists.assert_often("files with lists", 1000);
    checks.assert_often("files with lists", 50);
}
