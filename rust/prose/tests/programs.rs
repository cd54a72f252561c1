//! The programs as they are called: words, output, status.

mod common;

use common::{sample, sample_text};
use std::fs::{File, OpenOptions};
use std::io::Write;
use std::process::{Command, Output, Stdio};

const SHOW: &str = env!("CARGO_BIN_EXE_show");
const CATALOGUE: &str = env!("CARGO_BIN_EXE_catalogue");
const SAMPLES: &str = concat!(env!("CARGO_MANIFEST_DIR"), "/../../samples");

/// Runs a program in the folder of the samples, with these bytes as its input.
fn run(program: &str, words: &[&str], input: &[u8]) -> Output {
    let mut command = Command::new(program);
    command.args(words).current_dir(SAMPLES).stdin(Stdio::piped()).stdout(Stdio::piped()).stderr(Stdio::piped());
    let mut child = command.spawn().expect("the program runs");
    // It need not read all of it, or any.
    let _ = child.stdin.take().expect("an input").write_all(input);
    child.wait_with_output().expect("the program ends")
}

/// Status, standard output, standard error.
fn parts(program: &str, words: &[&str], input: &[u8]) -> (i32, String, String) {
    let output = run(program, words, input);
    let text = |bytes| String::from_utf8(bytes).expect("a text");
    (output.status.code().expect("a status"), text(output.stdout), text(output.stderr))
}

/// With 0 there is an output and no message; else a message and no output.
fn check(program: &str, words: &[&str], input: &[u8], status: i32, begins: &str) {
    let (given, output, message) = parts(program, words, input);
    let (told, other) = if status == 0 { (&output, &message) } else { (&message, &output) };
    assert_eq!(given, status, "{words:?}: {output}{message}");
    assert!(told.starts_with(begins) && told.ends_with('\n') && other.is_empty(), "{words:?}: {output:?} {message:?}");
}

#[test]
fn show_ends_with_0_1_or_2() {
    let pump = sample("pump.fit");
    check(SHOW, &["pump.fit"], b"", 0, "A rule file of 22 rows and 3 rules, ");
    check(SHOW, &["-"], &pump, 0, "A rule file of 22 rows and 3 rules, ");
    check(SHOW, &["--", "hose.draft"], b"", 0, "A draft of 16 rows and 2 rules, ");
    check(SHOW, &["pump.fit", "pump.txt"], b"", 0, "CAN: ");
    check(SHOW, &["-", "pump.txt"], &pump, 0, "CAN: ");
    check(SHOW, &["pump.fit", "-"], &sample("pump.txt"), 0, "CAN: ");
    check(SHOW, &["--fit", "acid.fit"], b"", 0, "CANNOT: ");
    check(SHOW, &["--fit", "-"], &sample("hose.draft"), 0, "CAN: ");
    check(SHOW, &["order.fit"], b"", 1, "REFUSED 6: ");
    check(SHOW, &["--fit", "order.fit"], b"", 1, "REFUSED 6: ");
    check(SHOW, &["needs.fit", "needs.txt"], b"", 1, "REFUSED 13 1024: ");
    check(SHOW, &["pump.fit", "hose.txt"], b"", 2, "show: the answer does not belong to the file: ");
    check(SHOW, &["pump.fit", "pump.fit"], b"", 2, "show: the answer is not one that ./fit prints: ");
    check(SHOW, &["-", "-"], &pump, 2, "show: only one of FILE and ANSWER");
    for words in [&[][..], &["a", "b", "c"], &["--fit"], &["--fit", "a", "b"], &["--fit", "--fit", "pump.fit"]] {
        check(SHOW, words, b"", 2, "show: this is no call of show\nusage: ");
    }
    check(SHOW, &["--no", "pump.fit"], b"", 2, "show: there is no option --no\nusage: ");
    check(SHOW, &["nothing.fit"], b"", 2, "show: nothing.fit can't be read: ");
    check(SHOW, &["."], b"", 2, "show: . can't be read: ");
    check(SHOW, &["pump.fit", "."], b"", 2, "show: . can't be read: ");
}

#[test]
fn catalogue_ends_with_0_1_or_2() {
    let (status, page, message) = parts(CATALOGUE, &["kinds.fit"], b"");
    assert_eq!((status, page, message), (0, sample_text("kinds.page"), String::new()));
    check(CATALOGUE, &["-"], &sample("kinds.fit"), 0, "   every ");
    let (_, page, _) = parts(CATALOGUE, &["kinds.fit", "60", "99999999999999999999999", "0"], b"");
    assert!(
        page.contains("for want of nodes (60 lent). More may decide them: ./catalogue FILE 120 4096 0\n"),
        "{page}"
    );
    let judged =
        "REFUSED 6: A row names an argument row that isn't lower than itself.\nJudged as a rule file: row 4 names";
    check(CATALOGUE, &["order.fit"], b"", 1, judged);
    check(CATALOGUE, &["hose.draft"], b"", 1, "REFUSED 5: ");
    check(CATALOGUE, &[], b"", 2, "catalogue: a rule file is to be named\nusage: ");
    check(CATALOGUE, &["kinds.fit", "many"], b"", 2, "catalogue: \"many\" is no number of records\nusage: ");
    check(CATALOGUE, &["kinds.fit", "+5"], b"", 2, "catalogue: \"+5\" is no number");
    check(CATALOGUE, &["kinds.fit", ""], b"", 2, "catalogue: \"\" is no number");
    check(CATALOGUE, &["kinds.fit", "1", "2", "3", "4"], b"", 2, "catalogue: three numbers at most");
    check(CATALOGUE, &["--fit", "kinds.fit"], b"", 2, "catalogue: there is no option --fit");
    check(CATALOGUE, &["nothing.fit"], b"", 2, "catalogue: nothing.fit can't be read: ");
}

/// A full disk, and a reader that is gone.
#[test]
fn what_cannot_be_written_is_2() {
    let full = || OpenOptions::new().write(true).open("/dev/full").expect("/dev/full");
    let status = |program: &str, words: &[&str], output: Stdio, message: Stdio| {
        let mut command = Command::new(program);
        command.args(words).current_dir(SAMPLES).stdin(Stdio::null()).stdout(output).stderr(message);
        command.status().expect("the program ends").code()
    };
    for (program, words) in [(SHOW, &["pump.fit"][..]), (SHOW, &["pump.fit", "pump.txt"]), (CATALOGUE, &["kinds.fit"])]
    {
        assert_eq!(status(program, words, full().into(), Stdio::null()), Some(2), "{words:?}");
        assert_eq!(status(program, words, full().into(), full().into()), Some(2), "{words:?}");
        let (reader, writer) = std::io::pipe().expect("a pipe");
        drop(reader);
        assert_eq!(status(program, words, writer.into(), Stdio::null()), Some(2), "{words:?}");
        assert_eq!(status(program, &["order.fit"], Stdio::null(), full().into()), Some(2), "{words:?}");
    }
}

/// Of a file without an end only the beginning is read.
#[test]
fn long_files_are_not_read_whole() {
    let zero = || Stdio::from(File::open("/dev/zero").expect("/dev/zero"));
    for (program, words) in [(SHOW, &["-"][..]), (SHOW, &["--fit", "-"]), (CATALOGUE, &["-"])] {
        let mut command = Command::new(program);
        let output = command.args(words).current_dir(SAMPLES).stdin(zero()).output().expect("the program ends");
        let message = String::from_utf8(output.stderr).expect("a text");
        assert_eq!(output.status.code(), Some(1), "{message}");
        assert!(message.starts_with("REFUSED 1: ") && message.contains("more than 1048576 bytes"), "{message}");
    }
    let mut command = Command::new(SHOW);
    let output = command.args(["pump.fit", "-"]).current_dir(SAMPLES).stdin(zero()).output().expect("the program ends");
    assert_eq!(output.status.code(), Some(2));
}
