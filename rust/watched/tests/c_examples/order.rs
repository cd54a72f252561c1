//! The order program, in C and in Python: the same files, the same answers.

use crate::tools::{built, compiled, example, interface, library, printed, repository, run, scratch, written};
use compare::files::long_runs::branches;
use gumbyra::{convert, Row, Table, LONGEST_FILE};
use std::fs;
use std::path::{Path, PathBuf};
use std::process::Command;

/// samples/pump.md, in words: the rows of each element but 13, 14 and 15, which are the rules, and the links.
const PUMP: &str = "\
The kit can exist. An example; part 0 is the one that was wanted:
part 0:
  is a box
  is no dosing pump
  is no flush valve
  holds some dosing pump
  holds some controller
  holds no flush valve
  holds some dosing pump and some controller
  holds these two and no flush valve
  is a box that holds these two and no flush valve
part 1:
  is a dosing pump
  is no flush valve
  has some flush valve fitted to it
  is wired to some controller
  draws from some canister
  has its wire and its canister
  has its flush valve, its wire and its canister
  holds no flush valve
part 2:
  is a controller
  is no dosing pump
  is no flush valve
  holds no flush valve
part 3:
  is a flush valve
  is no dosing pump
  is fitted to some dosing pump
  holds no flush valve
part 4:
  is a canister
  is no dosing pump
  is no flush valve
  holds no flush valve
part 0 holds: part 1
part 0 holds: part 2
part 1 has fitted to it: part 3
part 1 is wired to: part 2
part 1 draws from: part 4
part 3 is fitted to: part 1
";

/// The same parts: each need of the pump is a rule of its own there, so no row speaks of its needs together. It takes more nodes than usual.
fn needs() -> String {
    PUMP.split_inclusive('\n').filter(|line| !line.starts_with("  has its ")).collect()
}

/// Name 0 has words, with a byte that a terminal would obey; the rows and the role have none, for lack of a number, of a place in the list and
/// of a list. Row 0: name 0. Row 1: some along 2: 0. Row 2: name 1, and true of nothing.
const ODD_TEXT: &[u8] = b"Rows:\n99999999999999999999 x\n0 y\nNames:\n64 z\n0 a \x1b pump\n0 b";
const ODD_TABLE: &[u8] = &[1, 0, 0, 0, 6, 2, 0, 0, 1, 0, 1, 0, ODD_TEXT.len() as u8, 0, 3, 0, 1, b'F', b'I', b'T'];
const ODD: &str = "\
The kit can exist. An example; part 0 is the one that was wanted:
part 0:
  row 1
part 1:
  a ? pump
part 0 code 2: part 1
";

/// Runs the order program on files with known answers, in this way; `by` goes into the names of files made for it.
pub fn check_order(by: &str, order: impl Fn(&Path) -> Command) {
    let sample = |name: &str| repository().join("samples").join(name);
    let check = |file: PathBuf, status: i32, out: &str, err: &str| {
        let output = run(&mut order(&file));
        let said = [output.stdout, output.stderr].map(|bytes| String::from_utf8(bytes).expect("it prints text"));
        assert_eq!((said[0].as_str(), said[1].as_str()), (out, err), "{by}: {}", file.display());
        assert_eq!(output.status.code(), Some(status), "{by}: {}", file.display());
    };
    let too_long = "REFUSED 1: The file is shorter than 8 or longer than 4,096 bytes.\n";
    let not_lower = "REFUSED 6: A row names an argument row that isn't lower than itself.\n";
    check(sample("pump.fit"), 0, PUMP, "");
    check(sample("needs.fit"), 0, &needs(), "");
    check(sample("acid.fit"), 0, "The kit cannot exist.\n", "");
    check(written(&format!("{by} odd.fit"), &[ODD_TEXT, ODD_TABLE].concat()), 0, ODD, "");
    check(sample("order.fit"), 1, "", not_lower);
    check(written(&format!("{by} empty.fit"), b""), 1, "", too_long);
    check(written(&format!("{by} long.fit"), &[0; 4097]), 1, "", too_long);
    let most = "REFUSED 13 4096: The procedure's next node has no place in its area.\n";
    check(written(&format!("{by} branches.fit"), &branches(13).file), 1, "", most);
    let (missing, folder) = (sample("no such.fit"), sample(""));
    check(missing.clone(), 2, "", &format!("order: {}: No such file or directory\n", missing.display()));
    check(folder.clone(), 2, "", &format!("order: {}: Is a directory\n", folder.display()));
}

/// Files whose list of rows was written for a draft, or denies the wrong thing: each with words that must not be said.
/// Row 0 is a name or denies one, row 2 is "if 0 then 1", a rule, and row 3 "some along 0: 1", wanted: what such a draft
/// becomes has as many rows, the same rule and the same wanted row, but row 0 is turned round.
fn misled() -> Vec<(Vec<u8>, &'static str)> {
    let draft = |first: Row, said: &str| {
        let rows = vec![first, Row::Name(1), Row::If(0, 1), Row::Some { role: 0, row: 1 }];
        let text = format!("Rows:\n0 {said}\n1 has steel seals\n2 so\n3 is fitted\nWanted:\n3 is fitted\n");
        Table { text: text.into(), rows, rules: vec![2], wanted: 3 }.encode().expect("a draft")
    };
    let converted = |draft: Vec<u8>| {
        let mut area = [0; LONGEST_FILE];
        convert(&draft, &mut area).expect("a rule file").to_vec()
    };
    let nozzle = b"Rows:\n0 has a nozzle\nWanted:\n0 so\n".to_vec();
    let nozzle = Table { text: nozzle, rows: vec![Row::NotName(0)], rules: vec![], wanted: 0 };
    vec![
        (converted(draft(Row::Name(0), "is acid-proof")), "acid-proof"),
        (converted(draft(Row::NotName(0), "is not acid-proof")), "acid-proof"),
        (nozzle.encode().expect("a rule file"), "nozzle"),
    ]
}

/// No words of other rows are said of a row; lines may end in CR LF.
fn check_words(by: &str, order: impl Fn(&Path) -> Command) {
    for (at, (file, words)) in misled().into_iter().enumerate() {
        let said = printed(&mut order(&written(&format!("{by} misled {at}.fit"), &file)));
        assert!(said.contains("  row 0\n") && !said.contains(words), "{by}: {said}");
    }
    let mut pump =
        Table::read(&fs::read(repository().join("samples/pump.fit")).expect("a sample")).expect("a rule file");
    pump.text = String::from_utf8(pump.text).expect("a text").replace('\n', "\r\n").into();
    let file = written(&format!("{by} lines.fit"), &pump.encode().expect("a rule file"));
    assert_eq!(printed(&mut order(&file)), PUMP, "{by}");
}

#[test]
fn the_order_programs_say_no_words_of_other_rows() {
    check_words("order", on(built("order")));
    check_words("order.py", |file| with(python(&["order.py"]), file));
}

/// The command that runs this program on a file.
pub fn on(program: PathBuf) -> impl Fn(&Path) -> Command {
    move |file| with(Command::new(&program), file)
}

fn with(mut command: Command, file: &Path) -> Command {
    command.arg(file);
    command
}

/// The order program in Python, which leaves no folder of its own in the repository; after these words comes the file.
fn python(words: &[&str]) -> Command {
    let mut command = Command::new("python3");
    command.arg("-B").args(words).env_remove("GUMBYRA_LIBRARY").current_dir(repository().join("c/examples"));
    command
}

/// The program in C with another header, in which lines are changed.
fn of_header(name: &str, change: impl Fn(&str) -> String) -> PathBuf {
    let include = scratch(name).with_extension("include");
    fs::create_dir_all(&include).expect("there is room");
    let header = fs::read_to_string(library().join("include/gumbyra.h")).expect("the header");
    let changed: String = header.lines().map(|line| change(line) + "\n").collect();
    assert_ne!(changed, header, "{name}: there is nothing to change");
    fs::write(include.join("gumbyra.h"), changed).expect("there is room");
    compiled(&example("order.c"), &include, name)
}

#[test]
fn the_order_program_says_it_in_words() {
    check_order("order", on(built("order")));
}

#[test]
fn the_order_program_in_python_says_the_same() {
    check_order("order.py", |file| with(python(&["order.py"]), file));
}

/// The usual sizes suffice for most files; where nothing is usual every area has to grow.
#[test]
fn the_order_programs_enlarge_from_nothing() {
    let program = of_header("order_from_nothing", |line| match line.split_once(" = ") {
        Some((name, _)) if name.trim_start().starts_with("GUMBYRA_USUAL_") => format!("{name} = 0,"),
        _ => line.to_string(),
    });
    check_order("from nothing", on(program));
    let script = "import order, sys; order.USUAL = 5 * [0]; order.main(sys.argv[1])";
    check_order("from nothing.py", |file| with(python(&["-c", script]), file));
}

/// The third number of a version has no say.
#[test]
fn the_order_programs_want_a_library_of_their_version() {
    let own = gumbyra::library_version();
    let define = format!("GUMBYRA_VERSION {own}");
    for (version, status) in [(own + 7, 0), (own + 100, 2), (own + 10_000, 2)] {
        let program = of_header(&format!("order_{version}"), |line| match line.split_once(define.as_str()) {
            Some((define, _)) => format!("{define}GUMBYRA_VERSION {version}"),
            None => line.to_string(),
        });
        let script = format!("import order, sys; order.VERSION = {version}; order.main(sys.argv[1])");
        for command in [Command::new(program), python(&["-c", &script])] {
            let output = run(&mut with(command, &repository().join("samples/acid.fit")));
            assert_eq!(output.status.code(), Some(status), "{version}: {output:?}");
        }
    }
}

#[test]
fn the_library_of_the_order_program_in_python_is_named() {
    let (named, file) =
        (library().join(format!("lib/libgumbyra.so.{}", interface())), repository().join("samples/acid.fit"));
    let said = "The kit cannot exist.\n";
    let (word, nowhere) = (printed(python(&["order.py"]).arg(&file).arg(&named)), scratch("no such.so"));
    let variable = printed(python(&["order.py"]).arg(&file).env("GUMBYRA_LIBRARY", &named));
    assert_eq!((word.as_str(), variable.as_str()), (said, said));
    let output = run(python(&["order.py"]).arg(&file).env("GUMBYRA_LIBRARY", &nowhere));
    assert_eq!((output.stdout.len(), output.status.code()), (0, Some(2)), "{output:?}");
}
