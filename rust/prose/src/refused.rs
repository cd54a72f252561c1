//! Refusals in words: number, sentence, the place that is meant, and what to do.

use crate::command::MOST_READ;
use crate::judged::Kind;
use gumbyra::{convert, Fault, Refusal, Sizes, Space, LONGEST_FILE};

/// The refusal that the engine, or the converter, gives to a file of this kind: by the proved call, not by [`Table`].
///
/// [`Table`]: gumbyra::Table
pub fn by_call(kind: Kind, file: &[u8]) -> Option<Refusal> {
    match kind {
        Kind::RuleFile => Space::with(Sizes::MOST).fit(file).err(),
        Kind::Draft => convert(file, &mut [0; LONGEST_FILE]).err(),
    }
}

/// The lines of a refusal by a check: what the file was judged as, and where it fails.
///
/// # Panics
/// If the proved call does not refuse the file so.
pub fn of_check(kind: Kind, fault: &Fault, file: &[u8]) -> String {
    let refusal = Refusal::from(*fault);
    assert_eq!(by_call(kind, file), Some(refusal), "the place is of another refusal");
    let place = match file.len() {
        0..=MOST_READ => fault.to_string(),
        _ => format!("the file has more than {MOST_READ} bytes, and has to have at most {LONGEST_FILE}"),
    };
    lines(&refusal, Some(format!("Judged as a {kind}: {place}.")))
}

/// The lines of a refusal that no single place of a file accounts for.
pub fn of_run(refusal: &Refusal) -> String {
    lines(refusal, None)
}

fn lines(refusal: &Refusal, place: Option<String>) -> String {
    let place = place.map_or(String::new(), |place| format!("{place}\n"));
    format!("{refusal}\n{place}What to do: {}\n", advice(refusal))
}

/// What to do; where an area was short, also that a command lends more.
fn advice(refusal: &Refusal) -> String {
    let enlarging = Sizes::USUAL.enlarged(*refusal).map_or("", |_| " (./show --fit lends more.)");
    format!("{}{enlarging}", refusal.advice())
}
