//! What the program `show` shows: a file, an answer to it, or the answer that the library gives.

use crate::answer::Answer;
use crate::answer_page;
use crate::command::Ending;
use crate::file_page;
use crate::judged::{judge, Kind};
use crate::phrases::count;
use crate::refused;
use crate::wording::Wording;
use gumbyra::{convert, origins, Refusal, Sizes, Space, Table, LONGEST_FILE};

/// A rule file or a draft in words.
pub fn file(file: &[u8]) -> Ending {
    match judge(file) {
        Ok((kind, table)) => Ending::Shown(file_page::page(kind, &table)),
        Err((kind, fault)) => Ending::Refused(refused::of_check(kind, &fault, file)),
    }
}

/// What `./fit` printed for a rule file, or for what a draft becomes, in words. The engine is asked again, so an answer
/// that it does not give is not shown.
pub fn answer(file: &[u8], text: &[u8]) -> Ending {
    let answer = match Answer::read(text) {
        Ok(answer) => answer,
        Err(why) => return Ending::Failed(format!("the answer is not one that ./fit prints: {why}")),
    };
    if let Answer::Refused(refusal) = &answer {
        if let Some(lines) = refusal_before_a_run(file, refusal) {
            return Ending::Refused(lines);
        }
    }
    let subjects = subjects(file);
    let subject = subjects.iter().flatten().find(|subject| subject.gives(&answer));
    subject.map_or_else(|| stranger(file), |subject| subject.ending(&answer))
}

/// The answer is of another file.
fn stranger(file: &[u8]) -> Ending {
    let why = match Subject::of(file) {
        Ok(_) => "the engine gives another".to_string(),
        Err((refusal, _)) => format!("the file gets refusal {}", refusal.number()),
    };
    Ending::Failed(format!("the answer does not belong to the file: {why}"))
}

/// Decides a rule file, or what a draft becomes, and shows the answer. Areas that are short are enlarged as far as that
/// helps.
pub fn fit(file: &[u8]) -> Ending {
    let subject = match Subject::of(file) {
        Ok(subject) => subject,
        Err((_, lines)) => return Ending::Refused(lines),
    };
    let mut space = Space::usual();
    let answer = Answer::of_call(space.fit_enlarging(&subject.file));
    let Sizes { nodes, edges, alternatives, .. } = space.sizes();
    let lent = [count(nodes, "node"), count(edges, "edge"), count(alternatives, "alternative")].join(", ");
    match subject.ending(&answer) {
        Ending::Shown(page) => Ending::Shown(format!("{page}Lent: {lent}.\n")),
        other => other,
    }
}

/// A rule file that an answer may belong to, with its words: the file itself, or what a draft becomes.
struct Subject {
    file: Vec<u8>,
    table: Table,
    wording: Wording,
}

impl Subject {
    /// The refusal, also as lines, if there is none.
    fn of(file: &[u8]) -> Result<Subject, (Refusal, String)> {
        match judge(file) {
            Ok((Kind::RuleFile, table)) => {
                let wording = Wording::of(&table);
                Ok(Subject { file: file.to_vec(), table, wording })
            }
            Ok((Kind::Draft, draft)) => {
                Subject::of_draft(file, &draft).map_err(|refusal| (refusal, refused::of_run(&refusal)))
            }
            Err((kind, fault)) => Err((fault.into(), refused::of_check(kind, &fault, file))),
        }
    }

    fn of_draft(bytes: &[u8], draft: &Table) -> Result<Subject, Refusal> {
        let mut area = [0; LONGEST_FILE];
        let file = convert(bytes, &mut area)?.to_vec();
        let origins = origins(bytes, &file).expect("the converter writes what the draft becomes");
        let table = Table::read(&file).unwrap_or_else(|fault| panic!("a converted draft has a fault: {fault}"));
        let wording = Wording::of_converted(draft, &table, &origins);
        Ok(Subject { file, table, wording })
    }

    /// Does the engine give this answer? Once a run has records enough it is the same in all areas; and where it lacked
    /// one, it lacks that however much is lent of the others.
    fn gives(&self, answer: &Answer) -> bool {
        let sizes = match *answer {
            Answer::Refused(Refusal::NodesShort { lent }) => Sizes { nodes: lent, ..Sizes::MOST },
            Answer::Refused(Refusal::EdgesShort { lent }) => Sizes { edges: lent, ..Sizes::MOST },
            Answer::Refused(Refusal::AlternativesShort { lent }) => Sizes { alternatives: lent, ..Sizes::MOST },
            Answer::Refused(Refusal::ExampleTooLong { .. }) => Sizes { elements: 0, ..Sizes::MOST },
            _ => Sizes::MOST,
        };
        Answer::of_call(Space::with(sizes).fit(&self.file)) == *answer
    }

    /// An answer of the engine to this file, in words.
    fn ending(&self, answer: &Answer) -> Ending {
        match answer {
            Answer::Refused(refusal) => Ending::Refused(refused::of_run(refusal)),
            Answer::Cannot { used } => Ending::Shown(answer_page::cannot(&self.table, &self.wording, used)),
            Answer::Can { used, assembly } => {
                Ending::Shown(answer_page::can(&self.table, &self.wording, used, assembly))
            }
        }
    }
}

/// The file as it stands, and what it becomes as a draft, which may do without "not" and "if".
fn subjects(file: &[u8]) -> [Option<Subject>; 2] {
    let converted = Table::read_draft(file).ok().and_then(|draft| Subject::of_draft(file, &draft).ok());
    [Subject::of(file).ok(), converted]
}

/// The lines of a refusal that `./fit` or `./convert` prints for a file without a run; `None` if they don't.
fn refusal_before_a_run(file: &[u8], refusal: &Refusal) -> Option<String> {
    let fault = Table::read(file).err().map(|fault| (Kind::RuleFile, fault));
    let mut faults = fault.into_iter().chain(judge(file).err());
    let by_check = faults.find(|&(_, fault)| Refusal::from(fault) == *refusal);
    let by_check = by_check.map(|(kind, fault)| refused::of_check(kind, &fault, file));
    by_check.or_else(|| Subject::of(file).err().filter(|(own, _)| own == refusal).map(|(_, lines)| lines))
}
