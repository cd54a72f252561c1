//! What the tests of this crate share.
#![allow(dead_code)]

/// A file of the samples.
pub fn sample(name: &str) -> Vec<u8> {
    let path = format!("{}/../../samples/{name}", env!("CARGO_MANIFEST_DIR"));
    std::fs::read(&path).unwrap_or_else(|error| panic!("{path}: {error}"))
}

pub fn sample_text(name: &str) -> String {
    String::from_utf8(sample(name)).expect("a text")
}

/// What is printed as a sample's page shows it: four spaces before each line.
pub fn indented(page: &str) -> String {
    page.lines().map(|line| if line.is_empty() { "\n".to_string() } else { format!("    {line}\n") }).collect()
}

use gumbyra::{Refusal, Sizes, Space, Verdict};
use prose::command::Ending;
use std::fmt::Write;

/// What `./fit` prints of an outcome.
pub fn printed(outcome: &Result<Verdict, Refusal>) -> String {
    let (mut text, used) = match outcome {
        Ok(Verdict::Can { used, example }) => {
            (format!("CAN {} {}\n", example.elements().len(), example.links().len()), used)
        }
        Ok(Verdict::Cannot { used }) => ("CANNOT\n".to_string(), used),
        Err(refusal) => {
            let further = match *refusal {
                Refusal::ExampleTooLong { elements, links } => format!(" {elements} {links}"),
                Refusal::NodesShort { lent } | Refusal::EdgesShort { lent } | Refusal::AlternativesShort { lent } => {
                    format!(" {lent}")
                }
                _ => String::new(),
            };
            return format!("REFUSED {}{further}\n", refusal.number());
        }
    };
    let _ = writeln!(text, "USED {} {} {}", used.nodes, used.edges, used.alternatives);
    if let Ok(Verdict::Can { example, .. }) = outcome {
        for (at, rows) in example.elements().enumerate() {
            let _ = writeln!(text, "E {at} {rows}");
        }
        for link in example.links() {
            let _ = writeln!(text, "L {} {} {}", link.from, link.role, link.to);
        }
    }
    text
}

/// What `./fit` prints for a file, in areas of these sizes.
pub fn fit(file: &[u8], sizes: Sizes) -> String {
    printed(&Space::with(sizes).fit(file))
}

/// The page that is shown.
pub fn shown(ending: Ending) -> String {
    match ending {
        Ending::Shown(page) => page,
        other => panic!("nothing is shown: {other:?}"),
    }
}

/// The lines of a refusal.
pub fn refused(ending: Ending) -> String {
    match ending {
        Ending::Refused(lines) => lines,
        other => panic!("no refusal: {other:?}"),
    }
}

/// The sentence of a failure.
pub fn failed(ending: Ending) -> String {
    match ending {
        Ending::Failed(sentence) => sentence,
        other => panic!("no failure: {other:?}"),
    }
}
