//! Prints the catalogue page of a rule file: `catalogue FILE [NODES [EDGES [ALTERNATIVES]]]`. `./catalogue` builds and
//! calls it.

use gumbyra::{Sizes, MOST_RECORDS};
use prose::catalogue_page::page;
use prose::command::{read, words, Ending};
use prose::judged::Kind;
use prose::refused;
use std::ffi::OsString;
use std::process::ExitCode;

const USAGE: &str = "usage: ./catalogue FILE [NODES [EDGES [ALTERNATIVES]]]";

fn main() -> ExitCode {
    answer().unwrap_or_else(Ending::Failed).end("catalogue")
}

fn answer() -> Result<Ending, String> {
    let (_, names) = words(std::env::args_os().skip(1), &[]).map_err(|error| format!("{error}\n{USAGE}"))?;
    let (file, numbers) = names.split_first().ok_or_else(|| format!("a rule file is to be named\n{USAGE}"))?;
    let sizes = sizes(numbers).map_err(|error| format!("{error}\n{USAGE}"))?;
    let file = read(file)?;
    Ok(match page(&file, sizes) {
        Ok(page) => Ending::Shown(page),
        Err(refusal) => Ending::Refused(match gumbyra::Table::read(&file).err() {
            Some(fault) => refused::of_check(Kind::RuleFile, &fault, &file),
            None => refused::of_run(&refusal),
        }),
    })
}

/// The usual sizes, but for the numbers that are given. More than the most records that count are not lent.
fn sizes(numbers: &[OsString]) -> Result<Sizes, String> {
    let mut sizes = Sizes::USUAL;
    if numbers.len() > 3 {
        return Err("three numbers at most come behind the file".to_string());
    }
    for (area, word) in [&mut sizes.nodes, &mut sizes.edges, &mut sizes.alternatives].into_iter().zip(numbers) {
        let word = word.to_string_lossy();
        let is_number = !word.is_empty() && word.bytes().all(|digit| digit.is_ascii_digit());
        if !is_number {
            return Err(format!("{word:?} is no number of records"));
        }
        *area = word.parse().unwrap_or(MOST_RECORDS).min(MOST_RECORDS);
    }
    Ok(sizes)
}
