//! Shows a rule file, a draft or an answer in words: `show FILE`, `show FILE ANSWER`, `show --fit FILE`. `./show`
//! builds and calls it.

use prose::command::{read, words, Ending};
use prose::showing;
use std::process::ExitCode;

const USAGE: &str = "usage: ./show FILE, ./show FILE ANSWER or ./show --fit FILE";

fn main() -> ExitCode {
    answer().unwrap_or_else(Ending::Failed).end("show")
}

fn answer() -> Result<Ending, String> {
    let (options, names) =
        words(std::env::args_os().skip(1), &["--fit"]).map_err(|error| format!("{error}\n{USAGE}"))?;
    match (options.len(), names.as_slice()) {
        (0, [file]) => Ok(showing::file(&read(file)?)),
        (0, [file, answer]) if file == "-" && answer == "-" => {
            Err("only one of FILE and ANSWER can be standard input".to_string())
        }
        (0, [file, answer]) => Ok(showing::answer(&read(file)?, &read(answer)?)),
        (1, [file]) => Ok(showing::fit(&read(file)?)),
        _ => Err(format!("this is no call of show\n{USAGE}")),
    }
}
