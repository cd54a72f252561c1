//! What the programs share: the words of a call, reading, writing, and how a program ends.

use std::ffi::{OsStr, OsString};
use std::fs::File;
use std::io::{self, Read, Write};
use std::process::ExitCode;

/// How a program ends.
#[derive(Clone, Debug, PartialEq, Eq)]
pub enum Ending {
    /// What was asked for, for standard output: 0.
    Shown(String),
    /// A refusal, for standard error: 1.
    Refused(String),
    /// The call is wrong, or something can't be read: 2. The sentence goes to standard error.
    Failed(String),
}

impl Ending {
    /// Writes it and gives its status: 2 if it can't be written.
    pub fn end(self, program: &str) -> ExitCode {
        let (written, status) = match &self {
            Ending::Shown(page) => (write(io::stdout(), page), 0),
            Ending::Refused(lines) => (write(io::stderr(), lines), 1),
            Ending::Failed(sentence) => (write(io::stderr(), &format!("{program}: {sentence}\n")), 2),
        };
        let Err(error) = written else { return ExitCode::from(status) };
        // If standard error can't be written either, the status alone tells.
        let _ = write(io::stderr(), &format!("{program}: the output can't be written: {error}\n"));
        ExitCode::from(2)
    }
}

fn write(mut to: impl Write, text: &str) -> io::Result<()> {
    to.write_all(text.as_bytes())?;
    to.flush()
}

/// Of a longer file so many bytes are enough to see that it is no rule file, and no answer.
pub const MOST_READ: usize = 1 << 20;

/// The bytes of a file, or of standard input for `-`; of a longer one [`MOST_READ`] and one more.
pub fn read(name: &OsStr) -> Result<Vec<u8>, String> {
    let input: io::Result<Box<dyn Read>> = match name {
        name if name == "-" => Ok(Box::new(io::stdin())),
        name => File::open(name).map(|file| Box::new(file) as Box<dyn Read>),
    };
    let mut bytes = Vec::new();
    let read = input.and_then(|input| input.take(MOST_READ as u64 + 1).read_to_end(&mut bytes));
    read.map_err(|error| format!("{} can't be read: {error}", name.to_string_lossy()))?;
    Ok(bytes)
}

/// The words of a call: the options that are known, and the others. `--` ends the options, and `-` is a name.
pub fn words(call: impl Iterator<Item = OsString>, known: &[&str]) -> Result<(Vec<OsString>, Vec<OsString>), String> {
    let (mut options, mut names, mut ended) = (Vec::new(), Vec::new(), false);
    for word in call {
        let is_option = !ended && word.as_encoded_bytes().starts_with(b"-") && word != "-";
        if is_option && word == "--" {
            ended = true;
        } else if is_option && known.iter().any(|known| word == *known) {
            options.push(word);
        } else if is_option {
            return Err(format!("there is no option {}", word.to_string_lossy()));
        } else {
            names.push(word);
        }
    }
    Ok((options, names))
}

#[cfg(test)]
mod tests {
    use super::*;

    fn words_of(call: &[&str]) -> Result<(Vec<OsString>, Vec<OsString>), String> {
        words(call.iter().map(OsString::from), &["--fit"])
    }

    #[test]
    fn options_end_at_two_dashes() {
        let of = |words: &[&str]| words.iter().map(OsString::from).collect::<Vec<_>>();
        assert_eq!(words_of(&["--fit", "a"]), Ok((of(&["--fit"]), of(&["a"]))));
        assert_eq!(words_of(&["a", "-", "--", "--fit", "--"]), Ok((of(&[]), of(&["a", "-", "--fit", "--"]))));
        assert_eq!(words_of(&["-x", "a"]), Err("there is no option -x".to_string()));
        assert_eq!(words_of(&["--help"]), Err("there is no option --help".to_string()));
    }
}
