//! `ask`: reads a question a line from standard input and writes an answer a line to standard output, as tests/vectors/README.md
//! says.

use std::io::{BufRead, BufReader, BufWriter, Result, Write};
use watched::{Cataloguer, Converter, Desk, Lending};

/// Bytes read at once.
const BUFFER: usize = 1 << 16;

fn main() -> Result<()> {
    let mut questions = BufReader::with_capacity(BUFFER, std::io::stdin().lock());
    let mut answers = BufWriter::new(std::io::stdout().lock());
    let mut desk = Desk::new(Lending::new(), Converter::new(), Cataloguer::new());
    let mut question = Vec::new();
    while questions.read_until(b'\n', &mut question)? > 0 {
        answers.write_all(desk.answer(question.strip_suffix(b"\n").unwrap_or(&question)).as_bytes())?;
        answers.write_all(b"\n")?;
        question.clear();
        // Before it waits for a question, whoever asks gets all answers.
        if !questions.buffer().contains(&b'\n') {
            answers.flush()?;
        }
    }
    answers.flush()
}
