//! The program `ask`.

use compare::vectors;
use std::io::{BufRead, BufReader, Read, Write};
use std::process::{Child, Command, Stdio};
use std::sync::mpsc::{channel, Receiver};
use std::time::Duration;

/// An answer that has not come by then does not come.
const PATIENCE: Duration = Duration::from_secs(20);

fn ask() -> Child {
    let mut program = Command::new(env!("CARGO_BIN_EXE_ask"));
    program.stdin(Stdio::piped()).stdout(Stdio::piped()).spawn().expect("the program starts")
}

/// What `ask` writes if it reads this.
fn answers(questions: Vec<u8>) -> String {
    let mut child = ask();
    let mut input = child.stdin.take().expect("its input");
    let writing = std::thread::spawn(move || input.write_all(&questions));
    let output = child.wait_with_output().expect("the program ends");
    writing.join().expect("the thread ends").expect("it reads all");
    assert!(output.status.success(), "{output:?}");
    String::from_utf8(output.stdout).expect("answers are text")
}

#[test]
fn every_question_of_the_vectors_gets_its_answer() {
    let vectors = vectors();
    let questions: String = vectors.iter().map(|(question, _)| format!("{question}\n")).collect();
    let answers = answers(questions.into_bytes());
    assert_eq!(answers.lines().count(), vectors.len());
    for ((question, expected), answer) in vectors.iter().zip(answers.lines()) {
        assert_eq!(answer, expected, "{question}");
    }
}

#[test]
fn each_line_gets_a_line() {
    let (question, answer) = ("fit - 1 1 1 1 1", "REFUSED 1");
    let unknown = "UNKNOWN the words are: fit, convert, wanted, catalogue";
    assert_eq!(answers(Vec::new()), "");
    assert_eq!(answers(b"\n\xff\n".to_vec()), format!("{unknown}\n{unknown}\n"));
    assert_eq!(
        answers(format!("{question}\nfit\nconvert\n{question}\nconvert - 0").into_bytes()),
        format!("{answer}\nUNKNOWN fit FILE N E A EB LB\nUNKNOWN convert DRAFT AREA\n{answer}\n{answer}\n")
    );
    assert_eq!(
        answers(b"wanted\ncatalogue\nwanted - - 1 1 1 1 1\ncatalogue - 1 1 1 1".to_vec()),
        format!("UNKNOWN wanted FILE ROWS N E A EB LB\nUNKNOWN catalogue FILE AREA N E A\n{answer}\n{answer}\n")
    );
}

/// The lines that come, as they come.
fn lines(output: impl Read + Send + 'static) -> Receiver<String> {
    let (sender, lines) = channel();
    std::thread::spawn(move || {
        BufReader::new(output).lines().map_while(Result::ok).try_for_each(|line| sender.send(line))
    });
    lines
}

#[test]
fn an_answer_comes_before_the_next_question() {
    let mut child = ask();
    let mut input = child.stdin.take().expect("its input");
    let output = lines(child.stdout.take().expect("its output"));
    let (question, _) = &vectors()[0];
    for _ in 0..3 {
        // The next question's beginning is there already.
        write!(input, "{question}\nfit").and_then(|()| input.flush()).expect("it reads");
        assert!(output.recv_timeout(PATIENCE).expect("an answer").starts_with("CAN "));
        writeln!(input).expect("it reads");
        assert!(output.recv_timeout(PATIENCE).expect("an answer").starts_with("UNKNOWN "));
    }
    drop(input);
    assert!(output.recv_timeout(PATIENCE).is_err() && child.wait().expect("it ends").success());
}
