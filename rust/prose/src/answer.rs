//! An answer as `./fit` prints it, read back.

use gumbyra::{Assembly, Link, Refusal, RowSet, Used, Verdict, ELEMENT_BYTES};

/// What the engine says of a rule file.
#[derive(Clone, Debug, PartialEq, Eq)]
pub enum Answer {
    Can { used: Used, assembly: Assembly },
    Cannot { used: Used },
    Refused(Refusal),
}

impl Answer {
    /// The answer that a call gave.
    pub fn of_call(outcome: Result<Verdict, Refusal>) -> Answer {
        match outcome {
            Ok(Verdict::Can { used, example }) => Answer::Can { used, assembly: example.into_owned() },
            Ok(Verdict::Cannot { used }) => Answer::Cannot { used },
            Err(refusal) => Answer::Refused(refusal),
        }
    }

    /// The answer that a text tells; else a sentence that says what is wrong with it.
    pub fn read(text: &[u8]) -> Result<Answer, String> {
        let text = std::str::from_utf8(text).map_err(|_| "it is no text".to_string())?;
        let lines: Vec<&str> = text.lines().collect();
        let (first, rest) = lines.split_first().ok_or("it is empty")?;
        let words: Vec<&str> = first.split(' ').collect();
        match words.as_slice() {
            ["CAN", counts @ ..] => can(&numbers(counts, 1)?, rest),
            ["CANNOT"] if rest.len() == 1 => Ok(Answer::Cannot { used: used(rest[0], 2)? }),
            ["CANNOT"] => Err("a line USED and no other comes behind CANNOT".to_string()),
            ["REFUSED", ..] => refused(first, rest),
            _ => Err("its first line is none of CAN, CANNOT and REFUSED".to_string()),
        }
    }
}

/// `CAN`, how many elements and links; `USED`; a line for each element, from 0; a line for each link.
fn can(counts: &[usize], rest: &[&str]) -> Result<Answer, String> {
    let &[elements, links] = counts else { return Err("line 1: two numbers come behind CAN".to_string()) };
    let [used_line, rest @ ..] = rest else { return Err("line 2, USED, is not there".to_string()) };
    let used = used(used_line, 2)?;
    if elements.checked_add(links) != Some(rest.len()) || elements == 0 {
        return Err(format!(
            "it tells of {elements} elements and {links} links, and has {} lines for them",
            rest.len()
        ));
    }
    let (of_elements, of_links) = rest.split_at(elements);
    let elements: Result<_, String> = (0..).zip(of_elements).map(|(at, line)| element(line, at)).collect();
    let links: Result<_, String> = (3 + of_elements.len()..).zip(of_links).map(|(at, line)| link(line, at)).collect();
    Ok(Answer::Can { used, assembly: Assembly { elements: elements?, links: links? } })
}

/// `USED` and three numbers.
fn used(line: &str, at: usize) -> Result<Used, String> {
    let wrong = || format!("line {at} is not USED and three numbers");
    let words: Vec<&str> = line.strip_prefix("USED ").ok_or_else(wrong)?.split(' ').collect();
    let &[nodes, edges, alternatives] = numbers(&words, at)?.as_slice() else { return Err(wrong()) };
    Ok(Used { nodes, edges, alternatives })
}

/// `E`, its number, its rows as hexadecimal digits.
fn element(line: &str, number: usize) -> Result<RowSet, String> {
    let rows = line.strip_prefix(&format!("E {number} ")).and_then(RowSet::of_digits);
    let digits = 2 * ELEMENT_BYTES;
    rows.ok_or_else(|| format!("line {} is not E {number} and {digits} hexadecimal digits", number + 3))
}

/// `L`, from, role code, to.
fn link(line: &str, at: usize) -> Result<Link, String> {
    let wrong = || format!("line {at} is not L, an element, a role code and an element");
    let words: Vec<&str> = line.strip_prefix("L ").ok_or_else(wrong)?.split(' ').collect();
    let &[from, role, to] = numbers(&words, at)?.as_slice() else { return Err(wrong()) };
    let element = |number: usize| u16::try_from(number).map_err(|_| wrong());
    Ok(Link { from: element(from)?, role: u8::try_from(role).map_err(|_| wrong())?, to: element(to)? })
}

/// `REFUSED`, its number, the numbers that come with it; the sentence may follow, behind a colon.
fn refused(first: &str, rest: &[&str]) -> Result<Answer, String> {
    if !rest.is_empty() {
        return Err("a line REFUSED stands alone".to_string());
    }
    Refusal::of_line(first).map(Answer::Refused).ok_or_else(|| format!("there is no refusal {first:?}"))
}

fn numbers(words: &[&str], line: usize) -> Result<Vec<usize>, String> {
    let number = |word: &&str| {
        let are_digits = word.bytes().all(|digit| digit.is_ascii_digit());
        word.parse().ok().filter(|_| are_digits).ok_or_else(|| format!("line {line}: {word:?} is no number"))
    };
    words.iter().map(number).collect()
}
