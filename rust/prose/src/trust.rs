//! May the words that a text lists for rows be used? A text is never checked by the engine, and one that was written
//! for a draft stays as it is when the draft becomes a rule file with other rows. False words beside a proved answer
//! are worse than none.

use crate::phrases::opposites;
use gumbyra::{origins, Row, Table, Words};

/// Which lists of a text are meant: those of a rule file or those of a draft.
#[derive(Clone, Copy, Debug, PartialEq, Eq)]
pub enum Lists {
    OfFile,
    OfDraft,
}

impl Lists {
    /// The words that the list gives a row; none if there is nothing behind its number.
    pub fn row(self, words: &Words, row: u8) -> Option<&str> {
        let words = match self {
            Lists::OfFile => words.row(row),
            Lists::OfDraft => words.row_of_draft(row),
        };
        words.filter(|words| !words.trim().is_empty())
    }

    pub fn has_rows(self, words: &Words) -> bool {
        (0..=u8::MAX).any(|row| self.row(words, row).is_some())
    }

    fn heading(self) -> &'static str {
        match self {
            Lists::OfFile => "Rows:",
            Lists::OfDraft => "Rows of the draft:",
        }
    }

    fn rules(self, words: &Words) -> Option<&[u8]> {
        match self {
            Lists::OfFile => words.rules(),
            Lists::OfDraft => words.rules_of_draft(),
        }
    }

    fn wanted(self, words: &Words) -> Option<&[u8]> {
        match self {
            Lists::OfFile => words.wanted(),
            Lists::OfDraft => words.wanted_in_draft(),
        }
    }
}

/// What speaks against the list of rows; `None` if it has words for each row and agrees with the bytes as far as that
/// can be seen.
pub fn doubt(table: &Table, words: &Words, lists: Lists) -> Option<String> {
    if !lists.has_rows(words) {
        return Some(format!("the text has no list \"{}\"", lists.heading()));
    }
    let rows = table.rows.len();
    if (0..=u8::MAX).any(|row| lists.row(words, row).is_some() != (usize::from(row) < rows)) {
        return Some(format!("the text's list of rows does not have words for just the numbers 0 to {}", rows - 1));
    }
    if lists.rules(words).is_some_and(|rules| rules != table.rules) {
        return Some("the text lists other rules than the file has".to_string());
    }
    match lists.wanted(words) {
        Some(wanted) if wanted != [table.wanted] => return Some("by the text another row is wanted".to_string()),
        None if lists == Lists::OfFile && may_be_converted(table) => {
            let why =
                "the file may be a converted draft, and no list \"Wanted:\" shows that the text's numbers are its own";
            return Some(why.to_string());
        }
        _ => {}
    }
    let checks = [same_words, other_name, other_sign, no_denial, false_opposite];
    checks.iter().find_map(|check| check(table, words, lists))
}

/// Two rows with the same words.
fn same_words(table: &Table, words: &Words, lists: Lists) -> Option<String> {
    table.numbered().find_map(|(row, _)| {
        let said = lists.row(words, row)?;
        let first = (0..row).find(|&lower| lists.row(words, lower) == Some(said))?;
        Some(format!("in the text's list of rows {first} and {row} have the same words"))
    })
}

/// Is the file one that `./convert` writes? Then it would write the same again.
pub fn may_be_converted(table: &Table) -> bool {
    !table.is_draft() && table.encode().is_ok_and(|file| origins(&file, &file).is_some())
}

/// A row of kind 1 or 2 that the list gives the words of another name.
fn other_name(table: &Table, words: &Words, lists: Lists) -> Option<String> {
    table.numbered().find_map(|(row, made_of)| {
        let (name, says): (u8, fn(&str, &str) -> bool) = match made_of {
            Row::Name(name) => (name, says_name),
            Row::NotName(name) => (name, denies_name),
            _ => return None,
        };
        let said = lists.row(words, row)?;
        let other = (0..=u8::MAX).find(|&other| words.name(other).is_some_and(|words| says(said, words)))?;
        let is_other = !words.name(name).is_some_and(|words| says(said, words));
        is_other.then(|| {
            format!("row {row} is of name {name}, and in the text's list of rows has the words of name {other}")
        })
    })
}

/// In a file that may be a converted draft, "not" a name whose words deny nothing: there a name may have stood.
fn no_denial(table: &Table, words: &Words, lists: Lists) -> Option<String> {
    const DENIALS: [&str; 8] = ["no", "not", "isn't", "hasn't", "never", "none", "nothing", "without"];
    if lists == Lists::OfDraft || !may_be_converted(table) {
        return None;
    }
    table.numbered().find_map(|(row, made_of)| {
        let Row::NotName(name) = made_of else { return None };
        let denies = lists.row(words, row)?.split([' ', ':', ',']).any(|word| DENIALS.contains(&word));
        (!denies)
            .then(|| format!("row {row} denies name {name}, and its words in the text's list of rows don't seem to"))
    })
}

/// A name whose words deny something, or "not" a name whose words name a kind.
fn other_sign(table: &Table, words: &Words, lists: Lists) -> Option<String> {
    let begins = |row: u8, with: &[&str]| {
        let said = lists.row(words, row);
        said.is_some_and(|said| with.iter().any(|with| said.starts_with(with)))
    };
    table.numbered().find_map(|(row, made_of)| match made_of {
        Row::Name(name) if begins(row, &["is no ", "is not ", "has no "]) => {
            Some(format!("row {row} says name {name}, and in the text's list of rows it denies something"))
        }
        Row::NotName(name) if begins(row, &["is a ", "is an "]) => {
            Some(format!("row {row} denies name {name}, and in the text's list of rows it does not"))
        }
        _ => None,
    })
}

/// Do the words of a row say just that a part has the name?
pub fn says_name(row: &str, name: &str) -> bool {
    ["is a ", "is an ", "is ", "has "].iter().any(|before| row.strip_prefix(before) == Some(name))
}

/// Do they say just that it hasn't?
fn denies_name(row: &str, name: &str) -> bool {
    ["is no ", "is not a ", "is not an ", "is not ", "has no "]
        .iter()
        .any(|before| row.strip_prefix(before) == Some(name))
}

/// A row that says the opposite of a name, or of "not" a name, and is not its opposite.
fn false_opposite(table: &Table, words: &Words, lists: Lists) -> Option<String> {
    let rows = || table.numbered().filter_map(|(row, _)| Some((row, lists.row(words, row)?)));
    rows().find_map(|(row, said)| {
        let opposite = opposites(said);
        let (other, _) = rows().find(|(_, words)| opposite.iter().any(|opposite| opposite == words))?;
        let literals = [row, other].map(|row| literal(table, row));
        let fits = match literals {
            [Some((name, sign)), Some((other, other_sign))] => name == other && sign != other_sign,
            [None, None] => true,
            _ => false,
        };
        (!fits).then(|| format!("by the text row {other} is the opposite of row {row}, and by the bytes it is not"))
    })
}

/// The name that a row says or denies, and whether it says it; also through the "not" of a draft.
fn literal(table: &Table, row: u8) -> Option<(u8, bool)> {
    match *table.rows.get(usize::from(row))? {
        Row::Name(name) => Some((name, true)),
        Row::NotName(name) => Some((name, false)),
        Row::Not(of) if of < row => literal(table, of).map(|(name, sign)| (name, !sign)),
        _ => None,
    }
}

#[cfg(test)]
mod tests {
    use super::*;

    /// Rows: name 0; name 1; not name 0; 2 or 1, the rule. Wanted: 0.
    fn table(text: &str) -> Table {
        let rows = vec![Row::Name(0), Row::Name(1), Row::NotName(0), Row::Either(2, 1)];
        Table { text: text.into(), rows, rules: vec![3], wanted: 0 }
    }

    fn doubt_of(text: &str) -> Option<String> {
        let table = table(text);
        doubt(&table, &Words::of_text(&table.text), Lists::OfFile)
    }

    const ROWS: &str = "Rows:\n0 is a box\n1 is red\n2 is no box\n3 a box is red\n";

    #[test]
    fn a_list_that_agrees_is_used() {
        let whole = format!(
            "Boxes\nNames:\n0 box\n1 red\n{ROWS}Rules, each true of every part:\n3 a box is red\nWanted:\n0 is a box\n"
        );
        for text in [whole.as_str(), ROWS, &format!("{ROWS}Rules:\n2 of us agreed\n")] {
            assert_eq!(doubt_of(text), None, "{text}");
        }
    }

    #[test]
    fn a_list_that_does_not_is_not() {
        let doubts = [
            ("".to_string(), "no list \"Rows:\""),
            ("Rows of the draft:\n0 is a box\n".to_string(), "no list \"Rows:\""),
            (ROWS.replace("1 is red", "1 is a box"), "rows 0 and 1 have the same words"),
            (format!("{ROWS}Names:\n2 box\n0 chest\n"), "row 0 is of name 0, and"),
            (format!("{}Names:\n0 box\n1 chest\n", ROWS.replace("is no box", "is no chest")), "row 2 is of name 0"),
            (ROWS.replace("3 a box is red\n", ""), "just the numbers 0 to 3"),
            (format!("{ROWS}4 is blue\n"), "just the numbers 0 to 3"),
            (ROWS.replace("3 a", "4 a"), "just the numbers 0 to 3"),
            (ROWS.replace("1 is red", "1  "), "just the numbers 0 to 3"),
            (format!("{ROWS}Rules, each true of every part:\n"), "other rules"),
            (format!("{ROWS}Rules, each true of every part:\n3 a box is red\n1 is red\n"), "other rules"),
            (format!("{ROWS}Wanted:\n1 is red\n"), "another row is wanted"),
            (
                format!("{ROWS}Names:\n0 chest\n1 box\n"),
                "row 0 is of name 0, and in the text's list of rows has the words of name 1",
            ),
            (format!("{ROWS}Names:\n5 box\n"), "the words of name 5"),
            (ROWS.replace("1 is red", "1 is not blue"), "row 1 says name 1, and"),
            (ROWS.replace("2 is no box", "2 is a chest"), "row 2 denies name 0, and"),
            (ROWS.replace("2 is no box", "2 is not red"), "row 2 is the opposite of row 1"),
            (ROWS.replace("3 a box is red", "3 is not red"), "row 3 is the opposite of row 1"),
        ];
        for (text, reason) in doubts {
            let doubt = doubt_of(&text).unwrap_or_else(|| panic!("no doubt of {text}"));
            assert!(doubt.contains(reason), "{doubt} of {text}");
        }
    }

    /// The draft: name 0; name 1; if 0 then 1, the rule; some along 0: 1, wanted. What it becomes has as many rows, the
    /// same rule and the same wanted row; but its row 0 denies name 0.
    #[test]
    fn a_converted_draft_is_not_told_as_its_opposite() {
        let text =
            "Rows:\n0 is acid-proof\n1 has steel seals\n2 if it is acid-proof, it has steel seals\n3 is fitted\n";
        let text = format!("{text}Rules, each true of every part:\n2 so\nWanted:\n3 is fitted\n");
        let rows = vec![Row::NotName(0), Row::Name(1), Row::Either(0, 1), Row::Some { role: 0, row: 1 }];
        let table = Table { text: text.into(), rows, rules: vec![2], wanted: 3 };
        let doubt = doubt(&table, &table.words(), Lists::OfFile).expect("a doubt");
        assert!(doubt.starts_with("row 0 denies name 0"), "{doubt}");
    }

    /// A draft of rows name 0, name 1, 1 and 0: what it becomes begins with name 1, and has as many rows.
    #[test]
    fn a_list_that_may_be_of_a_draft_is_not_used() {
        let text = b"Rows:\n0 is a box\n1 is red\n2 is a red box\n".to_vec();
        let rows = vec![Row::Name(1), Row::Name(0), Row::Both(0, 1)];
        let mut table = Table { text, rows, rules: vec![], wanted: 2 };
        let doubt_of = |table: &Table| doubt(table, &table.words(), Lists::OfFile);
        assert!(doubt_of(&table).is_some_and(|doubt| doubt.starts_with("the file may be a converted draft")));
        table.text.extend_from_slice(b"Wanted:\n2 is a red box\n");
        assert_eq!(doubt_of(&table), None);
        let draft = Table { rows: vec![Row::Name(0), Row::Name(1), Row::Both(1, 0)], ..table };
        assert_eq!(doubt_of(&draft), None);
    }

    /// In a draft the opposite of a name may be said with "not".
    #[test]
    fn a_draft_has_lists_of_its_own() {
        let text =
            "Rows of the draft:\n0 is a box\n1 is no box\n2 is not a box, or so\nWanted in the draft:\n1 is no box\n";
        let rows = vec![Row::Name(0), Row::Not(0), Row::Not(1)];
        let mut draft = Table { text: text.into(), rows, rules: vec![], wanted: 1 };
        let words = Words::of_text(&draft.text);
        assert_eq!(doubt(&draft, &words, Lists::OfDraft), None);
        assert!(doubt(&draft, &words, Lists::OfFile).is_some());
        draft.wanted = 2;
        assert_eq!(doubt(&draft, &words, Lists::OfDraft).as_deref(), Some("by the text another row is wanted"));
    }
}
