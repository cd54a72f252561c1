//! The words that the text of a file has for names, roles and rows.

use std::collections::BTreeMap;

/// The words of a text in the form that the samples have: a title, then lists, each a heading and lines of a number,
/// one space and words.
///
/// A list begins after the first line that is just its heading. It has the lines that begin with a number up to 255 and
/// a space, until one does not; the words of a number are those of the first of these lines that has it. Other headings
/// are not looked at.
///
/// ```
/// # use gumbyra_table as gumbyra;
/// use gumbyra::Words;
///
/// let text = b"Pumps\nNames:\n0 dosing pump\n1 hose\nRole codes:\n0 is fitted to\n1 has fitted to it\n";
/// let words = Words::of_text(text);
/// assert_eq!(words.title(), "Pumps");
/// assert_eq!((words.name(1), words.role(1)), (Some("hose"), Some("has fitted to it")));
/// assert_eq!((words.name(2), words.row(0)), (None, None));
/// ```
#[derive(Clone, Debug, Default, PartialEq, Eq)]
pub struct Words {
    title: String,
    names: List,
    roles: List,
    rows: List,
    rows_of_draft: List,
    rules: Option<Vec<u8>>,
    rules_of_draft: Option<Vec<u8>>,
    wanted: Option<Vec<u8>>,
    wanted_in_draft: Option<Vec<u8>>,
}

/// The headings: names, role codes; rows, rules and the wanted row of a rule file, and of a draft.
const NAMES: &str = "Names:";
const ROLES: &str = "Role codes:";
const OF_FILE: [&str; 3] = ["Rows:", "Rules, each true of every part:", "Wanted:"];
const OF_DRAFT: [&str; 3] =
    ["Rows of the draft:", "Rules of the draft, each true of every part:", "Wanted in the draft:"];

/// The words of each number that a list has.
type List = BTreeMap<u8, String>;

impl Words {
    /// The words of a text. Bytes that are no UTF-8 are replaced.
    pub fn of_text(text: &[u8]) -> Words {
        let text = String::from_utf8_lossy(text);
        let title = text.lines().next().filter(|line| !line.ends_with(':')).unwrap_or_default();
        Words {
            title: title.to_string(),
            names: list(&text, NAMES),
            roles: list(&text, ROLES),
            rows: list(&text, OF_FILE[0]),
            rows_of_draft: list(&text, OF_DRAFT[0]),
            rules: numbers(&text, OF_FILE[1]),
            rules_of_draft: numbers(&text, OF_DRAFT[1]),
            wanted: numbers(&text, OF_FILE[2]),
            wanted_in_draft: numbers(&text, OF_DRAFT[2]),
        }
    }

    /// Words with this title and no other yet, for [`Table::tell`](crate::Table::tell).
    pub fn titled(title: &str) -> Words {
        Words { title: one_line(title), ..Words::default() }
    }

    /// The same with these words for a name: a noun without an article.
    pub fn with_name(mut self, name: u8, words: &str) -> Words {
        self.names.insert(name, one_line(words));
        self
    }

    /// The same with these words for a role code.
    pub fn with_role(mut self, code: u8, words: &str) -> Words {
        self.roles.insert(code, one_line(words));
        self
    }

    /// The same with these words for a row of the table that they are for.
    pub fn with_row(mut self, row: u8, words: &str) -> Words {
        let rows = if self.is_of_draft() { &mut self.rows_of_draft } else { &mut self.rows };
        rows.insert(row, one_line(words));
        self
    }

    /// Has it words for rows of a draft, and none for those of a rule file?
    fn is_of_draft(&self) -> bool {
        self.rows.is_empty() && !self.rows_of_draft.is_empty()
    }

    /// The text that has these words for a table: rows, rules and the wanted row under the headings of a draft, if it
    /// is one or they are the words of one, or else of a rule file.
    pub(crate) fn text(&self, is_draft: bool, rules: &[u8], wanted: u8) -> String {
        let rows = if self.is_of_draft() { &self.rows_of_draft } else { &self.rows };
        let [rows_heading, rules_heading, wanted_heading] =
            if is_draft || self.is_of_draft() { OF_DRAFT } else { OF_FILE };
        let lines = |list: &List| list.iter().map(|(number, words)| (*number, words.clone())).collect();
        let said = |row: &u8| (*row, rows.get(row).cloned().unwrap_or_default());
        let lists: [(&str, Vec<(u8, String)>); 5] = [
            (NAMES, lines(&self.names)),
            (ROLES, lines(&self.roles)),
            (rows_heading, lines(rows)),
            (rules_heading, rules.iter().map(said).collect()),
            (wanted_heading, vec![said(&wanted)]),
        ];
        let is_written = |(heading, list): &(&str, Vec<_>)| ![NAMES, ROLES].contains(heading) || !list.is_empty();
        let mut text = format!("{}\n", self.title);
        for (heading, list) in lists.into_iter().filter(is_written) {
            text += &format!("{heading}\n");
            list.iter().for_each(|(number, words)| text += &format!("{number} {words}\n"));
        }
        text
    }

    /// The first line, unless it is a heading: that ends in a colon. Without a title it is empty.
    pub fn title(&self) -> &str {
        &self.title
    }

    /// The words of a name, below `Names:`.
    pub fn name(&self, name: u8) -> Option<&str> {
        self.names.get(&name).map(String::as_str)
    }

    /// The words of a role code, below `Role codes:`.
    pub fn role(&self, code: u8) -> Option<&str> {
        self.roles.get(&code).map(String::as_str)
    }

    /// The words of a row, below `Rows:`.
    pub fn row(&self, row: u8) -> Option<&str> {
        self.rows.get(&row).map(String::as_str)
    }

    /// The words of a row of the draft, below `Rows of the draft:`. A rule file that was converted has them too, and
    /// its rows have other numbers: [`origins`](crate::origins()) tells which.
    pub fn row_of_draft(&self, row: u8) -> Option<&str> {
        self.rows_of_draft.get(&row).map(String::as_str)
    }

    /// The rules, below `Rules, each true of every part:`; `None` without that heading.
    pub fn rules(&self) -> Option<&[u8]> {
        self.rules.as_deref()
    }

    /// The rules, below `Rules of the draft, each true of every part:`.
    pub fn rules_of_draft(&self) -> Option<&[u8]> {
        self.rules_of_draft.as_deref()
    }

    /// The wanted row, below `Wanted:`; any other number of rows is wrong.
    pub fn wanted(&self) -> Option<&[u8]> {
        self.wanted.as_deref()
    }

    /// The wanted row, below `Wanted in the draft:`.
    pub fn wanted_in_draft(&self) -> Option<&[u8]> {
        self.wanted_in_draft.as_deref()
    }
}

/// Words in one line: a list has a line for each number.
fn one_line(words: &str) -> String {
    words.chars().map(|letter| if letter.is_control() { ' ' } else { letter }).collect()
}

/// The list below a heading, by its numbers.
fn list(text: &str, heading: &str) -> List {
    let mut list = List::new();
    for (number, words) in below(text, heading).into_iter().flatten() {
        list.entry(number).or_insert_with(|| words.to_string());
    }
    list
}

/// The numbers of the list below a heading, in order; `None` if there is no such heading.
fn numbers(text: &str, heading: &str) -> Option<Vec<u8>> {
    below(text, heading).map(|lines| lines.map(|(number, _)| number).collect())
}

/// The lines below a heading, each a number and words.
fn below<'a>(text: &'a str, heading: &str) -> Option<impl Iterator<Item = (u8, &'a str)>> {
    let mut lines = text.lines();
    lines.find(|line| *line == heading)?;
    Some(lines.map_while(numbered))
}

/// The number that a line begins with, and the words behind it.
fn numbered(line: &str) -> Option<(u8, &str)> {
    let (number, words) = line.split_once(' ')?;
    let is_number = number.bytes().all(|byte| byte.is_ascii_digit());
    number.parse().ok().filter(|_| is_number).map(|number| (number, words))
}

#[cfg(test)]
mod tests {
    use super::*;

    #[test]
    fn a_list_ends_at_the_first_other_line() {
        let words = Words::of_text(b"Pumps\n\nNames:\n3 pump\n255 hose\n256 valve\n4 seal\nNames:\n5 box\n");
        assert_eq!([3, 255, 4, 5].map(|name| words.name(name)), [Some("pump"), Some("hose"), None, None]);
        for line in ["pump", "3pump", " 3 pump", "+3 pump", "-3 pump", "", "3", "three pumps"] {
            let words = Words::of_text(format!("Names:\n{line}\n4 hose").as_bytes());
            assert_eq!((words.name(3), words.name(4)), (None, None), "{line}");
        }
    }

    #[test]
    fn the_first_line_with_a_number_counts() {
        let words = Words::of_text(b"Rows:\n1 is a pump\n1 is a hose\n0 is  a \r\n2 \n");
        assert_eq!([0, 1, 2, 3].map(|row| words.row(row)), [Some("is  a "), Some("is a pump"), Some(""), None]);
    }

    #[test]
    fn lists_do_not_mix() {
        let text =
            "Names: \n0 no\nNames:\n0 a\nRole codes:\n0 b\nRows:\n0 c\nWanted:\n1 d\nRows of the draft:\n0 e\n1 f";
        let words = Words::of_text(text.as_bytes());
        assert_eq!(
            [words.name(0), words.role(0), words.row(0), words.row_of_draft(0)].map(Option::unwrap),
            ["a", "b", "c", "e"]
        );
        assert_eq!([words.name(1), words.role(1), words.row(1), words.row_of_draft(1)], [None, None, None, Some("f")]);
    }

    #[test]
    fn rules_and_the_wanted_row_are_numbers() {
        let words =
            Words::of_text(b"Rules, each true of every part:\n3 a\n3 a\n1 b\nWanted:\n2 c\nWanted in the draft:");
        assert_eq!((words.rules(), words.wanted()), (Some([3, 3, 1].as_slice()), Some([2].as_slice())));
        assert_eq!((words.rules_of_draft(), words.wanted_in_draft()), (None, Some([].as_slice())));
    }

    #[test]
    fn words_are_kept_when_some_are_added() {
        let of_draft = Words::of_text(b"Pumps\nRows of the draft:\n0 is a pump\n1 leaks\n");
        let text = of_draft.clone().with_row(1, "is\ntight").with_name(7, "pump").text(false, &[1], 0);
        let rules = "Rules of the draft, each true of every part:\n1 is tight\nWanted in the draft:\n0 is a pump\n";
        assert_eq!(text, format!("Pumps\nNames:\n7 pump\nRows of the draft:\n0 is a pump\n1 is tight\n{rules}"));
        let of_file = Words::titled("Pumps").with_row(0, "is a pump");
        assert_eq!(of_file.text(true, &[], 0).lines().nth(1), Some("Rows of the draft:"));
        assert_eq!(of_file.text(false, &[], 3).lines().last(), Some("3 "));
    }

    #[test]
    fn any_bytes_do() {
        let words = Words::of_text(b"S\xe4urepumpe\nRows:\n0 S\xc3\xa4ure\n1 \xff");
        assert_eq!((words.title(), words.row(0), words.row(1)), ("S\u{fffd}urepumpe", Some("Säure"), Some("\u{fffd}")));
        assert_eq!(Words::of_text(b""), Words::default());
        assert_eq!(Words::of_text(b"Rows:\n0 a").title(), "");
        assert_eq!(Words::of_text(b"\nPumps").title(), "");
    }
}
