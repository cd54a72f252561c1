//! Words for the names, role codes and rows of a rule file or a draft: those of its text where they may be used, else
//! composed ones.

use crate::composed::composed;
use crate::phrases::Said;
use crate::trust::{doubt, may_be_converted, says_name, Lists};
use gumbyra::{Origin, Row, Table, Words, NAMES, ROLE_CODES};

/// Of a file that `./convert` could have written.
const IF_CONVERTED: &str = " If it was a draft, ask with the draft: the text may be about its rows.";

/// Words for one table.
#[derive(Clone, Debug)]
pub struct Wording {
    title: String,
    names: Vec<Said>,
    roles: Vec<Option<String>>,
    rows: Vec<String>,
    source: String,
}

impl Wording {
    /// For a rule file or a draft.
    pub fn of(table: &Table) -> Wording {
        let words = table.words();
        let (lists, doubt) = lists_of(table, &words);
        let list: Option<Vec<String>> = match doubt {
            None => table.numbered().map(|(row, _)| lists.row(&words, row).map(clean)).collect(),
            Some(_) => None,
        };
        let names: Vec<Said> = (0..NAMES).map(|name| said(table, &words, list.as_deref(), name)).collect();
        let roles: Vec<Option<String>> = (0..ROLE_CODES).map(|code| words.role(code).and_then(told)).collect();
        let composed = composed(table, &|name| names[usize::from(name)].clone(), &|code| quoted(&roles, code));
        let rows = match list {
            Some(list) => list
                .iter()
                .zip(&composed)
                .zip(&table.rows)
                .map(|((listed, composed), &row)| preferred(&words, row, listed, composed))
                .collect(),
            None => composed,
        };
        Wording { title: clean(words.title()), names, roles, rows, source: source(table, &words, doubt) }
    }

    /// For the rule file that a draft becomes: each row has the words of the draft's row that it stands for, or "not:"
    /// before them.
    pub fn of_converted(draft: &Table, file: &Table, origins: &[Vec<Origin>]) -> Wording {
        let of_draft = Wording::of(draft);
        let rows = file.rows.iter().zip(origins).map(|(&row, stands_for)| of_draft.origin(draft, row, stands_for));
        let source = format!("The answer is that of the rule file which the draft becomes.\n{}", of_draft.source());
        Wording { rows: rows.collect(), source, ..of_draft.clone() }
    }

    /// The words of what a row stands for; those of the draft's own "not" where it has one.
    fn origin(&self, draft: &Table, row: Row, stands_for: &[Origin]) -> String {
        let own = stands_for.iter().find(|origin| !origin.opposite).map(|origin| origin.row);
        let negated = || stands_for.iter().find_map(|origin| draft.find(Row::Not(origin.row)));
        let literal = || match row {
            Row::Name(name) => Some(self.name(name).is()),
            Row::NotName(name) => Some(self.name(name).is_not()),
            _ => None,
        };
        let not = || stands_for.first().map(|origin| format!("not: {}", self.row(origin.row)));
        let words = own.or_else(negated).map(|row| self.row(row).to_string());
        words.or_else(literal).or_else(not).unwrap_or_default()
    }

    /// The text's first line; empty if it has none.
    pub fn title(&self) -> &str {
        &self.title
    }

    /// How a name below 64 is said.
    pub fn name(&self, name: u8) -> &Said {
        &self.names[usize::from(name)]
    }

    /// The words of a row.
    pub fn row(&self, row: u8) -> &str {
        &self.rows[usize::from(row)]
    }

    /// The words that the text has for a role code.
    pub fn role(&self, code: u8) -> Option<&str> {
        self.roles.get(usize::from(code))?.as_deref()
    }

    /// Where the words of the rows come from, as a sentence.
    pub fn source(&self) -> &str {
        &self.source
    }
}

/// The lists that belong to the table, and what speaks against its list of rows. In a draft a list that is headed as a
/// rule file's is the draft's own; and a draft may do without "not" and "if".
fn lists_of(table: &Table, words: &Words) -> (Lists, Option<String>) {
    let is_draft = || table.is_draft() || !Lists::OfFile.has_rows(words) && !may_be_converted(table);
    let of_draft = Lists::OfDraft.has_rows(words) && is_draft();
    let lists = if of_draft { Lists::OfDraft } else { Lists::OfFile };
    (lists, doubt(table, words, lists))
}

fn source(table: &Table, words: &Words, doubt: Option<String>) -> String {
    let Some(doubt) = doubt else {
        let of_text = "The words of the rows are those of the text, and not proved.";
        // Nothing contradicts the list, and still it may be the draft's: only the draft is sure.
        let draft = if !table.is_draft() && may_be_converted(table) { IF_CONVERTED } else { "" };
        return format!("{of_text}{draft}");
    };
    if !table.is_draft() && Lists::OfDraft.has_rows(words) && !Lists::OfFile.has_rows(words) {
        let why = "those of the text are for the rows of a draft, and ./show of the draft has them";
        return format!("The words of the rows are composed: {why}.");
    }
    format!("The words of the rows are composed: {doubt}.")
}

/// How a name is said: by the list of names; by the words of its row, if they say the same or the list has none; by its
/// number.
fn said(table: &Table, words: &Words, list: Option<&[String]>, name: u8) -> Said {
    let listed = |row: Option<u8>| row.and_then(|row| list?.get(usize::from(row)));
    let of_opposite = || listed(table.row_of_not_name(name)).map(|words| Said::of_opposite(words));
    match (words.name(name).and_then(told), listed(table.row_of_name(name))) {
        (Some(noun), Some(row)) if says_name(row, &noun) => Said::of_row(row),
        (Some(noun), _) => Said::Noun(noun),
        (None, Some(row)) => Said::of_row(row),
        (None, None) => of_opposite().unwrap_or(Said::Number(name)),
    }
}

/// The words of a row in a table that has a list: of a name those of the list of names, if there are.
fn preferred(words: &Words, row: Row, listed: &str, composed: &str) -> String {
    match row {
        Row::Name(name) if words.name(name).and_then(told).is_some() => composed.to_string(),
        _ => listed.to_string(),
    }
}

/// A role in composed words.
fn quoted(roles: &[Option<String>], code: u8) -> String {
    let words = |code: u8| roles.get(usize::from(code)).and_then(Option::as_ref);
    match (words(code), words(code ^ 1)) {
        (Some(role), _) => format!("\"{role}\""),
        (None, Some(inverse)) => format!("\"{inverse}\" backwards"),
        (None, None) => format!("along {code}"),
    }
}

/// The words, if there are any.
fn told(words: &str) -> Option<String> {
    Some(clean(words)).filter(|words| !words.is_empty())
}

/// Words without what a terminal would take for commands.
fn clean(words: &str) -> String {
    words.chars().map(|c| if c.is_control() { ' ' } else { c }).collect::<String>().trim().to_string()
}
