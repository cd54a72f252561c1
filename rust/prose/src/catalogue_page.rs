//! The catalogue page of a rule file: which of its kinds are which, as a table and in sentences.

use crate::kinds::Known;
use crate::phrases::{enumerated, Said};
use crate::wording::Wording;
use gumbyra::{Catalogue, IsA, Refusal, Sizes, Space, Table, Verdict, LARGEST_TABLE, NAMES};

/// The page of a rule file, each run in areas of these sizes.
pub fn page(file: &[u8], sizes: Sizes) -> Result<String, Refusal> {
    let mut space = Space::with(sizes);
    let mut area = [0; LARGEST_TABLE];
    let catalogue = space.catalogue(file, &mut area)?;
    let table = Table::read(file).unwrap_or_else(|fault| panic!("a file that the engine reads has a fault: {fault}"));
    let wording = Wording::of(&table);
    let kinds: Vec<Kind> = catalogue.names().iter().map(|name| Kind { name, said: wording.name(name) }).collect();
    if kinds.is_empty() {
        return Ok("No name has both a row of kind 1 and one of kind 2, so there is nothing to tell.\n".to_string());
    }
    let mut runs = Runs { space, file, table: &table, sizes, short: Vec::new() };
    let sentence = |kind: &Kind| known(&catalogue, &kinds, kind, &mut runs).sentence();
    let sentences: String = kinds.iter().map(sentence).collect();
    let open = runs.undecided_line(&catalogue);
    let blocks = [printed_table(&catalogue, &kinds), sentences, open, not_listed(&table, &wording)];
    Ok(blocks.into_iter().filter(|block| !block.is_empty()).collect::<Vec<_>>().join("\n"))
}

/// The names that have one of the two rows only.
fn not_listed(table: &Table, wording: &Wording) -> String {
    let has_one = |&name: &u8| table.row_of_name(name).is_some() != table.row_of_not_name(name).is_some();
    let names: Vec<String> = (0..NAMES).filter(has_one).map(|name| wording.name(name).label()).collect();
    match names.as_slice() {
        [] => String::new(),
        _ => format!("Not listed, without a row of kind 1 or one of kind 2: {}.\n", names.join(", ")),
    }
}

/// A name that is listed, and how it is said.
struct Kind<'a> {
    name: u8,
    said: &'a Said,
}

/// The table: a row and a column for each kind, the columns headed by the names' numbers.
fn printed_table(catalogue: &Catalogue, kinds: &[Kind]) -> String {
    let width = kinds.iter().map(|kind| kind.said.label().chars().count()).max().unwrap_or(0).max("every".len());
    let line = |number: &str, words: &str, entries: Vec<String>| {
        let entries: String = entries.iter().map(|entry| format!(" {entry:>4}")).collect();
        format!("{number:>2} {words:<width$}{entries}\n")
    };
    let heads = kinds.iter().map(|kind| kind.name.to_string()).collect();
    let mut table = line("", "every", heads);
    for a in kinds {
        let entries = kinds.iter().map(|b| printed(entry(catalogue, a, b)).to_string()).collect();
        table += &line(&a.name.to_string(), &a.said.label(), entries);
    }
    table
}

/// Is every part of the one kind one of the other?
fn entry(catalogue: &Catalogue, a: &Kind, b: &Kind) -> IsA {
    catalogue.is_a(a.name, b.name).expect("both are listed")
}

fn printed(entry: IsA) -> &'static str {
    match entry {
        IsA::Always => "yes",
        IsA::NotAlways => "-",
        IsA::Undecided => "?",
    }
}

/// What the table and, where that leaves it open, a further run tell of a kind.
fn known<'a>(catalogue: &Catalogue, kinds: &[Kind<'a>], kind: &Kind<'a>, runs: &mut Runs) -> Known<'a> {
    let others = |is: IsA| {
        let others = kinds.iter().filter(|other| other.name != kind.name && entry(catalogue, kind, other) == is);
        others.map(|other| other.said).collect::<Vec<_>>()
    };
    // One that isn't something else is one.
    let is_one = !others(IsA::NotAlways).is_empty();
    let can_exist = if is_one { Some(true) } else { runs.can_exist(kind.name) };
    Known { kind: kind.said, always: others(IsA::Always), undecided: others(IsA::Undecided), can_exist }
}

/// Runs beside those of the table, in the same sizes.
struct Runs<'a> {
    space: Space,
    file: &'a [u8],
    table: &'a Table,
    sizes: Sizes,
    /// The refusals for want of records, once each.
    short: Vec<Refusal>,
}

impl Runs<'_> {
    /// Can there be a part with this name? `None` if the areas did not suffice to decide it.
    fn can_exist(&mut self, name: u8) -> Option<bool> {
        let row = self.table.row_of_name(name).expect("a name that is listed has a kind 1 row");
        self.can(&[row])
    }

    fn can(&mut self, wanted: &[u8]) -> Option<bool> {
        match self.space.fit_wanted(self.file, wanted) {
            Ok(verdict) => Some(matches!(verdict, Verdict::Can { .. })),
            Err(Refusal::ExampleTooLong { .. }) => Some(true),
            Err(refusal) => {
                if !self.short.contains(&refusal) {
                    self.short.push(refusal);
                }
                None
            }
        }
    }

    /// If something is not decided: how much, for want of what, and what to call instead.
    fn undecided_line(mut self, catalogue: &Catalogue) -> String {
        let names: Vec<u8> = catalogue.names().iter().collect();
        let pairs = names.iter().flat_map(|&a| names.iter().map(move |&b| (a, b)));
        let open: Vec<(u8, u8)> = pairs.filter(|&(a, b)| catalogue.is_a(a, b) == Some(IsA::Undecided)).collect();
        for &(a, b) in &open {
            let rows = [self.table.row_of_name(a), self.table.row_of_not_name(b)];
            self.can(&rows.map(|row| row.expect("a name that is listed has both rows")));
        }
        if self.short.is_empty() {
            return String::new();
        }
        let what = match open.len() {
            0 => "Whether there can be parts of some kinds is".to_string(),
            1 => "1 entry is".to_string(),
            many => format!("{many} entries are"),
        };
        format!("{what} not decided, for want of {}. {}\n", self.short_areas(), self.call())
    }

    /// "nodes (60 lent)".
    fn short_areas(&self) -> String {
        let area = |refusal: &Refusal| match refusal {
            Refusal::NodesShort { lent } => format!("nodes ({lent} lent)"),
            Refusal::EdgesShort { lent } => format!("edges ({lent} lent)"),
            Refusal::AlternativesShort { lent } => format!("alternatives ({lent} lent)"),
            other => panic!("no area is short: {other}"),
        };
        enumerated(&self.short.iter().map(area).collect::<Vec<_>>(), "and")
    }

    /// What to call with twice the records of what was short; with the most that count, what to read.
    fn call(&self) -> String {
        let larger = self.short.iter().fold(self.sizes, |sizes, &refusal| sizes.enlarged(refusal).unwrap_or(sizes));
        if larger == self.sizes {
            return "No larger area helps: docs/RULE-FILES.md, How many rules fit, says what may.".to_string();
        }
        let numbers = [larger.nodes, larger.edges, larger.alternatives];
        let usual = [Sizes::USUAL.nodes, Sizes::USUAL.edges, Sizes::USUAL.alternatives];
        let told = (0..3).rev().find(|&at| numbers[at] != usual[at]).map_or(1, |at| at + 1);
        let numbers = numbers[..told].iter().map(usize::to_string).collect::<Vec<_>>().join(" ");
        format!("More may decide them: ./catalogue FILE {numbers}")
    }
}
