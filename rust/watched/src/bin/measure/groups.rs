//! The files and drafts that are timed, in their groups. All files get a verdict in the areas of their group, each entry of a catalogue page
//! is decided there, and all drafts are converted.

use compare::files::chains::{alternatives, delay_line, shift_register, Delay, THOUSAND_STATES};
use compare::files::inclusions::long_chain;
use compare::files::kinds::{chain, most_names, random_kinds, LONGEST_CHAIN};
use compare::files::parts::Parts;
use compare::files::wide::wide;
use compare::{random_draft, random_file, Prng, Shape};
use plain::{answer, answer_wanting, Answer, Lent, Page, Used};
use std::ops::Range;

/// A file with areas that are just enough for it.
pub struct Subject {
    pub file: Vec<u8>,
    pub used: Used,
    pub enough: Lent,
}

impl Subject {
    /// `None` if the file gets no verdict in areas of these lengths.
    fn new(file: Vec<u8>, lent: &Lent) -> Option<Subject> {
        let (used, elements, links) = match answer(&file, lent) {
            Answer::Cannot { used } => (used, 0, 0),
            Answer::Can { used, elements, links } => (used, elements.len(), links.len()),
            Answer::Refused(_) | Answer::Short { .. } | Answer::TooLong { .. } => return None,
        };
        Some(Subject { file, used, enough: Lent::just(used, elements, links) })
    }
}

/// Files that are alike, and the areas that a program would lend for them.
pub struct Group {
    pub name: &'static str,
    pub lent: Lent,
    pub subjects: Vec<Subject>,
}

/// All groups.
pub fn groups() -> Vec<Group> {
    let (by_program, most) = (Lent::by_program(), Lent::most());
    let group = |name, lent, subjects| Group { name, lent, subjects };
    let half = random(40, HALF, &by_program, |subject| usize::from(rows(&subject.file)) == HALF_ROWS);
    let (apart, in_use) = (with_chain(&half, HALF.roles as u8..16, &by_program), with_chain(&half, 0..16, &by_program));
    vec![
        group("small", by_program, random(100, SMALL, &by_program, |_| true)),
        group("40 to 64 rows", by_program, random(40, LARGE, &by_program, is_large)),
        group("thousand states", most, thousand_states(&most)),
        group("many alternatives", by_program, many_alternatives(&by_program)),
        group("large examples", most, large_examples(&most)),
        group("32 rows", by_program, half),
        group("and a chain apart", by_program, apart),
        group("and one in use", by_program, in_use),
    ]
}

/// All groups of files whose catalogue pages are made. What is just enough for a page is so for the largest of its runs.
pub fn page_groups() -> Vec<Group> {
    let lent = Lent::by_program();
    let pages = |files: Vec<Vec<u8>>| files.into_iter().filter_map(|file| page(file, &lent)).collect();
    let mut prng = Prng::new(23);
    let random = std::iter::repeat_with(|| random_kinds(&mut prng, KINDS)).filter_map(|file| page(file, &lent));
    let middling = random.filter(|subject| rows(&subject.file) >= 40 && subject.used.nodes >= 40).take(10).collect();
    vec![
        Group { name: "page of 32 names", lent, subjects: pages(vec![most_names(&[], &[]), most_names(&[0], &[37])]) },
        Group { name: "of 21, in a chain", lent, subjects: pages(vec![chain(LONGEST_CHAIN)]) },
        Group { name: "of 5 to 10 names", lent, subjects: middling },
    ]
}

/// A file with the records of the largest run of its page; `None` if that has less than five names or an entry that is not decided.
fn page(file: Vec<u8>, lent: &Lent) -> Option<Subject> {
    let Page::Filled { names, .. } = plain::catalogue(&file, usize::MAX, lent) else { return None };
    let rows = Parts::of(&file).rows;
    let place = |kind: u8, name: u8| rows.iter().position(|&row| row == [kind, 0, name, 0]).expect("a row") as u8;
    let mut most = Used { nodes: 0, edges: 0, alternatives: 0 };
    for list in names.iter().flat_map(|&a| names.iter().map(move |&b| [(1, a), (2, b)])) {
        match answer_wanting(&file, &list.map(|(kind, name)| place(kind, name)), lent) {
            Answer::Cannot { used } | Answer::Can { used, .. } => most = larger(most, used),
            Answer::Refused(_) | Answer::Short { .. } | Answer::TooLong { .. } => return None,
        }
    }
    (names.len() >= 5).then(|| Subject { file, used: most, enough: Lent::just(most, 0, 0) })
}

/// The larger number of each kind of record.
fn larger(one: Used, other: Used) -> Used {
    Used {
        nodes: one.nodes.max(other.nodes),
        edges: one.edges.max(other.edges),
        alternatives: one.alternatives.max(other.alternatives),
    }
}

/// Drafts that are alike.
pub struct DraftGroup {
    pub name: &'static str,
    pub drafts: Vec<Vec<u8>>,
}

/// All groups of drafts.
pub fn draft_groups() -> Vec<DraftGroup> {
    let large = Shape { rules: 30, compound: 58, ..LARGE };
    vec![
        DraftGroup { name: "small drafts", drafts: random_drafts(100, SMALL, |_| true) },
        DraftGroup { name: "drafts 40-64 rows", drafts: random_drafts(40, large, |draft| rows(draft) >= 40) },
    ]
}

/// One kind of file in rising sizes, for the growth of the time with the nodes used.
pub fn rising() -> Vec<Subject> {
    let file = |line| delay_line(Delay { line, pause: 3, tail: 8 }, true);
    (4..=12).filter_map(|line| Subject::new(file(line), &Lent::most())).collect()
}

const SMALL: Shape = Shape { names: 2, roles: 2, compound: 10, rules: 3, text: 0 };
const LARGE: Shape = Shape { names: 6, roles: 3, compound: 52, rules: 12, text: 0 };
const INVERSE: Shape = Shape { names: 3, roles: 1, compound: 30, rules: 3, text: 0 };
const KINDS: Shape = Shape { names: 10, roles: 3, compound: 16, rules: 1, text: 0 };
/// Half as many rows as a file can have, and room for as many of kind 7.
const HALF: Shape = Shape { names: 4, roles: 3, compound: 24, rules: 6, text: 0 };
const HALF_ROWS: usize = 32;

/// The place of the number of rows, from a file's end.
const ROWS_FROM_END: usize = 6;

fn rows(file: &[u8]) -> u8 {
    file[file.len() - ROWS_FROM_END]
}

fn is_large(subject: &Subject) -> bool {
    rows(&subject.file) >= 40 && subject.used.nodes >= 100
}

/// The first so many random files of a shape that pass.
fn random(count: usize, shape: Shape, lent: &Lent, passes: impl Fn(&Subject) -> bool) -> Vec<Subject> {
    let mut prng = Prng::new(21);
    let files = std::iter::repeat_with(|| random_file(&mut prng, shape));
    files.filter_map(|file| Subject::new(file, lent)).filter(passes).take(count).collect()
}

/// The first so many random drafts of a shape that are converted into a file of less than 1,000 bytes, so without a long text, and
/// pass.
fn random_drafts(count: usize, shape: Shape, passes: impl Fn(&[u8]) -> bool) -> Vec<Vec<u8>> {
    let mut prng = Prng::new(22);
    let drafts = std::iter::repeat_with(|| random_draft(&mut prng, shape));
    drafts.filter(|draft| plain::convert(draft, 1000).is_ok() && passes(draft)).take(count).collect()
}

fn thousand_states(lent: &Lent) -> Vec<Subject> {
    let files = [true, false].map(|forbid| [delay_line(THOUSAND_STATES, forbid), shift_register(forbid)]);
    files.into_iter().flatten().filter_map(|file| Subject::new(file, lent)).collect()
}

fn many_alternatives(lent: &Lent) -> Vec<Subject> {
    let made = (3..=5).filter_map(|names| Subject::new(alternatives(names), lent));
    made.chain(random(20, INVERSE, lent, |subject| subject.used.alternatives >= 10)).collect()
}

/// 64 rows, 64 to 1,221 elements and some 2,000 links: more links cannot be had in 4,096 edges.
fn large_examples(lent: &Lent) -> Vec<Subject> {
    wide().into_iter().filter_map(|file| Subject::new(file, lent)).collect()
}

/// The same files with 32 kind 7 rows more, in one long chain of these roles. Roles that no other row has change nothing in the runs.
fn with_chain(subjects: &[Subject], roles: Range<u8>, lent: &Lent) -> Vec<Subject> {
    let chain = long_chain(roles, HALF_ROWS);
    let file = |subject: &Subject| Parts::of(&subject.file).after(&chain).bytes();
    subjects.iter().filter_map(|subject| Subject::new(file(subject), lent)).collect()
}
