//! The fit engine for order programs: is there an assembly that obeys every rule of a rule file and has a member of the
//! kit?
//!
//! ```
//! use gumbyra::{Space, Verdict};
//!
//! // Rows: a name; all along role 0 turned round: row 0; some along role 0: row 1. Wanted: row 2.
//! let file = [1, 0, 0, 0, 5, 1, 0, 0, 6, 0, 1, 0, 0, 0, 3, 0, 2, b'F', b'I', b'T'];
//!
//! let mut space = Space::usual();
//! match space.fit(&file) {
//!     Ok(Verdict::Can { example, .. }) => example.links().for_each(|link| println!("{link:?}")),
//!     Ok(Verdict::Cannot { .. }) => println!("no assembly of any size has this kit"),
//!     Err(refusal) => println!("{refusal}"),
//! }
//! ```
//!
//! The calls are [`fit`](fit()), [`fit_wanted`](fit_wanted()), [`catalogue`](catalogue()), [`text`], [`text_wanted`]
//! and [`convert`](convert()). They work in lent areas ([`Areas`], [`WorkAreas`]), or in a [`Space`] that owns them,
//! and give a [`Verdict`], a [`Catalogue`] or a [`Refusal`]. Engine, catalogue and converter are proved. This crate
//! only hands slices over and reads the numbers and bytes that come back. The calls allocate nothing. To read and write
//! rule files, to tell which row a refusal is about and to put words to an answer there are [`Table`], [`Fault`],
//! [`Words`] and [`origins`](origins()): these are not proved.
//!
//! The library is for x86-64 Linux only. For a call of this build a stack of 1 MiB suffices; a thread of Rust has 2 by
//! default.
//!
#![doc = include_str!("format.md")]
#![warn(missing_docs)]

mod catalogue;
#[allow(unsafe_code)]
mod convention;
mod conversion;
mod example;
mod names;
mod refusal;
mod row_set;
mod space;
mod verdict;
mod version;

pub use catalogue::{Catalogue, IsA, LARGEST_TABLE, MOST_NAMES};
pub use example::{Assembly, Example, Link, LINK_BYTES};
#[doc(inline)]
pub use gumbyra_table::{origins, Fault, Origin, Place, Row, Table, Words, LONGEST_FILE, NAMES, ROLE_CODES};
pub use names::Names;
pub use refusal::Refusal;
pub use row_set::{RowSet, ELEMENT_BYTES};
pub use space::{Areas, Sizes, Space, WorkAreas, ALTERNATIVE_BYTES, EDGE_BYTES, MOST_RECORDS, NODE_BYTES};
pub use verdict::{Used, Verdict};
pub use version::{library_sentence, library_version, VERSION};

/// Decides a rule file in lent areas. [`Space`] has areas of its own. With "can" each element of the example lists the
/// rows that hold there, all of them and no other. The text of the file, as this call reads it, is [`text`].
///
/// ```
/// use gumbyra::{fit, Areas, Link, Verdict, ALTERNATIVE_BYTES, EDGE_BYTES, NODE_BYTES};
/// # let file = [1, 0, 0, 0, 5, 1, 0, 0, 6, 0, 1, 0, 0, 0, 3, 0, 2, b'F', b'I', b'T'];
///
/// let (mut nodes, mut edges) = ([0; 8 * NODE_BYTES], [0; 7 * EDGE_BYTES]);
/// let (mut alternatives, mut elements, mut links) = ([0; ALTERNATIVE_BYTES], [0; 64], [0; 64]);
/// let areas = Areas {
///     nodes: &mut nodes,
///     edges: &mut edges,
///     alternatives: &mut alternatives,
///     elements: &mut elements,
///     links: &mut links,
/// };
/// let Verdict::Can { used, example } = fit(&file, areas)? else { panic!("the kit can exist") };
/// assert_eq!((used.nodes, used.edges, used.alternatives), (8, 7, 1));
/// assert_eq!(example.elements().map(|rows| rows.rows().collect()).collect::<Vec<Vec<_>>>(), [vec![0, 1, 2], vec![1]]);
/// assert_eq!(example.links().collect::<Vec<_>>(), [Link { from: 0, role: 0, to: 1 }]);
/// # Ok::<(), gumbyra::Refusal>(())
/// ```
///
/// A row of kind 7 says that every pair of one role is also a pair of another, so that a rule about the wider role need
/// not be written again for each narrower one:
///
/// ```
/// use gumbyra::{Link, Refusal, Space, Table, Verdict};
///
/// // Codes: 0 is fitted to, 2 is screwed to, 4 is glued to; an odd code is the way back.
/// let mut table = Table::default();
/// let ways = [table.within(2, 0), table.within(4, 0)];
/// let (pump, acid_proof, not_acid_proof) = (table.name(0), table.name(1), table.not_name(1));
/// let only_such_parts = table.all(1, acid_proof);
/// let such_a_pump = table.both(pump, only_such_parts);
/// let glued = table.some(4, such_a_pump);
/// table.wanted = glued;
///
/// let (file, mut space) = (table.encode()?, Space::usual());
/// let Verdict::Can { example, .. } = space.fit(&file)? else { panic!("the kit can exist") };
/// let part = example.elements().next().expect("element 0");
/// assert!(part.contains(acid_proof), "what is glued to the pump is fitted to it");
/// assert!(example.elements().all(|rows| ways.iter().all(|&way| !rows.contains(way))), "these speak of roles");
/// assert_eq!(example.links().collect::<Vec<_>>(), [Link { from: 0, role: 4, to: 1 }], "a link has its own role");
///
/// // A part that is not acid-proof.
/// table.wanted = table.both(not_acid_proof, glued);
/// assert!(matches!(space.fit(&table.encode()?)?, Verdict::Cannot { .. }));
///
/// // Such a row is no rule: it holds without being one. The byte before the eight last is the rule.
/// table.rule(pump);
/// let mut file = table.encode()?;
/// let rule = file.len() - 9;
/// file[rule] = ways[0];
/// assert_eq!(space.fit(&file), Err(Refusal::Inclusion));
/// # Ok::<(), Box<dyn std::error::Error>>(())
/// ```
///
/// # Panics
/// If the numbers that come back are of no answer: then the library is not the one that this crate was written for.
pub fn fit<'a>(file: &[u8], mut areas: Areas<'a>) -> Result<Verdict<'a>, Refusal> {
    let answer = convention::fit(file, &mut areas);
    verdict::outcome(&answer, [areas.elements, areas.links])
}

/// Decides a rule file with a list of wanted rows in place of its own wanted row: can there be a member of all of them?
/// [`fit`](fit()) is this with the file's one row.
///
/// The list may have any length, repeats, and no row at all: then any element is a member. The file's own wanted row is
/// not looked at, and refusals 8 and 16 come if one of the list is no row, or one of kind 7. The text of the file, as
/// this call reads it, is [`text_wanted`] with the same list.
///
/// ```
/// use gumbyra::{Refusal, Space, Table, Verdict};
///
/// // A peristaltic pump is a dosing pump. The file itself wants row 0.
/// let mut table = Table::default();
/// let (dosing, not_dosing) = (table.name(0), table.not_name(0));
/// let (peristaltic, not_peristaltic) = (table.name(1), table.not_name(1));
/// let rule = table.either(not_peristaltic, dosing);
/// table.rule(rule);
///
/// let (file, mut space) = (table.encode()?, Space::usual());
/// let mut can = |wanted: &[u8]| Ok::<_, Refusal>(matches!(space.fit_wanted(&file, wanted)?, Verdict::Can { .. }));
/// assert!(can(&[peristaltic])? && can(&[not_dosing])?, "there are both");
/// assert!(!can(&[peristaltic, not_dosing])?, "but not in one");
/// assert!(!can(&[not_dosing, peristaltic, peristaltic])?, "in whichever order and however often they are named");
/// assert!(can(&[])?, "there is something at all");
/// assert_eq!(can(&[peristaltic, 5]), Err(Refusal::NoSuchRow));
/// # Ok::<(), Box<dyn std::error::Error>>(())
/// ```
///
/// # Panics
/// As [`fit`](fit()).
pub fn fit_wanted<'a>(file: &[u8], wanted: &[u8], mut areas: Areas<'a>) -> Result<Verdict<'a>, Refusal> {
    let answer = convention::fit_wanted(file, wanted, &mut areas);
    verdict::outcome(&answer, [areas.elements, areas.links])
}

/// Which kinds of part are which: fills a square table of the names of a rule file that have both a kind 1 and a kind 2
/// row, in order of name. Row a, column b says whether every a is a b, each entry by a run of its own in the same work
/// areas.
///
/// The file is checked as it stands, its own wanted row too, but that has no say in the table; so its text is [`text`].
/// After a catalogue the bytes of the table's area past the table are as they were; after a refusal all areas are.
/// [`LARGEST_TABLE`] bytes suffice for every table.
///
/// ```
/// use gumbyra::{catalogue, IsA, Refusal, Table, WorkAreas, ALTERNATIVE_BYTES, EDGE_BYTES, NODE_BYTES};
///
/// // Names: 3 dosing pump, 5 peristaltic pump, 9 hose; of each that it is one, and that it is none. Code 1: has fitted
/// // to it.
/// let mut kinds = Table::default();
/// let (dosing, _) = (kinds.name(3), kinds.not_name(3));
/// let (_, not_peristaltic) = (kinds.name(5), kinds.not_name(5));
/// let (hose, no_hose) = (kinds.name(9), kinds.not_name(9));
/// // A peristaltic pump has some hose fitted to it; what has some hose fitted to it is a dosing pump.
/// let (some_hose, only_others) = (kinds.some(1, hose), kinds.all(1, no_hose));
/// kinds.rules = vec![kinds.either(not_peristaltic, some_hose), kinds.either(only_others, dosing)];
/// let file = kinds.encode()?;
///
/// let (mut nodes, mut edges) = ([0; 64 * NODE_BYTES], [0; 64 * EDGE_BYTES]);
/// let mut alternatives = [0; 8 * ALTERNATIVE_BYTES];
/// let mut table = [7; 10];
/// let work = WorkAreas { nodes: &mut nodes, edges: &mut edges, alternatives: &mut alternatives };
/// let page = catalogue(&file, work, &mut table)?;
/// assert_eq!(page.names().iter().collect::<Vec<_>>(), [3, 5, 9]);
/// assert_eq!(page.is_a(5, 3), Some(IsA::Always), "every peristaltic pump is a dosing pump");
/// assert_eq!(page.is_a(3, 5), Some(IsA::NotAlways), "but not the other way");
/// assert_eq!(page.is_a(5, 4), None, "there is no name 4");
/// assert_eq!(table, [1, 0, 0, 1, 1, 0, 0, 0, 1, 7], "row after row; the last byte is not the table's");
///
/// // Without nodes nothing is decided, and nine bytes are needed.
/// let work = WorkAreas { nodes: &mut [], edges: &mut edges, alternatives: &mut alternatives };
/// assert_eq!(catalogue(&file, work, &mut table)?.is_a(5, 5), Some(IsA::Undecided));
/// let work = WorkAreas { nodes: &mut nodes, edges: &mut edges, alternatives: &mut alternatives };
/// assert_eq!(catalogue(&file, work, &mut table[..8]), Err(Refusal::TableShort));
/// # Ok::<(), Box<dyn std::error::Error>>(())
/// ```
///
/// # Panics
/// If the numbers or the table that come back are of no answer: then the library is not the one that this crate was
/// written for.
pub fn catalogue<'a>(file: &[u8], work: WorkAreas, table: &'a mut [u8]) -> Result<Catalogue<'a>, Refusal> {
    let page = convention::catalogue(file, work, table);
    catalogue::outcome(&page, table).unwrap_or_else(|| panic!("no answer of the catalogue: {page:?}"))
}

/// The text of a rule file: the part of the file before its rows, uncopied. Of a file that a file check refuses (1 to 8
/// and 16) it is the empty part at the file's start.
///
/// The file is read with its own wanted row, as [`fit`](fit()) and [`catalogue`](catalogue()) read it; for
/// [`fit_wanted`] there is [`text_wanted`].
///
/// ```
/// let mut file = *b"valve\x01\0\0\0\x05\0\x01\0\0FIT";
/// assert_eq!(gumbyra::text(&file), b"valve");
/// assert_eq!(gumbyra::text(&file).as_ptr(), file.as_ptr());
///
/// // Without the mark at its end the file is refused.
/// *file.last_mut().unwrap() = 0;
/// assert_eq!(gumbyra::text(&file), b"");
/// ```
pub fn text(file: &[u8]) -> &[u8] {
    &file[..convention::gumbyra_text(file)]
}

/// The text of a rule file that is read with a list of wanted rows in place of its own, as [`fit_wanted`] reads it. Of
/// a file that is then refused with 1 to 8 or 16 it is the empty part at the file's start. [`text`] is this with the
/// file's one row.
///
/// ```
/// use gumbyra::{text, text_wanted, Refusal, Space, Verdict};
///
/// // One row. The file's own wanted row is 9, which is no row; the list has a row in its place.
/// let mut file = *b"abc\x01\0\0\0\x03\0\x01\0\x09FIT";
/// let mut space = Space::usual();
/// assert!(matches!(space.fit_wanted(&file, &[0]), Ok(Verdict::Can { .. })));
/// assert_eq!((text_wanted(&file, &[0]), text(&file)), (b"abc".as_slice(), b"".as_slice()));
/// assert_eq!(text_wanted(&file, &[0]).as_ptr(), file.as_ptr());
///
/// // The file's own wanted row is row 0, and the list has none.
/// file[11] = 0;
/// assert_eq!(space.fit_wanted(&file, &[7]), Err(Refusal::NoSuchRow));
/// assert_eq!((text_wanted(&file, &[7]), text(&file)), (b"".as_slice(), b"abc".as_slice()));
/// ```
pub fn text_wanted<'a>(file: &'a [u8], wanted: &[u8]) -> &'a [u8] {
    &file[..convention::gumbyra_text_wanted(file, wanted)]
}

/// Converts a draft, a rule file with two more kinds of row: 8, not the left row, and 9, if left then right. Gives the
/// part of the area that is the file, a rule file of the same text and the same meaning without these kinds.
///
/// Rows of kind 7 are kept, all of them, before the other rows. Bytes of the area past the result are kept, and after a
/// refusal it is as it was. It may be of any length and hold anything; [`LONGEST_FILE`] bytes suffice.
///
/// ```
/// use gumbyra::{convert, Refusal, Row, Space, Table, Verdict, LONGEST_FILE};
///
/// // If it is a dosing pump, it is a pump. Wanted: a dosing pump that is not a pump.
/// let mut table = Table::default();
/// let (dosing, pump) = (table.name(0), table.name(1));
/// let rule = table.if_then(dosing, pump);
/// table.rule(rule);
/// let no_pump = table.not(pump);
/// table.wanted = table.both(dosing, no_pump);
/// let draft = table.encode()?;
///
/// let mut area = [0; LONGEST_FILE];
/// let file = convert(&draft, &mut area)?;
/// let rule = [Row::NotName(0), Row::Name(1), Row::Either(0, 1)];
/// let wanted = [Row::Name(0), Row::NotName(1), Row::Both(3, 4)];
/// let rows = [rule, wanted].concat();
/// assert_eq!(Table::read(file)?, Table { rows, rules: vec![2], wanted: 5, ..Table::default() });
/// assert!(matches!(Space::usual().fit(file)?, Verdict::Cannot { .. }));
///
/// // The draft itself is no rule file, and a short area does not do.
/// assert_eq!(Space::usual().fit(&draft), Err(Refusal::Row));
/// assert_eq!(convert(&draft, &mut [0; 32]), Err(Refusal::ResultTooLong));
/// # Ok::<(), Box<dyn std::error::Error>>(())
/// ```
///
/// # Panics
/// If the numbers that come back are of no answer: then the library is not the one that this crate was written for.
pub fn convert<'a>(draft: &[u8], area: &'a mut [u8]) -> Result<&'a [u8], Refusal> {
    let answer = convention::gumbyra_convert(draft, area);
    conversion::outcome(&answer, area).unwrap_or_else(|| panic!("no answer of the converter: {answer:?}"))
}
