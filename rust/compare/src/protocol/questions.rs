//! The words of the line protocol in tests/vectors: what a question asks, and how an answer is written.

use plain::{print, Answer, Lent, Page};

/// The longest area that a question may ask for, in bytes.
const LONGEST_AREA: usize = 1 << 26;

/// The question `fit FILE N E A EB LB`.
pub struct Fit {
    pub file: Vec<u8>,
    /// Work areas of whole records, example areas of so many bytes.
    pub lent: Lent,
}

impl Fit {
    /// Reads what follows the word `fit`; `None` if it is something else.
    pub fn parse(words: &str) -> Option<Fit> {
        let (file, sizes) = words.split_once(' ')?;
        Some(Fit { file: parse_bytes(file)?, lent: parse_lent(sizes)? })
    }
}

/// The question `wanted FILE ROWS N E A EB LB`.
pub struct Wanted {
    pub file: Vec<u8>,
    /// The wanted rows, in place of the file's own.
    pub rows: Vec<u8>,
    pub lent: Lent,
}

impl Wanted {
    /// Reads what follows the word `wanted`; `None` if it is something else.
    pub fn parse(words: &str) -> Option<Wanted> {
        let (file, rest) = words.split_once(' ')?;
        let (rows, sizes) = rest.split_once(' ')?;
        Some(Wanted { file: parse_bytes(file)?, rows: parse_bytes(rows)?, lent: parse_lent(sizes)? })
    }
}

/// The question `catalogue FILE AREA N E A`.
pub struct Kinds {
    pub file: Vec<u8>,
    /// The length of the table's area.
    pub area: usize,
    /// Work areas of whole records, no example areas.
    pub lent: Lent,
}

impl Kinds {
    /// Reads what follows the word `catalogue`; `None` if it is something else.
    pub fn parse(words: &str) -> Option<Kinds> {
        let (file, rest) = words.split_once(' ')?;
        let (area, sizes) = rest.split_once(' ')?;
        let lent = parse_lent(&format!("{sizes} 0 0"))?;
        Some(Kinds { file: parse_bytes(file)?, area: parse_size(area)?, lent })
    }
}

/// The question `convert DRAFT AREA`.
pub struct Convert {
    pub draft: Vec<u8>,
    /// The length of the lent area.
    pub area: usize,
}

impl Convert {
    /// Reads what follows the word `convert`; `None` if it is something else.
    pub fn parse(words: &str) -> Option<Convert> {
        let (draft, area) = words.split_once(' ')?;
        Some(Convert { draft: parse_bytes(draft)?, area: parse_size(area)? })
    }
}

/// The sizes `N E A EB LB`: numbers of records of the work areas, bytes of the example areas.
fn parse_lent(sizes: &str) -> Option<Lent> {
    let sizes: Vec<&str> = sizes.split(' ').collect();
    let &[nodes, edges, alternatives, elements, links] = sizes.as_slice() else { return None };
    let [nodes, edges, alternatives] = [parse_size(nodes)?, parse_size(edges)?, parse_size(alternatives)?];
    let lent = Lent::records(nodes, edges, alternatives, parse_size(elements)?, parse_size(links)?);
    let Lent { nodes, edges, alternatives, elements, links } = lent;
    let short = [nodes, edges, alternatives, elements, links].into_iter().all(|length| length <= LONGEST_AREA);
    Some(lent).filter(|_| short)
}

/// Bytes in lower-case hexadecimal digits; `-` stands for no bytes.
fn parse_bytes(word: &str) -> Option<Vec<u8>> {
    if word == "-" {
        return Some(Vec::new());
    }
    let (pairs, []) = word.as_bytes().as_chunks() else { return None };
    let bytes = pairs.iter().map(|&[high, low]| Some(16 * digit(high)? + digit(low)?));
    bytes.collect::<Option<Vec<u8>>>().filter(|bytes| !bytes.is_empty())
}

fn digit(character: u8) -> Option<u8> {
    match character {
        b'0'..=b'9' => Some(character - b'0'),
        b'a'..=b'f' => Some(character - b'a' + 10),
        _ => None,
    }
}

/// A number in decimal digits. It is small enough that no length overflows.
fn parse_size(word: &str) -> Option<usize> {
    let decimal = word.bytes().all(|character| character.is_ascii_digit());
    word.parse().ok().filter(|&size| decimal && size <= LONGEST_AREA)
}

/// What a conversion gives: the file that is written, or a refusal's number.
pub type Conversion = Result<Vec<u8>, u8>;

/// A conversion in one line.
pub fn conversion_line(conversion: &Conversion) -> String {
    match conversion {
        Ok(file) => format!("OK {}", print_bytes(file)),
        Err(number) => format!("REFUSED {number}"),
    }
}

/// A catalogue page in one line.
pub fn page_line(page: &Page) -> String {
    match page {
        Page::Refused(number) => format!("REFUSED {number}"),
        Page::Filled { names, table } => format!("TABLE {} {}", names.len(), print_bytes(table)),
    }
}

/// Bytes as a question or an answer has them.
fn print_bytes(bytes: &[u8]) -> String {
    match bytes {
        [] => "-".to_string(),
        _ => bytes.iter().map(|byte| format!("{byte:02x}")).collect(),
    }
}

/// What the printing program prints, its lines joined by `;`.
pub fn one_line(answer: &Answer) -> String {
    print(answer).trim_end().replace('\n', ";")
}

#[cfg(test)]
mod tests {
    use super::*;

    #[test]
    fn a_question_is_read() {
        let fit = Fit::parse("00ff10 1 2 3 4 5").expect("a question");
        assert_eq!((fit.file, fit.lent), (vec![0x00, 0xff, 0x10], Lent::records(1, 2, 3, 4, 5)));
        assert_eq!(Fit::parse("- 70000 0 0 0 0").expect("a question").file, b"");
    }

    #[test]
    fn a_question_about_a_draft_is_read() {
        let convert = Convert::parse("00ff10 4096").expect("a question");
        assert_eq!((convert.draft, convert.area), (vec![0x00, 0xff, 0x10], 4096));
        assert_eq!(Convert::parse("- 0").expect("a question").draft, b"");
        let others = ["", " ", "-", "- ", " -", "- -1", "- 1 2", "-  1", "0 1", "0F 1", "- 67108865"];
        assert!(others.iter().all(|words| Convert::parse(words).is_none()));
    }

    #[test]
    fn a_question_with_wanted_rows_is_read() {
        let wanted = Wanted::parse("00ff10 0203 1 2 3 4 5").expect("a question");
        assert_eq!((wanted.file, wanted.rows), (vec![0x00, 0xff, 0x10], vec![2, 3]));
        assert_eq!(wanted.lent, Lent::records(1, 2, 3, 4, 5));
        assert_eq!(Wanted::parse("- - 1 2 3 4 5").expect("a question").rows, b"");
        let others = ["", "- -", "- 1 2 3 4 5", "- 0 1 2 3 4 5", "- 0F 1 2 3 4 5", "- - 1 2 3 4", "- - 1 2 3 4 5 6"];
        assert!(others.iter().all(|words| Wanted::parse(words).is_none()));
    }

    #[test]
    fn a_question_about_kinds_is_read() {
        let kinds = Kinds::parse("00ff10 9 1 2 3").expect("a question");
        assert_eq!((kinds.file, kinds.area), (vec![0x00, 0xff, 0x10], 9));
        assert_eq!(kinds.lent, Lent::records(1, 2, 3, 0, 0));
        let others =
            ["", "-", "- 9", "- 9 1 2", "- 9 1 2 3 4", "- 9 1 2 3 ", "- x 1 2 3", "0 9 1 2 3", "- 67108865 1 2 3"];
        assert!(others.iter().all(|words| Kinds::parse(words).is_none()));
    }

    #[test]
    fn a_page_is_one_line() {
        let filled = |names: &[u8], table: &[u8]| Page::Filled { names: names.to_vec(), table: table.to_vec() };
        assert_eq!(page_line(&filled(&[3, 63], &[1, 0, 2, 1])), "TABLE 2 01000201");
        assert_eq!(page_line(&filled(&[], &[])), "TABLE 0 -");
        assert_eq!(page_line(&Page::Refused(8)), "REFUSED 8");
        assert_eq!(page_line(&Page::Refused(17)), "REFUSED 17");
    }

    #[test]
    fn a_conversion_is_one_line() {
        assert_eq!(conversion_line(&Ok(vec![0x00, 0xff, 0x10])), "OK 00ff10");
        assert_eq!(conversion_line(&Err(12)), "REFUSED 12");
    }

    #[test]
    fn anything_else_is_no_question() {
        let files = ["", "0", "0g", "0F", "-0", "--", "é"].map(|file| format!("{file} 1 2 3 4 5"));
        let sizes = ["", "+1", "-1", "x", "1.0", "67108865", "99999999999999999999", "1 6"];
        let sizes = sizes.map(|size| format!("- 1 2 3 4 {size}"));
        // A number that is all right for bytes, but not for nodes of 64 bytes.
        let others =
            ["", " ", "-", "- 1 2 3 4", "-  1 2 3 4 5", " - 1 2 3 4 5", "- 67108864 2 3 4 5"].map(String::from);
        for words in files.iter().chain(&sizes).chain(&others) {
            assert!(Fit::parse(words).is_none(), "{words}");
        }
    }
}
