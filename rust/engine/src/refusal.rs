//! Refusals: their numbers, their sentences, and which row one is about.

use crate::space::MOST_RECORDS;
use gumbyra_table::{Fault, Place, Table};
use std::fmt;

/// Why there is no verdict, no file from a draft, or no catalogue page.
///
/// Later versions of the engine have more refusals, and may give up one of these. There is no 9 and no 10, and these
/// numbers are not used again.
///
/// It prints as the programs print it, with its sentence, also where a program ends with it:
///
/// ```
/// use gumbyra::Refusal;
///
/// assert_eq!(Refusal::Repeat.to_string(), "REFUSED 7: Two rows have the same four bytes.");
/// let short = Refusal::NodesShort { lent: 1024 };
/// assert_eq!(format!("{short:?}"), "REFUSED 13 1024: The procedure's next node has no place in its area.");
/// ```
#[derive(Clone, Copy, PartialEq, Eq, Hash)]
#[non_exhaustive]
pub enum Refusal {
    /// 1: the file's length.
    Length,
    /// 2: the mark at the file's end.
    Mark,
    /// 3: the numbers of rows and rules.
    Counts,
    /// 4: the parts don't fill the file.
    Extent,
    /// 5: a row's bytes.
    Row,
    /// 6: a row's argument.
    Argument,
    /// 7: a row that repeats another.
    Repeat,
    /// 8: a rule or the wanted row; where a list of wanted rows takes its place, one of them.
    NoSuchRow,
    /// 11: the kit can exist, but the example areas don't hold so many records.
    ExampleTooLong {
        /// How many elements the example has.
        elements: usize,
        /// How many links the example has.
        links: usize,
    },
    /// 12: what the draft becomes is too long for a rule file or for the area.
    ResultTooLong,
    /// 13: the work area for nodes is short; so many records counted as lent. In a larger one the run gets further,
    /// unless that is [`MOST_RECORDS`] already. This and the next two come from the first record that the procedure
    /// could not place, so no other area has to be larger for that; [`Sizes::enlarged`](crate::Sizes::enlarged) is for
    /// a caller who asks again.
    NodesShort {
        /// How many records counted as lent.
        lent: usize,
    },
    /// 14: the work area for edges is short.
    EdgesShort {
        /// How many records counted as lent.
        lent: usize,
    },
    /// 15: the work area for alternatives is short.
    AlternativesShort {
        /// How many records counted as lent.
        lent: usize,
    },
    /// 16: a row of kind 7, which speaks of roles, in a place for a row that speaks of elements. The check comes after
    /// that of 8.
    Inclusion,
    /// 17: the area for the table of a catalogue is shorter than the square of how many names are listed. It comes
    /// after all checks of the file. [`LARGEST_TABLE`](crate::LARGEST_TABLE) bytes suffice for every table.
    TableShort,
}

/// The refusals by a check of the file or the draft, in checking order.
const CHECKS: [Refusal; 9] = [
    Refusal::Length,
    Refusal::Mark,
    Refusal::Counts,
    Refusal::Extent,
    Refusal::Row,
    Refusal::Argument,
    Refusal::Repeat,
    Refusal::NoSuchRow,
    Refusal::Inclusion,
];

impl Refusal {
    /// The refusal of a run with this number, these counts of elements and links and so many records lent; `None` if
    /// the engine never gives these.
    pub(crate) fn of_run(number: u32, counts: [usize; 2], lent: usize) -> Option<Refusal> {
        match (number, counts, lent) {
            (11, [elements, links], 0) => Some(Refusal::ExampleTooLong { elements, links }),
            (13, [0, 0], 0..=MOST_RECORDS) => Some(Refusal::NodesShort { lent }),
            (14, [0, 0], 0..=MOST_RECORDS) => Some(Refusal::EdgesShort { lent }),
            (15, [0, 0], 0..=MOST_RECORDS) => Some(Refusal::AlternativesShort { lent }),
            (_, [0, 0], 0) => Refusal::of_check(number),
            _ => None,
        }
    }

    /// The refusal of a conversion with this number; `None` if the converter never gives it.
    pub(crate) fn of_conversion(number: u32) -> Option<Refusal> {
        match number {
            12 => Some(Refusal::ResultTooLong),
            _ => Refusal::of_check(number),
        }
    }

    /// The refusal of a catalogue page with this number; `None` if the engine never gives it.
    pub(crate) fn of_page(number: u32) -> Option<Refusal> {
        match number {
            17 => Some(Refusal::TableShort),
            _ => Refusal::of_check(number),
        }
    }

    /// The refusal that a line tells, as the programs print it; the sentence may follow, behind a colon. `None` if
    /// there is none.
    ///
    /// ```
    /// use gumbyra::Refusal;
    ///
    /// assert_eq!(Refusal::of_line("REFUSED 13 1024"), Some(Refusal::NodesShort { lent: 1024 }));
    /// assert_eq!(Refusal::of_line(&Refusal::Repeat.to_string()), Some(Refusal::Repeat));
    /// assert_eq!(Refusal::of_line("REFUSED 9"), None);
    /// ```
    pub fn of_line(line: &str) -> Option<Refusal> {
        let line = line.split_once(':').map_or(line, |(numbers, _)| numbers);
        let is_number = |word: &&str| !word.is_empty() && word.bytes().all(|byte| byte.is_ascii_digit());
        let numbers: Option<Vec<usize>> =
            line.strip_prefix("REFUSED ")?.split(' ').map(|word| Some(word).filter(is_number)?.parse().ok()).collect();
        match numbers?.as_slice() {
            &[number @ 11, elements, links] => Refusal::of_run(number as u32, [elements, links], 0),
            &[number @ 13..=15, lent] => Refusal::of_run(number as u32, [0, 0], lent),
            [12] => Some(Refusal::ResultTooLong),
            [17] => Some(Refusal::TableShort),
            &[number] => Refusal::of_check(u32::try_from(number).ok()?),
            _ => None,
        }
    }

    fn of_check(number: u32) -> Option<Refusal> {
        CHECKS.into_iter().find(|refusal| u32::from(refusal.number()) == number)
    }

    /// Its number.
    pub fn number(&self) -> u8 {
        self.entry().0
    }

    /// Its sentence. Where it speaks of the file, a draft is meant if that was refused.
    pub fn sentence(&self) -> &'static str {
        self.entry().1
    }

    /// What to do about it, in a sentence. "How many rules fit" is a part of docs/RULE-FILES.md in the repository.
    pub fn advice(&self) -> &'static str {
        match self {
            Refusal::Length => "Shorten the text, or send the whole file.",
            Refusal::Mark => "It is no rule file, or was cut off.",
            Refusal::Counts => "Split the file, or drop rows that nothing needs.",
            Refusal::Extent => "Build the file again: a part was changed later.",
            Refusal::Row => "Correct the row; kinds 8 and 9: convert the draft first.",
            Refusal::Argument => "Put a row behind the rows that it names.",
            Refusal::Repeat => "Use the first of them twice.",
            Refusal::NoSuchRow => "Correct the number, or the list of wanted rows.",
            Refusal::ExampleTooLong { .. } => "Lend what the answer says, and ask again.",
            Refusal::ResultTooLong => "Lend 4,096 bytes, or say less in the draft.",
            Refusal::NodesShort { .. } => "Lend more nodes, up to 4,096; then see \"How many rules fit\".",
            Refusal::EdgesShort { .. } => "Lend more edges, up to 4,096; then see \"How many rules fit\".",
            Refusal::AlternativesShort { .. } => {
                "Lend more alternatives, up to 4,096; then see \"How many rules fit\"."
            }
            Refusal::Inclusion => "Keep the row, which holds as it stands, and name it nowhere.",
            Refusal::TableShort => "Lend 4,096 bytes.",
        }
    }

    /// Its number and its sentence.
    fn entry(&self) -> (u8, &'static str) {
        match self {
            Refusal::Length => (1, "The file is shorter than 8 or longer than 4,096 bytes."),
            Refusal::Mark => (2, "The last three bytes are not 46 49 54."),
            Refusal::Counts => (3, "There are 0 or more than 64 rows, or more than 64 rules."),
            Refusal::Extent => (4, "The first row's place + 4 × rows + rules + 8 is not the file's length."),
            Refusal::Row => (
                5,
                "A row has a kind outside 1 to 7 (in a draft 8 and 9 are kinds too), a non-zero unused byte, a role \
                 above 31 or a name above 63.",
            ),
            Refusal::Argument => (6, "A row names an argument row that isn't lower than itself."),
            Refusal::Repeat => (7, "Two rows have the same four bytes."),
            Refusal::NoSuchRow => (8, "A rule or the wanted row isn't below the number of rows."),
            Refusal::ExampleTooLong { .. } => (11, "The verdict is \"can\" and an example area is too short."),
            Refusal::ResultTooLong => {
                (12, "The result needs more than 64 rows, more than 4,096 bytes or more than the area.")
            }
            Refusal::NodesShort { .. } => (13, "The procedure's next node has no place in its area."),
            Refusal::EdgesShort { .. } => (14, "The procedure's next edge has no place in its area."),
            Refusal::AlternativesShort { .. } => (15, "The procedure's next alternative has no place in its area."),
            Refusal::Inclusion => (16, "A row of kind 7 serves as an argument, a rule or the wanted row."),
            Refusal::TableShort => (17, "The table's area is shorter than the square of its names."),
        }
    }
}

/// Which row a refusal is about. This is worked out by [`Table`], apart from the proved call that refused.
impl Refusal {
    /// The row, the two rows or the rule of a rule file that refusal 5, 6, 7, 8 or 16 is about, told outside the proved
    /// call. `None` for the others, and if this is not what the file is refused with.
    ///
    /// ```
    /// use gumbyra::{Place, Space};
    ///
    /// // The rule is row 4, and there are two.
    /// let file = [1, 0, 0, 0, 2, 0, 0, 0, 4, 0, 0, 2, 1, 0, b'F', b'I', b'T'];
    /// let refusal = Space::usual().fit(&file).unwrap_err();
    /// let fault = refusal.fault(&file).expect("8 is about a rule or the wanted row");
    /// assert_eq!(fault.place(), Place::Rule(0));
    /// assert_eq!(
    ///     format!("{refusal} ({fault})"),
    ///     "REFUSED 8: A rule or the wanted row isn't below the number of rows. \
    ///      (rule 0 of the list is row 4, and there are 2 rows)"
    /// );
    /// ```
    pub fn fault(&self, file: &[u8]) -> Option<Fault> {
        self.fault_of(Table::read(file))
    }

    /// The same of a file with this list of wanted rows in place of its own, as [`fit_wanted`](crate::fit_wanted())
    /// refuses it.
    pub fn fault_wanted(&self, file: &[u8], wanted: &[u8]) -> Option<Fault> {
        self.fault_of(Table::read_wanted(file, wanted))
    }

    /// The same of a draft, as [`convert`](crate::convert()) refuses it.
    pub fn fault_of_draft(&self, draft: &[u8]) -> Option<Fault> {
        self.fault_of(Table::read_draft(draft))
    }

    /// What reading tells, if it is this refusal and about less than the whole file.
    fn fault_of(&self, read: Result<Table, Fault>) -> Option<Fault> {
        read.err().filter(|fault| fault.number() == self.number() && fault.place() != Place::File)
    }
}

/// A fault has the number of the check that refuses the file.
impl From<Fault> for Refusal {
    fn from(fault: Fault) -> Refusal {
        Refusal::of_check(fault.number().into()).expect("a fault is found by a check")
    }
}

/// As the programs print it: the number, with 11 the elements and links of the example, with 13, 14 and 15 how many
/// records were lent; and then the sentence.
impl fmt::Display for Refusal {
    fn fmt(&self, f: &mut fmt::Formatter) -> fmt::Result {
        let (number, sentence) = self.entry();
        write!(f, "REFUSED {number}")?;
        match self {
            Refusal::ExampleTooLong { elements, links } => write!(f, " {elements} {links}")?,
            Refusal::NodesShort { lent } | Refusal::EdgesShort { lent } | Refusal::AlternativesShort { lent } => {
                write!(f, " {lent}")?
            }
            _ => (),
        }
        write!(f, ": {sentence}")
    }
}

/// The same: a `main` that gives an error prints it by this.
impl fmt::Debug for Refusal {
    fn fmt(&self, f: &mut fmt::Formatter) -> fmt::Result {
        fmt::Display::fmt(self, f)
    }
}

impl std::error::Error for Refusal {}

#[cfg(test)]
mod tests {
    use super::*;

    #[test]
    fn each_number_has_its_refusal() {
        let numbers: Vec<u8> = CHECKS.iter().map(Refusal::number).collect();
        assert_eq!(numbers, [1, 2, 3, 4, 5, 6, 7, 8, 16]);
        for check in CHECKS {
            assert_eq!(Refusal::of_run(check.number().into(), [0, 0], 0), Some(check));
            assert_eq!(Refusal::of_conversion(check.number().into()), Some(check));
            assert_eq!(Refusal::of_page(check.number().into()), Some(check));
        }
        let too_long = Refusal::ExampleTooLong { elements: 2, links: 1 };
        assert_eq!(Refusal::of_run(11, [2, 1], 0), Some(too_long));
        assert_eq!(Refusal::of_conversion(12), Some(Refusal::ResultTooLong));
        assert_eq!(Refusal::of_page(17), Some(Refusal::TableShort));
        assert_eq!([too_long, Refusal::ResultTooLong, Refusal::TableShort].map(|r| r.number()), [11, 12, 17]);
        for lent in [0, 7, MOST_RECORDS] {
            for (number, short) in (13..).zip(short(lent)) {
                assert_eq!(Refusal::of_run(number, [0, 0], lent), Some(short));
                assert_eq!(u32::from(short.number()), number);
            }
        }
    }

    /// Refusals 13, 14 and 15.
    fn short(lent: usize) -> [Refusal; 3] {
        [Refusal::NodesShort { lent }, Refusal::EdgesShort { lent }, Refusal::AlternativesShort { lent }]
    }

    #[test]
    fn other_numbers_have_none() {
        for number in [0, 9, 10, 12, 17] {
            assert_eq!(Refusal::of_run(number, [0, 0], 0), None, "{number}");
            assert_eq!(Refusal::of_run(number, [0, 0], 7), None, "{number}");
        }
        let others =
            [(1, [1, 0], 0), (1, [0, 0], 1), (10, [0, 1], 0), (11, [2, 1], 1), (16, [1, 0], 0), (16, [0, 0], 1)];
        for (number, counts, lent) in others {
            assert_eq!(Refusal::of_run(number, counts, lent), None, "{number} {counts:?} {lent}");
        }
        for number in 13..=15 {
            for (counts, lent) in [([1, 0], 7), ([0, 1], 7), ([0, 0], MOST_RECORDS + 1), ([0, 0], u32::MAX as usize)] {
                assert_eq!(Refusal::of_run(number, counts, lent), None, "{number} {counts:?} {lent}");
            }
        }
        assert!([0, 9, 10, 11, 13, 14, 15, 17].into_iter().all(|number| Refusal::of_conversion(number).is_none()));
        assert!([0, 9, 10, 11, 12, 13, 14, 15, 18].into_iter().all(|number| Refusal::of_page(number).is_none()));
    }

    #[test]
    fn a_refusal_prints_its_number_its_counts_and_its_sentence() {
        assert_eq!(Refusal::Repeat.to_string(), "REFUSED 7: Two rows have the same four bytes.");
        let too_long = Refusal::ExampleTooLong { elements: 2, links: 1 };
        assert_eq!(too_long.to_string(), "REFUSED 11 2 1: The verdict is \"can\" and an example area is too short.");
        let [nodes, edges, alternatives] = short(1024).map(|refusal| refusal.to_string());
        assert_eq!(nodes, "REFUSED 13 1024: The procedure's next node has no place in its area.");
        assert_eq!(edges, "REFUSED 14 1024: The procedure's next edge has no place in its area.");
        assert!(alternatives.starts_with("REFUSED 15 1024: ") && format!("{:?}", short(1024)[2]) == alternatives);
    }

    /// One row, "is a pump", which names no row; then the same with another number in its place.
    #[test]
    fn a_fault_is_told_of_the_refusal_that_it_is_for() {
        let file = |row: [u8; 4], rule: u8| [row.as_slice(), &[rule], &[0, 0, 1, 1, 0], b"FIT"].concat();
        let (rule, row) = (file([1, 0, 0, 0], 3), file([8, 0, 0, 0], 0));
        let place = |fault: Option<Fault>| fault.map(|fault| fault.place());
        assert_eq!(place(Refusal::NoSuchRow.fault(&rule)), Some(Place::Rule(0)));
        assert_eq!(place(Refusal::Row.fault(&row)), Some(Place::Row(0)));
        assert_eq!(place(Refusal::Argument.fault_of_draft(&row)), Some(Place::Row(0)));
        assert_eq!(place(Refusal::Row.fault_of_draft(&row)), None, "as a draft it is refused with 6");
        assert_eq!(place(Refusal::NoSuchRow.fault_wanted(&file([1, 0, 0, 0], 0), &[0, 7])), Some(Place::Wanted));
        assert_eq!(place(Refusal::Length.fault(b"")), None, "it is about the file as a whole");
        assert_eq!(place(Refusal::Repeat.fault(&rule)), None, "another refusal");
        assert_eq!(place(Refusal::Row.fault(&file([1, 0, 0, 0], 0))), None, "a file that is not refused");
    }
}
