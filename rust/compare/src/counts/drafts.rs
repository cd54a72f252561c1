//! How often things happened to drafts.

use super::needs::needs;
use crate::sizes::LONGEST_FILE;
use crate::{encode, Conversion};
use plain::concept::{Row, ROW};
use plain::RuleFile;
use worlds::{Concept, Ontology};

/// Each counts drafts, if nothing else is said.
#[derive(Default, Debug)]
pub struct DraftCounts {
    converted: usize,
    /// By number; of 12 see the next three.
    refusals: [usize; 17],
    too_many_rows: usize,
    too_many_bytes: usize,
    too_short_area: usize,
    /// Those that are converted, from here on. Two rows of the draft, or a row and an opposite, became one.
    shared: usize,
    /// A row is needed itself and its opposite too.
    both_signs: usize,
    /// The opposite of a row of the kind is needed; by kind.
    opposites: [usize; 10],
    without_not_and_if: usize,
    dropped_rows: usize,
    /// With kind 7 rows, which are kept.
    pub inclusions: usize,
    /// 4,096 bytes, with a text.
    longest_drafts: usize,
    longest_results: usize,
    repeated_rules: usize,
    /// The area is longer than any file.
    long_areas: usize,
    just_enough: usize,
}

impl DraftCounts {
    /// Counts what became of a draft.
    pub fn count(&mut self, draft: &[u8], area: usize, conversion: &Conversion) {
        match conversion {
            Ok(file) => self.count_converted(draft, area, file),
            Err(number) => {
                self.refusals[usize::from(*number)] += 1;
                if *number == 12 {
                    self.count_cause(draft);
                }
            }
        }
    }

    /// Why there is refusal 12: in an area that is long enough another cause stays, and without its text too many rows.
    fn count_cause(&mut self, draft: &[u8]) {
        let at_length = |draft: &[u8]| plain::convert(draft, usize::MAX);
        match (at_length(draft), at_length(&without_text(draft))) {
            (Ok(_), _) => self.too_short_area += 1,
            (_, Ok(_)) => self.too_many_bytes += 1,
            _ => self.too_many_rows += 1,
        }
    }

    fn count_converted(&mut self, draft: &[u8], area: usize, file: &[u8]) {
        let ontology = Ontology::decode_draft(draft).expect("a draft");
        let needs = needs(&ontology);
        let kinds: Vec<usize> = ontology.rows.iter().map(|&concept| kind(concept)).collect();
        let rows_needed = needs.iter().zip(&kinds).filter(|&(_, &kind)| kind != 8);
        let places: usize = rows_needed.map(|(needs, _)| needs.iter().filter(|&&needed| needed).count()).sum();
        let is_inclusion = |row: usize| kinds[row] == 7;
        let written = RuleFile::read(file).expect("a rule file").concepts.len() - ontology.inclusions().count();
        let add = |count: &mut usize, happened: bool| *count += usize::from(happened);
        self.converted += 1;
        add(&mut self.shared, written < places);
        add(&mut self.both_signs, needs.contains(&[true, true]));
        for (kind, times) in self.opposites.iter_mut().enumerate() {
            add(times, needs.iter().zip(&kinds).any(|(needs, &of_row)| of_row == kind && needs[1]));
        }
        add(&mut self.without_not_and_if, kinds.iter().all(|&kind| kind < 8));
        add(&mut self.dropped_rows, (0..needs.len()).any(|row| needs[row] == [false, false] && !is_inclusion(row)));
        add(&mut self.inclusions, ontology.inclusions().next().is_some());
        add(&mut self.longest_drafts, draft.len() == LONGEST_FILE);
        add(&mut self.longest_results, file.len() == LONGEST_FILE);
        add(&mut self.repeated_rules, (1..ontology.tbox.len()).any(|k| ontology.tbox[..k].contains(&ontology.tbox[k])));
        add(&mut self.long_areas, area > LONGEST_FILE);
        add(&mut self.just_enough, area == file.len());
    }

    /// Fails if one of refusals 1 to 8, 12 and 16 was rare, or if another came: a conversion has no others.
    pub fn assert_each_refusal(&self, least: usize) {
        let came = [1, 2, 3, 4, 5, 6, 7, 8, 12, 16].map(|number| self.refusals[number]);
        let only_these = came.iter().sum::<usize>() == self.refusals.iter().sum();
        assert!(came.iter().all(|&times| times >= least) && only_these, "{:?}", self.refusals);
        assert!(self.converted >= least, "only {} drafts are converted", self.converted);
    }

    /// Fails if something was rare that has to come with drafts that pass the checks.
    pub fn assert_often(&self) {
        let often = [
            ("converted", self.converted),
            ("refusal 12", self.refusals[12]),
            ("too many rows", self.too_many_rows),
            ("too short an area", self.too_short_area),
            ("shared rows", self.shared),
            ("both signs", self.both_signs),
            ("without not and if", self.without_not_and_if),
            ("dropped rows", self.dropped_rows),
            ("repeated rules", self.repeated_rules),
            ("long areas", self.long_areas),
            ("just enough", self.just_enough),
        ];
        let opposites = [1, 2, 3, 4, 5, 6, 8, 9].map(|kind| ("opposite of a kind", self.opposites[kind]));
        for (what, times) in often.into_iter().chain(opposites) {
            assert!(times >= 500, "{what}: only {times} times");
        }
        let lengths = [self.too_many_bytes, self.longest_drafts, self.longest_results];
        assert!(lengths.iter().all(|&times| times >= 20), "few drafts and results as long as can be");
    }
}

/// The kind of a row.
fn kind(concept: Concept) -> usize {
    match concept {
        Concept::Name(_) => 1,
        Concept::NotName(_) => 2,
        Concept::Both(..) => 3,
        Concept::Either(..) => 4,
        Concept::All(..) => 5,
        Concept::Some(..) => 6,
        Concept::Narrower(..) => 7,
        Concept::Not(_) => 8,
        Concept::IfThen(..) => 9,
    }
}

/// The same draft without its text.
fn without_text(draft: &[u8]) -> Vec<u8> {
    let ontology = Ontology::decode_draft(draft).expect("a draft");
    let (rows, rules) = (ontology.rows.len(), ontology.tbox.len());
    let table = &draft[draft.len() - 8 - rules - ROW * rows..];
    let (rows, rest) = table.split_at(ROW * rows);
    let rows: Vec<Row> = rows.chunks_exact(ROW).map(|r| [r[0], r[1], r[2], r[3]]).collect();
    encode(b"", &rows, &rest[..rules], draft[draft.len() - 4])
}
