//! Times of one file or draft in the engine and in the plain program, taken by turns; and of a part of the plain program's.

use crate::groups::Subject;
use gumbyra::{catalogue, convert, fit, Areas, WorkAreas, LARGEST_TABLE, LONGEST_FILE};
use plain::example::Example;
use plain::{answer_as_placed, Answer, Lent, RuleFile};
use std::hint::black_box;
use std::time::{Duration, Instant};

/// A sample takes at least about this long, so that the clock's grain does not matter.
const SAMPLE: Duration = Duration::from_micros(300);

/// Seconds of one run, in each of the rounds.
pub struct Times {
    pub engine: Vec<f64>,
    pub plain: Vec<f64>,
}

impl Times {
    /// Engine over plain, by the least times.
    pub fn ratio(&self) -> f64 {
        least(&self.engine) / least(&self.plain)
    }
}

/// Takes the times of a file in areas of these lengths. They are zero at first and then hold what the run before left.
pub fn times(subject: &Subject, lent: &Lent, rounds: usize) -> Times {
    let lengths = [lent.nodes, lent.edges, lent.alternatives, lent.elements, lent.links];
    let mut buffers = lengths.map(|length| vec![0; length]);
    let engine = || {
        let [nodes, edges, alternatives, elements, links] = buffers.each_mut().map(Vec::as_mut_slice);
        let outcome = fit(black_box(&subject.file), Areas { nodes, edges, alternatives, elements, links });
        black_box(outcome.is_ok());
    };
    let plain = || {
        black_box(plain::answer(black_box(&subject.file), lent));
    };
    let (engine, plain) = by_turns(engine, plain, rounds);
    Times { engine, plain }
}

/// Takes the times of a file's catalogue page in work areas of these lengths, its table in an area that suffices for every page.
pub fn page_times(subject: &Subject, lent: &Lent, rounds: usize) -> Times {
    let mut buffers = [lent.nodes, lent.edges, lent.alternatives, LARGEST_TABLE].map(|length| vec![0; length]);
    let engine = || {
        let [nodes, edges, alternatives, table] = buffers.each_mut().map(Vec::as_mut_slice);
        let page = catalogue(black_box(&subject.file), WorkAreas { nodes, edges, alternatives }, table);
        black_box(page.is_ok());
    };
    let plain = || {
        black_box(plain::catalogue(black_box(&subject.file), LARGEST_TABLE, lent));
    };
    let (engine, plain) = by_turns(engine, plain, rounds);
    Times { engine, plain }
}

/// Takes the times of converting a draft, in an area that suffices for every draft.
pub fn convert_times(draft: &[u8], rounds: usize) -> Times {
    let mut area = vec![0; LONGEST_FILE];
    let engine = || {
        black_box(convert(black_box(draft), &mut area).is_ok());
    };
    let plain = || {
        black_box(plain::convert(black_box(draft), LONGEST_FILE).is_ok());
    };
    let (engine, plain) = by_turns(engine, plain, rounds);
    Times { engine, plain }
}

/// What the plain program's example takes.
pub struct Evaluation {
    pub elements: usize,
    pub links: usize,
    /// Seconds of the whole run, the least of all rounds.
    pub run: f64,
    /// Seconds of finding the rows that hold at each element, as part of it.
    pub rows_that_hold: f64,
}

/// Takes the times of a file's run in the plain program and of that part, which is run by itself. `None` if it gets no example.
pub fn evaluation(subject: &Subject, rounds: usize) -> Option<Evaluation> {
    let Answer::Can { elements, links, .. } = answer_as_placed(&subject.file, &subject.enough) else { return None };
    let concepts = RuleFile::read(&subject.file).ok()?.concepts;
    let placed = Example { elements, links };
    let run = || {
        black_box(plain::answer(black_box(&subject.file), &subject.enough));
    };
    let part = || {
        black_box(black_box(&placed).rows_that_hold(&concepts));
    };
    let (run, part) = by_turns(run, part, rounds);
    let (elements, links) = (placed.elements.len(), placed.links.len());
    Some(Evaluation { elements, links, run: least(&run), rows_that_hold: least(&part) })
}

/// Seconds of one run of each, in each of the rounds.
fn by_turns(mut first: impl FnMut(), mut second: impl FnMut(), rounds: usize) -> (Vec<f64>, Vec<f64>) {
    let (first_repeats, second_repeats) = (repeats(&mut first), repeats(&mut second));
    let round = |_| (sample(&mut first, first_repeats), sample(&mut second, second_repeats));
    (0..rounds).map(round).unzip()
}

/// How often a sample repeats the run.
fn repeats(run: &mut impl FnMut()) -> usize {
    let mut repeats = 1;
    while sample(run, repeats) * (repeats as f64) < SAMPLE.as_secs_f64() {
        repeats *= 2;
    }
    repeats
}

/// Seconds of one run, from so many.
fn sample(run: &mut impl FnMut(), repeats: usize) -> f64 {
    let start = Instant::now();
    (0..repeats).for_each(|_| run());
    start.elapsed().as_secs_f64() / repeats as f64
}

/// The least: the run that other programs disturbed least.
pub fn least(values: &[f64]) -> f64 {
    values.iter().copied().fold(f64::INFINITY, f64::min)
}
