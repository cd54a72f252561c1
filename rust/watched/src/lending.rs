//! The five areas lent for one run after the other, and the promises about them (document 01, "Areas").

use crate::area::{Area, Fate};
use compare::Prng;
use gumbyra::{Areas, Example, Refusal, Verdict};
use plain::{records, Answer, Lent, RowSet, Used};
use std::any::Any;
use std::panic::{catch_unwind, AssertUnwindSafe};

/// The areas in their order.
const NAMES: [&str; 5] = ["nodes", "edges", "alternatives", "elements", "links"];

/// The engine's call, `gumbyra::fit`, or what stands in for it.
pub type Engine = for<'a> fn(&[u8], Areas<'a>) -> Result<Verdict<'a>, Refusal>;

/// The engine's call with wanted rows, `gumbyra::fit_wanted`, or what stands in for it.
pub type WantedEngine = for<'a> fn(&[u8], &[u8], Areas<'a>) -> Result<Verdict<'a>, Refusal>;

/// An engine with areas to run in.
pub struct Lending {
    engine: Engine,
    with_wanted: WantedEngine,
    areas: [Area; 5],
    /// The lengths of the last run.
    lent: Lent,
}

impl Lending {
    /// Areas for the engine.
    pub fn new() -> Lending {
        Lending::to(gumbyra::fit)
    }

    /// Areas for what stands in for the engine.
    pub fn to(engine: Engine) -> Lending {
        let (areas, lent) = ([1, 2, 3, 4, 5].map(Area::new), Lent::records(0, 0, 0, 0, 0));
        Lending { engine, with_wanted: gumbyra::fit_wanted, areas, lent }
    }

    /// The same areas, with what stands in for the engine's call with wanted rows.
    pub fn with_wanted(self, with_wanted: WantedEngine) -> Lending {
        Lending { with_wanted, ..self }
    }

    /// Runs the engine in areas of these lengths, full of noise. The same file in the same lengths meets the same noise. An
    /// error tells why there is no answer.
    pub fn run(&mut self, file: &[u8], lent: &Lent) -> Result<Answer, String> {
        let engine = self.engine;
        self.call(file, lent, |areas| engine(file, areas))
    }

    /// The same with these wanted rows in place of the file's own.
    pub fn run_wanted(&mut self, file: &[u8], wanted: &[u8], lent: &Lent) -> Result<Answer, String> {
        let engine = self.with_wanted;
        self.call(file, lent, |areas| engine(file, wanted, areas))
    }

    /// What a call on a file answers in such areas.
    fn call(
        &mut self,
        file: &[u8],
        lent: &Lent,
        call: impl for<'a> FnOnce(Areas<'a>) -> Result<Verdict<'a>, Refusal>,
    ) -> Result<Answer, String> {
        let mut prng = Prng::of_bytes(file);
        self.lent = *lent;
        let Lent { nodes, edges, alternatives, elements, links } = *lent;
        let mut lengths = [nodes, edges, alternatives, elements, links].into_iter();
        let [nodes, edges, alternatives, elements, links] =
            self.areas.each_mut().map(|area| area.lend(lengths.next().expect("five lengths"), &mut prng));
        let areas = Areas { nodes, edges, alternatives, elements, links };
        let run = || call(areas).map_or_else(refused, decided);
        catch_unwind(AssertUnwindSafe(run)).map_err(reason)
    }

    /// The promise that is broken if this was the answer to the last run.
    pub fn broken(&self, answer: &Answer) -> Option<String> {
        let mut areas = NAMES.iter().zip(&self.areas).zip(fates(answer));
        let broken = areas.find_map(|((name, area), fate)| Some(format!("{name}: {}", area.broken(&fate)?)));
        broken.or_else(|| self.miscounted(answer))
    }

    /// Refusals 13, 14 and 15 give how many records of the short area counted as lent.
    fn miscounted(&self, answer: &Answer) -> Option<String> {
        let Answer::Short { area, lent: told } = *answer else { return None };
        let counted = self.lent.capacity().of(area);
        (told != counted)
            .then(|| format!("{}: {told} records are told, {counted} counted as lent", NAMES[area as usize]))
    }

    /// Runs the engine and looks after every promise. An error tells which is broken.
    pub fn watch(&mut self, file: &[u8], lent: &Lent) -> Result<Answer, String> {
        let answer = self.run(file, lent)?;
        self.broken(&answer).map_or(Ok(answer), Err)
    }

    /// The same with these wanted rows in place of the file's own.
    pub fn watch_wanted(&mut self, file: &[u8], wanted: &[u8], lent: &Lent) -> Result<Answer, String> {
        let answer = self.run_wanted(file, wanted, lent)?;
        self.broken(&answer).map_or(Ok(answer), Err)
    }

    /// The engine as an answering function.
    ///
    /// # Panics
    /// If a promise is broken.
    pub fn answer(&mut self, file: &[u8], lent: &Lent) -> Answer {
        self.watch(file, lent).unwrap_or_else(|broken| panic!("{broken}: {file:02x?} in {lent:?}"))
    }

    /// The engine as an answering function with wanted rows.
    ///
    /// # Panics
    /// If a promise is broken.
    pub fn answer_wanted(&mut self, file: &[u8], wanted: &[u8], lent: &Lent) -> Answer {
        let watched = self.watch_wanted(file, wanted, lent);
        watched.unwrap_or_else(|broken| panic!("{broken}: {file:02x?} wanting {wanted:?} in {lent:?}"))
    }
}

impl Default for Lending {
    fn default() -> Lending {
        Lending::new()
    }
}

/// A refusal in the words of `plain`.
fn refused(refusal: Refusal) -> Answer {
    let short = |area, lent| Answer::Short { area, lent };
    match refusal {
        Refusal::NodesShort { lent } => short(plain::Area::Nodes, lent),
        Refusal::EdgesShort { lent } => short(plain::Area::Edges, lent),
        Refusal::AlternativesShort { lent } => short(plain::Area::Alternatives, lent),
        Refusal::ExampleTooLong { elements, links } => Answer::TooLong { elements, links },
        of_the_file => Answer::Refused(of_the_file.number()),
    }
}

/// A verdict in the words of `plain`.
fn decided(verdict: Verdict) -> Answer {
    let used = |gumbyra::Used { nodes, edges, alternatives }| Used { nodes, edges, alternatives };
    match verdict {
        Verdict::Cannot { used: records } => Answer::Cannot { used: used(records) },
        Verdict::Can { used: records, example } => {
            let (elements, links) = read(example);
            Answer::Can { used: used(records), elements, links }
        }
    }
}

/// An example in the words of `plain`.
fn read(example: Example) -> (Vec<RowSet>, Vec<(u16, u16, u16)>) {
    let elements = example.elements().map(|set| set.rows().map(usize::from).collect()).collect();
    (elements, example.links().map(|link| (link.from, link.role.into(), link.to)).collect())
}

/// Why a call panicked, in one line.
pub(crate) fn reason(panic: Box<dyn Any + Send>) -> String {
    let text = panic.downcast_ref::<String>().map(String::as_str).or(panic.downcast_ref::<&str>().copied());
    text.unwrap_or("the call has no answer").replace('\n', " ")
}

/// After a verdict, 11, 13, 14 or 15 every byte of the work areas is zero. The example areas change only with "can", and only in the
/// bytes that the example fills. After refusals 1 to 8 and 16 all areas are as they were.
fn fates(answer: &Answer) -> [Fate; 5] {
    match answer {
        Answer::Refused(_) => [Fate::Kept, Fate::Kept, Fate::Kept, Fate::Kept, Fate::Kept],
        Answer::Short { .. } | Answer::TooLong { .. } | Answer::Cannot { .. } => {
            [Fate::Zero, Fate::Zero, Fate::Zero, Fate::Kept, Fate::Kept]
        }
        Answer::Can { elements, links, .. } => {
            let [elements, links] = records(elements, links);
            [Fate::Zero, Fate::Zero, Fate::Zero, Fate::Begins(elements), Fate::Begins(links)]
        }
    }
}
