//! The four areas lent for one catalogue page after the other, and the promises about them (document 02, \[7\]).

use crate::area::{Area, Fate};
use crate::lending::reason;
use compare::Prng;
use gumbyra::{Catalogue, Refusal, WorkAreas};
use plain::{Lent, Page};
use std::panic::{catch_unwind, AssertUnwindSafe};

/// The areas in their order.
const NAMES: [&str; 4] = ["nodes", "edges", "alternatives", "table"];

/// The catalogue's call, `gumbyra::catalogue`, or what stands in for it.
pub type Call = for<'a> fn(&[u8], WorkAreas, &'a mut [u8]) -> Result<Catalogue<'a>, Refusal>;

/// A catalogue with areas to run in and to write into.
pub struct Cataloguer {
    call: Call,
    areas: [Area; 4],
}

impl Cataloguer {
    /// Areas for the catalogue.
    pub fn new() -> Cataloguer {
        Cataloguer::to(gumbyra::catalogue)
    }

    /// Areas for what stands in for the catalogue.
    pub fn to(call: Call) -> Cataloguer {
        Cataloguer { call, areas: [7, 8, 9, 10].map(Area::new) }
    }

    /// Makes the page of a file, its table in an area of so many bytes, in work areas of these lengths, all full of noise. The same file in
    /// the same lengths meets the same noise. An error tells why there is no answer.
    pub fn run(&mut self, file: &[u8], area: usize, lent: &Lent) -> Result<Page, String> {
        let mut prng = Prng::of_bytes(file);
        let mut lengths = [lent.nodes, lent.edges, lent.alternatives, area].into_iter();
        let [nodes, edges, alternatives, table] =
            self.areas.each_mut().map(|area| area.lend(lengths.next().expect("four lengths"), &mut prng));
        let start = table.as_ptr();
        let run = || match (self.call)(file, WorkAreas { nodes, edges, alternatives }, table) {
            Ok(catalogue) => {
                assert!(catalogue.table().as_ptr() == start, "the table is not at the start of the area");
                Page::Filled { names: catalogue.names().iter().collect(), table: catalogue.table().to_vec() }
            }
            Err(refusal) => Page::Refused(refusal.number()),
        };
        catch_unwind(AssertUnwindSafe(run)).map_err(reason)
    }

    /// The promise that is broken if this was the page of the last run: with a table the work areas are all zero and the bytes past the table
    /// as they were, and after a refusal all areas are.
    pub fn broken(&self, page: &Page) -> Option<String> {
        let fates = match page {
            Page::Refused(_) => [Fate::Kept, Fate::Kept, Fate::Kept, Fate::Kept],
            Page::Filled { table, .. } => [Fate::Zero, Fate::Zero, Fate::Zero, Fate::Begins(table.clone())],
        };
        let mut areas = NAMES.iter().zip(&self.areas).zip(fates);
        areas.find_map(|((name, area), fate)| Some(format!("{name}: {}", area.broken(&fate)?)))
    }

    /// Makes the page of a file and looks after every promise. An error tells which is broken.
    pub fn watch(&mut self, file: &[u8], area: usize, lent: &Lent) -> Result<Page, String> {
        let page = self.run(file, area, lent)?;
        self.broken(&page).map_or(Ok(page), Err)
    }

    /// The catalogue as a cataloguing function.
    ///
    /// # Panics
    /// If a promise is broken.
    pub fn catalogue(&mut self, file: &[u8], area: usize, lent: &Lent) -> Page {
        self.watch(file, area, lent)
            .unwrap_or_else(|broken| panic!("{broken}: {file:02x?}, table in {area}, in {lent:?}"))
    }
}

impl Default for Cataloguer {
    fn default() -> Cataloguer {
        Cataloguer::new()
    }
}
