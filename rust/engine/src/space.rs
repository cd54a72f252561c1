//! The space that a run works in: five areas, lent as slices or owned, and how large they are.

use crate::convention::{self, Answer};
use crate::{catalogue, fit, fit_wanted, verdict, Catalogue, Refusal, Verdict, ELEMENT_BYTES, LINK_BYTES};
use std::fmt;

/// A node's record.
pub const NODE_BYTES: usize = 64;
/// A graph edge's record.
pub const EDGE_BYTES: usize = 16;
/// An alternative's record.
pub const ALTERNATIVE_BYTES: usize = 16;
/// Whole records count, and at most so many of each in the three work areas.
pub const MOST_RECORDS: usize = 4096;

/// Five lent areas. What they hold before has no say in the outcome, and they may be of any length.
///
/// After a verdict and after refusals 11, 13, 14 and 15 every byte of the three work areas is zero; after any other
/// refusal they are as they were. The two example areas change with "can" only, and only in the bytes that the example
/// fills.
pub struct Areas<'a> {
    /// Work area: nodes, [`NODE_BYTES`] each.
    pub nodes: &'a mut [u8],
    /// Work area: graph edges, [`EDGE_BYTES`] each.
    pub edges: &'a mut [u8],
    /// Work area: alternatives, [`ALTERNATIVE_BYTES`] each.
    pub alternatives: &'a mut [u8],
    /// The example's elements, [`ELEMENT_BYTES`] each.
    pub elements: &'a mut [u8],
    /// The example's links, [`LINK_BYTES`] each.
    pub links: &'a mut [u8],
}

/// Three lent areas, for a [`catalogue`](crate::catalogue()). What they hold before has no say in it, and they may be
/// of any length.
///
/// After a catalogue every byte of them is zero; after a refusal they are as they were.
pub struct WorkAreas<'a> {
    /// Nodes, [`NODE_BYTES`] each.
    pub nodes: &'a mut [u8],
    /// Graph edges, [`EDGE_BYTES`] each.
    pub edges: &'a mut [u8],
    /// Alternatives, [`ALTERNATIVE_BYTES`] each.
    pub alternatives: &'a mut [u8],
}

/// How many records each area of a [`Space`] holds. The default is [`Sizes::USUAL`].
#[derive(Clone, Copy, Debug, PartialEq, Eq)]
pub struct Sizes {
    /// Nodes.
    pub nodes: usize,
    /// Graph edges.
    pub edges: usize,
    /// Alternatives.
    pub alternatives: usize,
    /// Elements of an example.
    pub elements: usize,
    /// Links of an example.
    pub links: usize,
}

impl Sizes {
    /// What the program `./fit` lends.
    pub const USUAL: Sizes = Sizes { nodes: 1024, edges: 4096, alternatives: 4096, elements: 1024, links: 8192 };

    /// The most that can be of use: [`MOST_RECORDS`] of each. Of more in a work area no more count. An element of an
    /// example is a node of the run, each a different one, and a link an edge, so there are no more of these either: in
    /// these sizes refusal 11 never comes. (The last is an argument, and tested; it is not proved.)
    pub const MOST: Sizes = Sizes {
        nodes: MOST_RECORDS,
        edges: MOST_RECORDS,
        alternatives: MOST_RECORDS,
        elements: MOST_RECORDS,
        links: MOST_RECORDS,
    };

    /// How many bytes areas of these sizes have together; `None` if that is more than a machine has.
    ///
    /// ```
    /// use gumbyra::Sizes;
    ///
    /// assert_eq!(Sizes::USUAL.bytes(), Some((64 + 64 + 64 + 8 + 48) * 1024));
    /// assert_eq!(Sizes { links: usize::MAX / 6, ..Sizes::USUAL }.bytes(), None);
    /// ```
    pub fn bytes(self) -> Option<usize> {
        let areas = self.areas().into_iter();
        let sum = areas
            .map(|(records, bytes)| records.checked_mul(bytes))
            .try_fold(0usize, |sum, area| sum.checked_add(area?));
        sum.filter(|&bytes| isize::try_from(bytes).is_ok())
    }

    /// The records of each area, and the bytes of one.
    fn areas(self) -> [(usize, usize); 5] {
        let Sizes { nodes, edges, alternatives, elements, links } = self;
        [
            (nodes, NODE_BYTES),
            (edges, EDGE_BYTES),
            (alternatives, ALTERNATIVE_BYTES),
            (elements, ELEMENT_BYTES),
            (links, LINK_BYTES),
        ]
    }

    /// What to ask again with after a refusal in these sizes: only what was short is larger. A work area has twice the
    /// records, a first one if there was none and [`MOST_RECORDS`] at most; example areas have room for the example.
    /// `None` if no larger area helps: the refusal is not for a lack of room, or so many records are lent already.
    ///
    /// [`Space::fit_enlarging`] goes on until there is a verdict. Step by step:
    ///
    /// ```
    /// use gumbyra::{Refusal, Sizes, Space};
    /// # let file = [1, 0, 0, 0, 5, 1, 0, 0, 6, 0, 1, 0, 0, 0, 3, 0, 2, b'F', b'I', b'T'];
    ///
    /// let mut sizes = Sizes { nodes: 3, edges: 2, alternatives: 0, elements: 1, links: 1 };
    /// let mut refusals = Vec::new();
    /// while let Err(refusal) = Space::with(sizes).fit(&file) {
    ///     refusals.push(refusal);
    ///     sizes = sizes.enlarged(refusal).expect("a verdict in 4,096 records of each kind");
    /// }
    /// assert_eq!(sizes, Sizes { nodes: 12, edges: 8, alternatives: 1, elements: 2, links: 1 });
    /// assert_eq!(
    ///     refusals,
    ///     [
    ///         Refusal::NodesShort { lent: 3 },
    ///         Refusal::AlternativesShort { lent: 0 },
    ///         Refusal::EdgesShort { lent: 2 },
    ///         Refusal::EdgesShort { lent: 4 },
    ///         Refusal::NodesShort { lent: 6 },
    ///         Refusal::ExampleTooLong { elements: 2, links: 1 },
    ///     ]
    /// );
    ///
    /// // More than 4,096 records don't count, and a file that is refused stays so.
    /// assert_eq!(sizes.enlarged(Refusal::NodesShort { lent: 4096 }), None);
    /// assert_eq!(sizes.enlarged(Refusal::Mark), None);
    /// ```
    pub fn enlarged(self, refusal: Refusal) -> Option<Sizes> {
        let more = |lent: usize| (lent < MOST_RECORDS).then_some((2 * lent).clamp(1, MOST_RECORDS));
        Some(match refusal {
            Refusal::NodesShort { lent } => Sizes { nodes: more(lent)?, ..self },
            Refusal::EdgesShort { lent } => Sizes { edges: more(lent)?, ..self },
            Refusal::AlternativesShort { lent } => Sizes { alternatives: more(lent)?, ..self },
            Refusal::ExampleTooLong { elements, links } => {
                Sizes { elements: self.elements.max(elements), links: self.links.max(links), ..self }
            }
            _ => return None,
        })
    }
}

impl Default for Sizes {
    fn default() -> Sizes {
        Sizes::USUAL
    }
}

/// Five areas of its own, for any number of runs one after the other. The default is [`Space::usual`].
///
/// ```
/// use gumbyra::{Refusal, Sizes, Space, Verdict};
/// # let file = [1, 0, 0, 0, 5, 1, 0, 0, 6, 0, 1, 0, 0, 0, 3, 0, 2, b'F', b'I', b'T'];
///
/// // Refusal 11 tells how long the example areas have to be.
/// let mut small = Space::with(Sizes { elements: 1, ..Sizes::USUAL });
/// let Err(Refusal::ExampleTooLong { elements, links }) = small.fit(&file) else { panic!("it has two elements") };
/// let mut enough = Space::with(Sizes { elements, links, ..Sizes::USUAL });
/// assert!(matches!(enough.fit(&file), Ok(Verdict::Can { .. })));
/// ```
///
/// An example borrows the space, so the next run can't begin before one is done with it:
///
/// ```compile_fail,E0499
/// # let file = [1, 0, 0, 0, 0, 0, 1, 0, 0, b'F', b'I', b'T'];
/// let mut space = gumbyra::Space::usual();
/// let (first, second) = (space.fit(&file), space.fit(&file));
/// println!("{first:?} {second:?}");
/// ```
#[derive(Clone)]
pub struct Space {
    nodes: Vec<u8>,
    edges: Vec<u8>,
    alternatives: Vec<u8>,
    elements: Vec<u8>,
    links: Vec<u8>,
}

impl Space {
    /// A space of the usual sizes.
    pub fn usual() -> Space {
        Space::with(Sizes::USUAL)
    }

    /// A space of these sizes.
    ///
    /// # Panics
    /// If so many records have more bytes than a machine has ([`Sizes::bytes`]).
    pub fn with(sizes: Sizes) -> Space {
        sizes.bytes().expect("so many records have more bytes than a machine has");
        let [nodes, edges, alternatives, elements, links] =
            sizes.areas().map(|(records, bytes)| vec![0; records * bytes]);
        Space { nodes, edges, alternatives, elements, links }
    }

    /// How large its areas are.
    pub fn sizes(&self) -> Sizes {
        Sizes {
            nodes: self.nodes.len() / NODE_BYTES,
            edges: self.edges.len() / EDGE_BYTES,
            alternatives: self.alternatives.len() / ALTERNATIVE_BYTES,
            elements: self.elements.len() / ELEMENT_BYTES,
            links: self.links.len() / LINK_BYTES,
        }
    }

    /// Decides a rule file, as [`fit`](crate::fit()) does.
    pub fn fit(&mut self, file: &[u8]) -> Result<Verdict<'_>, Refusal> {
        fit(file, self.areas())
    }

    /// Decides a rule file with these wanted rows in place of its own, as [`fit_wanted`](crate::fit_wanted()) does.
    pub fn fit_wanted(&mut self, file: &[u8], wanted: &[u8]) -> Result<Verdict<'_>, Refusal> {
        fit_wanted(file, wanted, self.areas())
    }

    /// Decides a rule file, and enlarges what is short ([`Sizes::enlarged`]) until there is a verdict or no larger area
    /// helps. The outcome is that in the largest areas. The space stays as large as it got, for the runs that follow.
    ///
    /// ```
    /// use gumbyra::{Refusal, Sizes, Space, Verdict};
    ///
    /// /// A hosting desk lends little at first: most files need no more.
    /// fn serve(space: &mut Space, file: &[u8]) -> Result<String, Refusal> {
    ///     Ok(match space.fit_enlarging(file)? {
    ///         Verdict::Can { example, .. } => format!("can, with {} parts", example.elements().len()),
    ///         Verdict::Cannot { .. } => "cannot".to_string(),
    ///     })
    /// }
    ///
    /// # let file = [1, 0, 0, 0, 5, 1, 0, 0, 6, 0, 1, 0, 0, 0, 3, 0, 2, b'F', b'I', b'T'];
    /// let mut space = Space::with(Sizes { nodes: 3, edges: 2, alternatives: 0, elements: 1, links: 1 });
    /// assert_eq!(serve(&mut space, &file), Ok("can, with 2 parts".to_string()));
    /// assert_eq!(space.sizes(), Sizes { nodes: 12, edges: 8, alternatives: 1, elements: 2, links: 1 });
    /// assert_eq!(serve(&mut space, &file[1..]), Err(Refusal::Extent));
    /// ```
    pub fn fit_enlarging(&mut self, file: &[u8]) -> Result<Verdict<'_>, Refusal> {
        self.enlarging(|areas| convention::fit(file, areas))
    }

    /// The same with these wanted rows in place of the file's own.
    pub fn fit_wanted_enlarging(&mut self, file: &[u8], wanted: &[u8]) -> Result<Verdict<'_>, Refusal> {
        self.enlarging(|areas| convention::fit_wanted(file, wanted, areas))
    }

    /// The outcome of a call in areas that are enlarged while that helps. An answer is numbers only, so the areas are
    /// free again when it is there, and what it says of them is read once they stay.
    fn enlarging(&mut self, call: impl Fn(&mut Areas) -> Answer) -> Result<Verdict<'_>, Refusal> {
        let answer = loop {
            let answer = call(&mut self.areas());
            let sizes = self.sizes();
            let refusal = verdict::outcome(&answer, [&self.elements, &self.links]).err();
            match refusal.and_then(|refusal| sizes.enlarged(refusal)).filter(|&larger| larger != sizes) {
                Some(larger) => self.enlarge(larger),
                None => break answer,
            }
        };
        verdict::outcome(&answer, [&self.elements, &self.links])
    }

    /// Makes those areas anew that are larger in these sizes. What an area held has no say in the next run.
    fn enlarge(&mut self, sizes: Sizes) {
        sizes.bytes().expect("so many records have more bytes than a machine has");
        let Space { nodes, edges, alternatives, elements, links } = self;
        for (area, (records, bytes)) in [nodes, edges, alternatives, elements, links].into_iter().zip(sizes.areas()) {
            if records * bytes > area.len() {
                *area = vec![0; records * bytes];
            }
        }
    }

    /// Fills the table of a rule file's kinds, as [`catalogue`](crate::catalogue()) does. The table is lent, since it
    /// outlasts the runs: a page is made of it, and it is kept beside the rule file.
    ///
    /// ```
    /// use gumbyra::{IsA, Refusal, Space, LARGEST_TABLE};
    /// # // Names 0 and 1, each with its opposite; either not 1 or 0, a rule.
    /// # let rows = [[1, 0, 0, 0], [2, 0, 0, 0], [1, 0, 1, 0], [2, 0, 1, 0], [4, 0, 3, 0]];
    /// # let file = [rows.as_flattened(), &[4], &[0, 0, 5, 1, 2], b"FIT"].concat();
    ///
    /// // An area in which every table has room.
    /// let mut area = [0; LARGEST_TABLE];
    /// let page = Space::usual().catalogue(&file, &mut area)?;
    /// let names = page.names();
    /// for (a, b) in names.iter().flat_map(|a| names.iter().map(move |b| (a, b))) {
    ///     if a != b && page.is_a(a, b) == Some(IsA::Always) {
    ///         println!("every {a} is a {b}");
    ///     }
    /// }
    /// # assert_eq!(page.table(), [1, 0, 1, 1]);
    /// # Ok::<(), Refusal>(())
    /// ```
    pub fn catalogue<'a>(&mut self, file: &[u8], table: &'a mut [u8]) -> Result<Catalogue<'a>, Refusal> {
        let Space { nodes, edges, alternatives, .. } = self;
        catalogue(file, WorkAreas { nodes, edges, alternatives }, table)
    }

    /// The five areas.
    fn areas(&mut self) -> Areas<'_> {
        let Space { nodes, edges, alternatives, elements, links } = self;
        Areas { nodes, edges, alternatives, elements, links }
    }
}

impl Default for Space {
    fn default() -> Space {
        Space::usual()
    }
}

/// Its sizes: what the areas hold says nothing.
impl fmt::Debug for Space {
    fn fmt(&self, f: &mut fmt::Formatter) -> fmt::Result {
        f.debug_struct("Space").field("sizes", &self.sizes()).finish()
    }
}

#[cfg(test)]
mod tests {
    use super::*;

    /// Nodes whose bytes, counted in a machine word, would be none.
    #[test]
    #[should_panic(expected = "so many records have more bytes than a machine has")]
    fn a_space_larger_than_a_machine_is_none() {
        Space::with(Sizes { nodes: 1 << 58, ..Sizes::USUAL });
    }

    #[test]
    fn bytes_are_those_of_all_areas() {
        const NOTHING: Sizes = Sizes { nodes: 0, edges: 0, alternatives: 0, elements: 0, links: 0 };
        assert_eq!((NOTHING.bytes(), Sizes { nodes: 1, ..NOTHING }.bytes()), (Some(0), Some(64)));
        assert_eq!(Sizes { edges: 1, links: 1, ..NOTHING }.bytes(), Some(16 + 6));
        assert_eq!(Sizes { alternatives: 1, elements: 1, ..NOTHING }.bytes(), Some(16 + 8));
        let half = usize::MAX / 2;
        for links in [half / 6 + 1, usize::MAX / 6, usize::MAX / 6 + 1, usize::MAX] {
            assert_eq!(Sizes { links, ..NOTHING }.bytes(), None, "{links}");
        }
        assert_eq!(Sizes { links: half / 6, ..NOTHING }.bytes(), Some(half / 6 * 6));
        assert_eq!(Sizes { links: half / 6, elements: half / 8, ..NOTHING }.bytes(), None, "only together too many");
    }

    #[test]
    fn a_space_knows_its_sizes() {
        let sizes = Sizes { nodes: 1, edges: 2, alternatives: 3, elements: 4, links: 5 };
        let mut space = Space::with(sizes);
        assert_eq!((space.sizes(), space.clone().sizes()), (sizes, sizes));
        assert_eq!(format!("{space:?}"), format!("Space {{ sizes: {sizes:?} }}"));
        assert_eq!((Space::default().sizes(), Sizes::default()), (Sizes::USUAL, Sizes::USUAL));
        space.enlarge(Sizes { nodes: 0, edges: 7, links: 6, ..sizes });
        assert_eq!(space.sizes(), Sizes { edges: 7, links: 6, ..sizes });
    }
}
