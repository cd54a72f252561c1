//! The calls by the C convention, as in gumbyra.h. The only unsafe code. The pointer of a slice is never null, also of
//! an empty one.

use crate::{Areas, WorkAreas};
use std::ffi::{c_char, CStr};

/// The numbers of an answer.
#[repr(C)]
#[derive(Debug)]
pub struct Answer {
    pub verdict: u32,
    pub refusal: u32,
    pub nodes: u32,
    pub edges: u32,
    pub alternatives: u32,
    pub elements: u32,
    pub links: u32,
    pub lent: u32,
}

/// The numbers of a conversion.
#[repr(C)]
#[derive(Debug)]
pub struct Conversion {
    pub refusal: u32,
    pub length: u32,
}

/// The numbers of a catalogue page.
#[repr(C)]
#[derive(Debug)]
pub struct Page {
    pub refusal: u32,
    pub count: u32,
    pub names: u64,
}

/// Functions of gumbyra.h: each is declared, and called by a safe function of the same name. Before the semicolon stand
/// the slices that the call reads, behind it those that it writes; in C each is a pointer and a length.
///
/// To add one is to say of it what the header says of them all: it reads and writes nothing but these slices and
/// constants, keeps no pointer and has no state of its own.
macro_rules! calls {
    ($($(#[$doc:meta])* $vis:vis fn $name:ident($($read:ident),+; $($written:ident),*) -> $given:ty;)+) => {$(
        $(#[$doc])*
        $vis fn $name($($read: &[u8],)+ $($written: &mut [u8],)*) -> $given {
            extern "C" {
                fn $name($($read: *const u8, _: usize,)+ $($written: *mut u8, _: usize,)*) -> $given;
            }
            // SAFETY: each pointer comes with the length of its slice. The slices are borrowed until the call ends,
            // those that it writes alone, so none of these overlaps another; the others it only reads. It keeps no
            // pointer and has no state of its own.
            unsafe { $name($($read.as_ptr(), $read.len(),)+ $($written.as_mut_ptr(), $written.len(),)*) }
        }
    )+};
}

calls! {
    /// Decides a rule file.
    fn gumbyra_fit(file; nodes, edges, alternatives, elements, links) -> Answer;
    /// Decides a rule file with these wanted rows in place of its own.
    fn gumbyra_fit_wanted(file, wanted; nodes, edges, alternatives, elements, links) -> Answer;
    /// Fills the table of a rule file's kinds.
    fn gumbyra_catalogue(file; nodes, edges, alternatives, table) -> Page;
    /// How many leading bytes of a rule file are its text.
    pub fn gumbyra_text(file;) -> usize;
    /// The same with these wanted rows in place of its own.
    pub fn gumbyra_text_wanted(file, wanted;) -> usize;
    /// Converts a draft.
    pub fn gumbyra_convert(draft; area) -> Conversion;
}

/// Decides a rule file in these areas.
pub fn fit(file: &[u8], areas: &mut Areas) -> Answer {
    let Areas { nodes, edges, alternatives, elements, links } = areas;
    gumbyra_fit(file, nodes, edges, alternatives, elements, links)
}

/// Decides it with these wanted rows in place of its own.
pub fn fit_wanted(file: &[u8], wanted: &[u8], areas: &mut Areas) -> Answer {
    let Areas { nodes, edges, alternatives, elements, links } = areas;
    gumbyra_fit_wanted(file, wanted, nodes, edges, alternatives, elements, links)
}

/// Fills the table of its kinds.
pub fn catalogue(file: &[u8], work: WorkAreas, table: &mut [u8]) -> Page {
    let WorkAreas { nodes, edges, alternatives } = work;
    gumbyra_catalogue(file, nodes, edges, alternatives, table)
}

extern "C" {
    fn gumbyra_version() -> u32;

    fn gumbyra_sentence(refusal: u32) -> *const c_char;
}

/// The library's version.
pub fn version() -> u32 {
    // SAFETY: the call reads nothing but a constant.
    unsafe { gumbyra_version() }
}

/// The library's sentence for a refusal.
pub fn sentence(refusal: u32) -> &'static str {
    // SAFETY: for every number there is a string that ends in a zero and lasts as long as the program.
    let sentence = unsafe { CStr::from_ptr(gumbyra_sentence(refusal)) };
    sentence.to_str().expect("a sentence in UTF-8")
}
