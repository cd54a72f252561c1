//! What is true of an answering, a cataloguing or a converting function, be it `plain`'s or another with the same words.
//!
//! A module is a subject. [`vectors`] and [`samples`] have the answers beside the questions; the others have answers by hand, and random
//! files on which the plain program, the meaning of ALCI ([`judging`]) and the function itself in other areas tell what is right. Each
//! fails too if a case that it is about was rare.

pub mod areas;
pub mod catalogues;
pub mod drafts;
pub mod first_rows;
pub mod inclusions;
pub mod judging;
pub mod listings;
pub mod records;
pub mod role_codes;
pub mod samples;
pub mod small_worlds;
pub mod vectors;
pub mod wanted;

use crate::protocol::questions::Conversion;
use plain::{Answer, Lent, Page};

/// An answering function: the answer to a file, given the lengths of the areas.
pub trait Answering: FnMut(&[u8], &Lent) -> Answer {}

impl<F: FnMut(&[u8], &Lent) -> Answer> Answering for F {}

/// An answering function with wanted rows in place of the file's own: file, rows, lengths of the areas.
pub trait AnsweringWanted: FnMut(&[u8], &[u8], &Lent) -> Answer {}

impl<F: FnMut(&[u8], &[u8], &Lent) -> Answer> AnsweringWanted for F {}

/// A cataloguing function: the page of a file, given the length of its table's area and those of the work areas.
pub trait Cataloguing: FnMut(&[u8], usize, &Lent) -> Page {}

impl<F: FnMut(&[u8], usize, &Lent) -> Page> Cataloguing for F {}

/// A converting function: what becomes of a draft in an area of so many bytes.
pub trait Converting: FnMut(&[u8], usize) -> Conversion {}

impl<F: FnMut(&[u8], usize) -> Conversion> Converting for F {}

/// What a caller's thread may have. Updates can nest a thousand deep, and the whole run must do with it.
pub const STACK: usize = 1 << 20;

/// Runs on a thread with a stack of so many bytes.
pub fn on_stack<T: Send + 'static>(bytes: usize, run: impl FnOnce() -> T + Send + 'static) -> T {
    std::thread::Builder::new().stack_size(bytes).spawn(run).expect("a thread").join().expect("the run ends")
}
