//! Rule files, answers and catalogue pages in words, for people who have no table of rows in their head. Not proved:
//! what is told here is worked out from the bytes that the proved calls take and give.
//!
//! In order: how a name is said ([`phrases`]); words for each row, those of the text ([`trust`] says whether they may
//! be used) or composed of names and roles ([`composed`], [`wording`]); what a file is, and why it is refused
//! ([`judged`], [`refused`]); a file in words ([`file_page`]); an answer as it is printed ([`answer`]), the parts and
//! links of its example ([`assembly`]), the answer in words ([`answer_page`]); the catalogue page ([`catalogue_page`],
//! [`kinds`]); what the program `show` shows ([`showing`]); what it and `catalogue` share ([`command`]).

pub mod answer;
pub mod answer_page;
pub mod assembly;
pub mod catalogue_page;
pub mod command;
pub mod composed;
pub mod file_page;
pub mod judged;
pub mod kinds;
pub mod phrases;
pub mod refused;
pub mod showing;
pub mod trust;
pub mod wording;
