//! Narrower roles by kind 7 rows (document 02, \[6\]): in files by hand and at random, in drafts, and where such a row may not stand.

pub mod drafts;
pub mod misplaced;
pub mod narrower_roles;
pub mod random_files;
