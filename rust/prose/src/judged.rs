//! What a file is: a rule file, a draft, or neither.

use gumbyra::{Fault, Table};
use std::fmt;

/// What a file was judged as.
#[derive(Clone, Copy, Debug, PartialEq, Eq)]
pub enum Kind {
    RuleFile,
    Draft,
}

impl fmt::Display for Kind {
    fn fmt(&self, f: &mut fmt::Formatter) -> fmt::Result {
        f.write_str(match self {
            Kind::RuleFile => "rule file",
            Kind::Draft => "draft",
        })
    }
}

/// A file that passes the checks of a rule file is one. Else one with a row of kind 8 or 9 is a draft, and passes a
/// draft's checks or not.
pub fn judge(file: &[u8]) -> Result<(Kind, Table), (Kind, Fault)> {
    let fault = match Table::read(file) {
        Ok(table) => return Ok((Kind::RuleFile, table)),
        Err(fault) => fault,
    };
    if !has_rows_of_draft(file, fault) {
        return Err((Kind::RuleFile, fault));
    }
    match Table::read_draft(file) {
        Ok(table) => Ok((Kind::Draft, table)),
        Err(fault) => Err((Kind::Draft, fault)),
    }
}

/// Has a refused file a row of kind 8 or 9? Refusals 1 to 4 leave it open where the rows are.
fn has_rows_of_draft(file: &[u8], fault: Fault) -> bool {
    let [.., low, high, rows, _, _, _, _, _] = *file else { return false };
    let place = usize::from(u16::from_le_bytes([low, high]));
    let bytes = file.get(place..place + 4 * usize::from(rows)).unwrap_or_default();
    fault.number() > 4 && bytes.chunks_exact(4).any(|row| matches!(row[0], 8 | 9))
}
