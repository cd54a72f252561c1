//! Files and drafts in which one place names a kind 7 row, so that refusal 16 comes (document 02, \[6\]).

use super::parts::{Parts, INCLUSION};
use super::random::Prng;

/// A place that can name a kind 7 row, by the kind of the row in which it is; 0 for the list of rules and the trailer.
pub type Place = (u8, &'static str);
/// Every such place.
pub const PLACES: [Place; 11] = [
    (3, "left"),
    (3, "right"),
    (4, "left"),
    (4, "right"),
    (5, "left"),
    (6, "left"),
    (8, "left"),
    (9, "left"),
    (9, "right"),
    (0, "rule"),
    (0, "wanted"),
];

/// The same file or draft with a kind 7 row named in one place, and which of `PLACES` that is. `None` if there is no such
/// place.
pub fn with_misplaced(prng: &mut Prng, right: &[u8]) -> Option<(usize, Vec<u8>)> {
    let place = prng.below(PLACES.len());
    misplaced(prng, Parts::of(right), PLACES[place]).map(|wrong| (place, wrong))
}

/// The same with a kind 7 row named in that place; in a row it has to be a lower one. `None` if there is no such place, or if the row would
/// then be another row's repeat.
fn misplaced(prng: &mut Prng, mut parts: Parts, (kind, place): Place) -> Option<Vec<u8>> {
    let of_kind = |parts: &Parts, kind: u8| -> Vec<usize> {
        (0..parts.rows.len()).filter(|&row| parts.rows[row][0] == kind).collect()
    };
    let inclusions = of_kind(&parts, INCLUSION);
    let any = |prng: &mut Prng, rows: &[usize]| (!rows.is_empty()).then(|| rows[prng.below(rows.len())]);
    match place {
        "wanted" => parts.wanted = any(prng, &inclusions)? as u8,
        "rule" => {
            let rule = (!parts.rules.is_empty()).then(|| prng.below(parts.rules.len()))?;
            parts.rules[rule] = any(prng, &inclusions)? as u8;
        }
        side => {
            let row = any(prng, &of_kind(&parts, kind))?;
            let lower: Vec<usize> = inclusions.into_iter().filter(|&inclusion| inclusion < row).collect();
            parts.rows[row][if side == "left" { 2 } else { 3 }] = any(prng, &lower)? as u8;
        }
    }
    let repeats = (1..parts.rows.len()).any(|row| parts.rows[..row].contains(&parts.rows[row]));
    (!repeats).then(|| parts.bytes())
}
