//! What the converter gives back, from the numbers of its call.

use crate::convention::Conversion;
use crate::refusal::Refusal;
use gumbyra_table::LONGEST_FILE;

/// The file that a conversion wrote, or its refusal, with the area as it is after the call. `None` if it is no answer
/// of the converter.
pub(crate) fn outcome<'a>(conversion: &Conversion, area: &'a [u8]) -> Option<Result<&'a [u8], Refusal>> {
    match (conversion.refusal, conversion.length as usize) {
        (0, length @ 1..=LONGEST_FILE) => area.get(..length).map(Ok),
        (number, 0) => Refusal::of_conversion(number).map(Err),
        _ => None,
    }
}

#[cfg(test)]
mod tests {
    use super::*;

    fn of_numbers(refusal: u32, length: u32, area: &[u8]) -> Option<Result<&[u8], Refusal>> {
        outcome(&Conversion { refusal, length }, area)
    }

    #[test]
    fn every_answer_has_its_outcome() {
        let area = [7; LONGEST_FILE + 1];
        assert_eq!(of_numbers(0, 12, &area), Some(Ok(&area[..12])));
        assert_eq!(of_numbers(0, 12, &area[..12]), Some(Ok(&area[..12])));
        assert_eq!(of_numbers(0, 4096, &area), Some(Ok(&area[..4096])));
        assert_eq!(of_numbers(8, 0, &area), Some(Err(Refusal::NoSuchRow)));
        assert_eq!(of_numbers(12, 0, b""), Some(Err(Refusal::ResultTooLong)));
        assert_eq!(of_numbers(16, 0, &area), Some(Err(Refusal::Inclusion)));
    }

    #[test]
    fn other_numbers_are_no_answer() {
        let area = [7; LONGEST_FILE + 1];
        for (refusal, length) in [(0, 0), (1, 1), (9, 0), (12, 12), (16, 12), (0, 4097), (0, u32::MAX)] {
            assert_eq!(of_numbers(refusal, length, &area), None, "{refusal} {length}");
        }
        for refusal in [10, 11, 13, 14, 15, 17] {
            assert_eq!(of_numbers(refusal, 0, &area), None, "{refusal}: of a run, or none");
        }
        assert_eq!(of_numbers(0, 12, &area[..11]), None, "longer than the area");
    }
}
