//! What a catalogue page says of one kind, in a sentence.

use crate::phrases::{count, enumerated, with_article, Said};

/// So many undecided kinds are told by their words; of more it is told how many there are.
const MOST_TOLD: usize = 2;

/// What is known of a kind.
pub struct Known<'a> {
    pub kind: &'a Said,
    /// What every part of the kind is besides.
    pub always: Vec<&'a Said>,
    /// What it is not decided to be.
    pub undecided: Vec<&'a Said>,
    /// Can there be a part of the kind? `None` if that is not decided.
    pub can_exist: Option<bool>,
}

impl Known<'_> {
    /// The sentence, with the end of its line; nothing if nothing is to be said. Of what cannot exist "every" is true
    /// of whatever is said, and no page should say it.
    pub fn sentence(&self) -> String {
        let one = self.kind.one();
        if self.can_exist == Some(false) {
            return format!("There can be no {one}.\n");
        }
        match (self.always.as_slice(), self.open()) {
            ([], None) => String::new(),
            ([], Some(_)) if self.undecided.is_empty() => {
                format!("It is not decided whether there can be {}.\n", with_article(&one))
            }
            ([], Some(open)) => format!("Undecided of every {one}: {open}.\n"),
            (always, None) => format!("Every {one} {}.\n", said(always, "and")),
            (always, Some(open)) => format!("Every {one} {}; undecided: {open}.\n", said(always, "and")),
        }
    }

    /// What is not decided.
    fn open(&self) -> Option<String> {
        let kinds = match self.undecided.as_slice() {
            [] => None,
            few if few.len() <= MOST_TOLD => Some(format!("whether it {}", said(few, "or"))),
            many => Some(format!("which of {} it is", count(many.len(), "other kind"))),
        };
        let exists = self.can_exist.is_none();
        match (kinds, exists) {
            (None, false) => None,
            (None, true) => Some("whether there can be one".to_string()),
            (Some(kinds), false) => Some(kinds),
            (Some(kinds), true) => Some(format!("{kinds}, and whether there can be one")),
        }
    }
}

/// "is a pump and a dosing pump", "is a pump and is acid-proof": nouns share their "is".
fn said(kinds: &[&Said], joint: &str) -> String {
    let nouns = kinds.iter().all(|kind| matches!(kind, Said::Noun(_)));
    if nouns {
        let nouns: Vec<String> = kinds.iter().map(|kind| kind.remark()).collect();
        return format!("is {}", enumerated(&nouns, joint));
    }
    enumerated(&kinds.iter().map(|kind| kind.is()).collect::<Vec<_>>(), joint)
}

#[cfg(test)]
mod tests {
    use super::*;

    #[test]
    fn what_is_known_stands_beside_what_is_not() {
        let [pump, acid, box_] = ["pump", "acid pump", "box"].map(|noun| Said::Noun(noun.to_string()));
        let [proof, seals] = ["is acid-proof", "has rubber seals"].map(|phrase| Said::Phrase(phrase.to_string()));
        let sentence = |kind, always: &[&Said], undecided: &[&Said], can_exist| {
            let known = Known { kind, always: always.to_vec(), undecided: undecided.to_vec(), can_exist };
            known.sentence().trim_end().to_string()
        };
        let (yes, open) = (Some(true), None);
        assert_eq!(sentence(&acid, &[], &[], yes), "");
        assert_eq!(sentence(&acid, &[&pump], &[], yes), "Every acid pump is a pump.");
        assert_eq!(sentence(&box_, &[&pump, &acid], &[], yes), "Every box is a pump and an acid pump.");
        assert_eq!(
            sentence(&proof, &[&pump, &seals], &[], yes),
            "Every part that is acid-proof is a pump and has rubber seals."
        );
        assert_eq!(sentence(&Said::Number(5), &[&Said::Number(6)], &[], yes), "Every part that has name 5 has name 6.");
        assert_eq!(sentence(&seals, &[&pump], &[&acid], Some(false)), "There can be no part that has rubber seals.");
        assert_eq!(sentence(&acid, &[], &[], open), "It is not decided whether there can be an acid pump.");
        assert_eq!(
            sentence(&proof, &[], &[], open),
            "It is not decided whether there can be a part that is acid-proof."
        );
        let one = "Every acid pump is a pump; undecided: whether it is a box or is acid-proof.";
        assert_eq!(sentence(&acid, &[&pump], &[&box_, &proof], yes), one);
        let many = "Every acid pump is a pump; undecided: which of 3 other kinds it is, and whether there can be one.";
        assert_eq!(sentence(&acid, &[&pump], &[&box_, &proof, &seals], open), many);
        let nothing = "Undecided of every acid pump: whether it is a pump or a box.";
        assert_eq!(sentence(&acid, &[], &[&pump, &box_], yes), nothing);
        let last = "Every acid pump is a pump; undecided: whether there can be one.";
        assert_eq!(sentence(&acid, &[&pump], &[], open), last);
    }
}
