//! How a name is said: as a noun, as a phrase, or by its number.

/// A name in words.
#[derive(Clone, Debug, PartialEq, Eq)]
pub enum Said {
    /// A noun without its article: "dosing pump".
    Noun(String),
    /// What is true of a part that has the name: "is acid-proof", "has rubber seals".
    Phrase(String),
    /// The text has no words for it.
    Number(u8),
}

impl Said {
    /// By the words of a row that says that a part has the name: "is a dosing pump" has a noun.
    pub fn of_row(words: &str) -> Said {
        let noun = words.strip_prefix("is a ").or_else(|| words.strip_prefix("is an "));
        noun.map_or_else(|| Said::Phrase(words.to_string()), |noun| Said::Noun(noun.to_string()))
    }

    /// By the words of a row that says that a part hasn't the name: "is no dosing pump" has a noun too.
    pub fn of_opposite(words: &str) -> Said {
        if let Some(noun) = words.strip_prefix("is no ") {
            return Said::Noun(noun.to_string());
        }
        let is = words.strip_prefix("is not ").map(|rest| format!("is {rest}"));
        let phrase = is.or_else(|| words.strip_prefix("has no ").map(|rest| format!("has {rest}")));
        phrase.map_or_else(|| Said::Phrase(format!("not: {words}")), |phrase| Said::of_row(&phrase))
    }

    /// "is a dosing pump", "is acid-proof", "has name 5".
    pub fn is(&self) -> String {
        match self {
            Said::Noun(noun) => format!("is {}", with_article(noun)),
            Said::Phrase(phrase) => phrase.clone(),
            Said::Number(name) => format!("has name {name}"),
        }
    }

    /// "is no dosing pump", "is not acid-proof", "has no rubber seals", "hasn't name 5".
    pub fn is_not(&self) -> String {
        match self {
            Said::Noun(noun) => format!("is no {noun}"),
            Said::Phrase(phrase) => opposites(phrase).swap_remove(0),
            Said::Number(name) => format!("hasn't name {name}"),
        }
    }

    /// "dosing pump", "part that is acid-proof", "part that has name 5": behind "every" and "no".
    pub fn one(&self) -> String {
        match self {
            Said::Noun(noun) => noun.clone(),
            _ => format!("part that {}", self.is()),
        }
    }

    /// In a table: "dosing pump", "acid-proof", "has rubber seals", "name 5".
    pub fn label(&self) -> String {
        match self {
            Said::Noun(noun) => noun.clone(),
            Said::Phrase(phrase) => phrase.strip_prefix("is ").unwrap_or(phrase).to_string(),
            Said::Number(name) => format!("name {name}"),
        }
    }

    /// Behind a part, in brackets: "a dosing pump", "acid-proof", "has rubber seals", "name 5".
    pub fn remark(&self) -> String {
        match self {
            Said::Noun(noun) => with_article(noun),
            _ => self.label(),
        }
    }
}

/// "a dosing pump", "an acid pump": by the next letter.
pub fn with_article(noun: &str) -> String {
    let vowel = noun.chars().next().is_some_and(|letter| "aeiouAEIOU".contains(letter));
    format!("{} {noun}", if vowel { "an" } else { "a" })
}

/// The words that say the opposite of these, as they are usually said; the first is the one to use.
pub fn opposites(words: &str) -> Vec<String> {
    let noun = words.strip_prefix("is a ").or_else(|| words.strip_prefix("is an "));
    if let Some(noun) = noun {
        return vec![format!("is no {noun}"), format!("is not {}", with_article(noun))];
    }
    if let Some(rest) = words.strip_prefix("is ") {
        return vec![format!("is not {rest}")];
    }
    if let Some(noun) = words.strip_prefix("has a ").or_else(|| words.strip_prefix("has an ")) {
        return vec![format!("has no {noun}")];
    }
    // "has only rubber seals" has no such opposite.
    let is_plain = |rest: &&str| {
        let first = rest.split(' ').next().unwrap_or_default();
        !["no", "only", "some", "at", "all", "every", "exactly", "just"].contains(&first)
    };
    if let Some(rest) = words.strip_prefix("has ").filter(is_plain) {
        return vec![format!("has no {rest}")];
    }
    vec![words.strip_prefix("not: ").map_or_else(|| format!("not: {words}"), str::to_string)]
}

/// A link in words: "is fitted to part 1", "has part 3 fitted to it".
pub fn link(role: &str, other: &str) -> String {
    match role.strip_prefix("has ").filter(|rest| rest.ends_with(" it")) {
        Some(rest) => format!("has {other} {rest}"),
        None => format!("{role} {other}"),
    }
}

/// "a", "a and b", "a, b and c".
pub fn enumerated(words: &[String], before_last: &str) -> String {
    match words {
        [first @ .., last] if !first.is_empty() => format!("{} {before_last} {last}", first.join(", ")),
        _ => words.concat(),
    }
}

/// So many of something: "1 row", "2 rows".
pub fn count(number: usize, noun: &str) -> String {
    format!("{number} {noun}{}", if number == 1 { "" } else { "s" })
}

#[cfg(test)]
mod tests {
    use super::*;

    #[test]
    fn names_are_said_by_their_words() {
        let acid_pump = Said::of_row("is an acid pump");
        assert_eq!(acid_pump, Said::Noun("acid pump".to_string()));
        assert_eq!(
            (acid_pump.is(), acid_pump.is_not()),
            ("is an acid pump".to_string(), "is no acid pump".to_string())
        );
        assert_eq!((acid_pump.one(), acid_pump.label(), acid_pump.remark()).2, "an acid pump");
        let proof = Said::of_row("is acid-proof");
        assert_eq!([proof.is(), proof.is_not(), proof.label()], ["is acid-proof", "is not acid-proof", "acid-proof"]);
        let seals = Said::of_row("has rubber seals");
        assert_eq!([seals.is_not(), seals.one()], ["has no rubber seals", "part that has rubber seals"]);
        let of_opposites = ["is no acid pump", "is not acid-proof", "has no rubber seals"].map(Said::of_opposite);
        assert_eq!(of_opposites, [acid_pump, proof, seals]);
        let dry = Said::of_opposite("holds no water");
        assert_eq!([dry.is(), dry.is_not()], ["not: holds no water", "holds no water"]);
        let other = Said::of_row("holds water");
        assert_eq!([other.is_not(), other.remark()], ["not: holds water", "holds water"]);
        assert_eq!([Said::Number(5).is(), Said::Number(5).is_not()], ["has name 5", "hasn't name 5"]);
        assert_eq!([Said::Number(5).one(), Said::Number(5).label()], ["part that has name 5", "name 5"]);
    }

    #[test]
    fn links_and_lists_read_well() {
        assert_eq!(link("is fitted to", "part 1"), "is fitted to part 1");
        assert_eq!(link("has fitted to it", "part 1"), "has part 1 fitted to it");
        assert_eq!(link("has", "part 1"), "has part 1");
        let words = ["a", "b", "c"].map(str::to_string);
        assert_eq!([enumerated(&words, "and"), enumerated(&words[..2], "or")], ["a, b and c", "a or b"]);
        assert_eq!([enumerated(&words[..1], "and"), enumerated(&[], "and")], ["a", ""]);
        assert_eq!([count(1, "row"), count(0, "rule")], ["1 row", "0 rules"]);
    }
}
