//! Cases by name, and how often each happened.

/// In how many files, or examples, or lists, each case happened.
#[derive(Default)]
pub struct Tally {
    all: usize,
    times: Vec<(&'static str, usize)>,
}

impl Tally {
    /// Counts one of them: which cases happened. The cases are always the same, in the same order.
    pub fn add(&mut self, cases: Vec<(&'static str, bool)>) {
        self.all += 1;
        self.times.resize(cases.len(), ("", 0));
        for (count, (what, happened)) in self.times.iter_mut().zip(cases) {
            *count = (what, count.1 + usize::from(happened));
        }
    }

    /// Prints the counts and fails if a case was rare.
    pub fn assert_often(&self, counted: &str, least: usize) {
        println!("{counted}: {}; those in which", self.all);
        self.times.iter().for_each(|(what, times)| println!("  {what}: {times}"));
        assert!(!self.times.is_empty(), "no {counted}");
        for (what, times) in &self.times {
            assert!(*times >= least, "{what}: only {times} times");
        }
    }
}

/// Of each file check, whether it refuses a file: 1 to 8 and 16.
pub fn cases_of_checks(refused: impl Fn(u8) -> bool) -> Vec<(&'static str, bool)> {
    let checks = [
        ("refusal 1", 1),
        ("refusal 2", 2),
        ("refusal 3", 3),
        ("refusal 4", 4),
        ("refusal 5", 5),
        ("refusal 6", 6),
        ("refusal 7", 7),
        ("refusal 8", 8),
        ("refusal 16", 16),
    ];
    checks.into_iter().map(|(what, number)| (what, refused(number))).collect()
}
