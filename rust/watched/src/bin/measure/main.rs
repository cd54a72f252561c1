//! `measure [ROUNDS]`: the engine's time over the plain Rust program's, per group of files, and how it grows with the nodes used.

mod groups;
mod timing;

use groups::{draft_groups, groups, page_groups, rising, Group, Subject};
use plain::Lent;
use timing::{convert_times, evaluation, least, page_times, times, Evaluation, Times};

const ROUNDS: usize = 15;
/// No group should be above this ratio.
const AIM: f64 = 1.0;

const NOTE: &str = "\
Engine time over plain Rust time, in one run, by turns. No buffer is cleared before a run: the engine's areas hold what the run
before left. It leaves its work areas zero, all of them, and that is in its time; so is the plain program's allocation in its own.
Areas: what a program lends (1,024 nodes, 4,096 edges and alternatives; for a thousand states and for large examples 4,096 of each),
or just enough.
A draft is converted in an area of 4,096 bytes.
A page is the catalogue of a file, a run for each two of its names in the same areas: of 32 names over 64 rows, of 21 names each of which is
the next, and of random files of 40 rows and more.
32 rows: then the same files with 32 rows of kind 7 more, in one long chain: of roles that no other row has, so that the runs are the same
and only their table is longer; and of all roles.
Times are the least of all rounds, the mean of the group's files. ratio: engine over plain; rounds, files: its lowest and highest over them.
";

fn main() {
    let rounds = std::env::args().nth(1).map_or(ROUNDS, |word| word.parse().expect("ROUNDS is a number"));
    println!("{NOTE}\nrounds: {rounds}\n");
    println!("{:<18} {:<12} files   engine µs    plain µs   ratio   rounds         files", "group", "areas");
    let (groups, mut above) = (groups(), Vec::new());
    for group in &groups {
        above.extend((print_group(group, rounds, times) > AIM).then_some(group.name));
    }
    for group in page_groups() {
        above.extend((print_group(&group, rounds, page_times) > AIM).then_some(group.name));
    }
    for group in draft_groups() {
        let all = group.drafts.iter().map(|draft| convert_times(draft, rounds)).collect();
        let ratio = print_times(group.name, "convert", rounds, all);
        above.extend((ratio > AIM).then_some(group.name));
    }
    println!("\nabove {AIM:.1}: {}", if above.is_empty() { "none".to_string() } else { above.join(", ") });
    println!(
        "\nFinding the rows that hold, as part of plain Rust's time: files with an example, areas just enough; means."
    );
    println!("{:<18} files  elements   links      run µs     rows µs    part", "group");
    groups.iter().for_each(|group| print_evaluation(group, rounds));
    println!("\nGrowth, in areas just enough. power: of the nodes, since the line before.");
    println!(" nodes   engine µs  power    plain µs  power   ratio");
    print_growth(rounds);
}

/// Prints a group's two lines and gives the higher ratio.
fn print_group(group: &Group, rounds: usize, times: fn(&Subject, &Lent, usize) -> Times) -> f64 {
    let all_in = |lent: &dyn Fn(&Subject) -> Lent| group.subjects.iter().map(|s| times(s, &lent(s), rounds)).collect();
    let by_program = print_times(group.name, "as a program", rounds, all_in(&|_| group.lent));
    by_program.max(print_times(group.name, "just enough", rounds, all_in(&|subject| subject.enough)))
}

/// Prints the line of some files or drafts and gives their ratio.
fn print_times(name: &str, areas: &str, rounds: usize, all: Vec<Times>) -> f64 {
    let by_round: Vec<f64> = (0..rounds).map(|round| ratio(&all, |times| times[round])).collect();
    let by_file: Vec<f64> = all.iter().map(Times::ratio).collect();
    let (files, ratio) = (all.len() as f64, ratio(&all, least));
    let mean = |times: f64| times * 1e6 / files;
    println!(
        "{name:<18} {areas:<12} {files:>5} {:>11.1} {:>11.1} {ratio:>7.2}   {:<12}   {}",
        mean(all.iter().map(|times| least(&times.engine)).sum()),
        mean(all.iter().map(|times| least(&times.plain)).sum()),
        spread(&by_round),
        spread(&by_file)
    );
    ratio
}

/// Prints which part of the plain program's time it takes to find the rows that hold.
fn print_evaluation(group: &Group, rounds: usize) {
    let all: Vec<Evaluation> = group.subjects.iter().filter_map(|subject| evaluation(subject, rounds)).collect();
    let mean = |of: &dyn Fn(&Evaluation) -> f64| all.iter().map(of).sum::<f64>() / all.len() as f64;
    let (run, rows) = (mean(&|file| file.run) * 1e6, mean(&|file| file.rows_that_hold) * 1e6);
    println!(
        "{:<18} {:>5} {:>9.1} {:>7.1} {run:>11.1} {rows:>11.1} {:>7.3}",
        group.name,
        all.len(),
        mean(&|file| file.elements as f64),
        mean(&|file| file.links as f64),
        rows / run
    );
}

/// Engine over plain of a whole group, with one time chosen of each file's rounds.
fn ratio(all: &[Times], choose: impl Fn(&[f64]) -> f64) -> f64 {
    let engine: f64 = all.iter().map(|times| choose(&times.engine)).sum();
    let plain: f64 = all.iter().map(|times| choose(&times.plain)).sum();
    engine / plain
}

/// The lowest and the highest.
fn spread(values: &[f64]) -> String {
    let (low, high) = values.iter().fold((f64::MAX, f64::MIN), |(low, high), &v| (low.min(v), high.max(v)));
    format!("{low:.2}-{high:.2}")
}

fn print_growth(rounds: usize) {
    let mut last: Option<[f64; 3]> = None;
    for subject in rising() {
        let times = times(&subject, &subject.enough, rounds);
        let now = [subject.used.nodes as f64, least(&times.engine), least(&times.plain)];
        let power = |of: usize| match last {
            Some(last) => format!("{:.2}", (now[of] / last[of]).ln() / (now[0] / last[0]).ln()),
            None => "-".to_string(),
        };
        let [nodes, engine, plain] = now;
        let (engine, plain) = (engine * 1e6, plain * 1e6);
        let (engine_power, plain_power) = (power(1), power(2));
        println!("{nodes:>6} {engine:>11.1} {engine_power:>6} {plain:>11.1} {plain_power:>6} {:>7.2}", engine / plain);
        last = Some(now);
    }
}
