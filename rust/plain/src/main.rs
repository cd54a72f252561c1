//! Document 01's printing program over the plain engine: one rule file from standard input, its answer to standard output.

use std::io::{Read, Write};

fn main() -> std::io::Result<()> {
    let mut file = Vec::new();
    std::io::stdin().read_to_end(&mut file)?;
    let answer = plain::answer(&file, &plain::Lent::by_program());
    std::io::stdout().write_all(plain::print(&answer).as_bytes())
}
