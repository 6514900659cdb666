//! Writes the list that is stored as sample.txt. See README.md, "The stored list".

fn main() { print!("{}", oracle::with_room(oracle::sample::sample)) }
