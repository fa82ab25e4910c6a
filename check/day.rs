//! Writes a random day: `day SEED NUMBER`.

mod days;

use std::io::{Write, stdout};
use std::process::ExitCode;

fn main() -> ExitCode {
    let words: Vec<String> = std::env::args().skip(1).collect();
    let numbers: Vec<u64> = words.iter().filter_map(|word| word.parse().ok()).collect();
    let &[seed, number] = numbers.as_slice() else {
        eprintln!("usage: day SEED NUMBER");
        return ExitCode::FAILURE;
    };
    match stdout().write_all(&days::day(seed, number)) {
        Ok(()) => ExitCode::SUCCESS,
        Err(error) => {
            eprintln!("day: {error}");
            ExitCode::FAILURE
        }
    }
}
