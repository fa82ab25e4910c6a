//! A second program `daybook`, written from docs/RULES.md, docs/FORMS.md and docs/DECISIONS.md alone.
//! Lines on standard input; an answer to each, then the statements, on standard output.

mod second;

use std::io::{stdin, stdout};
use std::process::ExitCode;

fn main() -> ExitCode {
    match second::run(stdin().lock(), stdout().lock(), |_| ()) {
        Ok(()) => ExitCode::SUCCESS,
        Err(error) => {
            eprintln!("daybook: {error}");
            ExitCode::FAILURE
        }
    }
}
