//! The reasons of a log with a mistake, to try `compare --reasons` and
//! `conformance/check --reasons` on: `misexplained NAME < INPUT`, or the name in the
//! variable MISTAKE; without a name there is no mistake. `misexplained list` names all.
#![forbid(unsafe_code)]

use std::io::{self, Read, Write};
use std::process::ExitCode;

use compare::mistaken::reason::{lines, ReasonMistake};

fn main() -> ExitCode {
    let argument = std::env::args().nth(1);
    let name = argument.or_else(|| std::env::var("MISTAKE").ok());
    if name.as_deref() == Some("list") {
        for mistake in ReasonMistake::ALL {
            println!("{mistake:?}: {}", mistake.words());
        }
        return ExitCode::SUCCESS;
    }
    let mistake = name.as_deref().and_then(ReasonMistake::named);
    if name.is_some() && mistake.is_none() {
        eprintln!("no such mistake; see `misexplained list`");
        return ExitCode::from(2);
    }
    let mut input = Vec::new();
    if io::stdin().lock().read_to_end(&mut input).is_err() {
        return ExitCode::FAILURE;
    }
    let text = lines(mistake, &input);
    match io::stdout().lock().write_all(text.as_bytes()) {
        Ok(()) => ExitCode::SUCCESS,
        Err(_) => ExitCode::FAILURE,
    }
}
