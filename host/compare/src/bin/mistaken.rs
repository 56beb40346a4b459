//! The program with a mistake, to try `compare` and `conformance/check` on:
//! `mistaken NAME < INPUT`, or the name in the variable MISTAKE; without a name
//! there is no mistake. `mistaken list` names all.
#![forbid(unsafe_code)]

use std::io::{self, Read, Write};
use std::process::ExitCode;

use compare::mistaken::{lines, Mistake};

fn main() -> ExitCode {
    let argument = std::env::args().nth(1);
    let name = argument.or_else(|| std::env::var("MISTAKE").ok());
    if name.as_deref() == Some("list") {
        for mistake in Mistake::ALL {
            println!("{mistake:?}: {}", mistake.words());
        }
        return ExitCode::SUCCESS;
    }
    let mistake = name.as_deref().and_then(Mistake::named);
    if name.is_some() && mistake.is_none() {
        eprintln!("no such mistake; see `mistaken list`");
        return ExitCode::from(2);
    }
    let mut input = Vec::new();
    if io::stdin().lock().read_to_end(&mut input).is_err() {
        return ExitCode::FAILURE;
    }
    match io::stdout()
        .lock()
        .write_all(lines(mistake, &input).as_bytes())
    {
        Ok(()) => ExitCode::SUCCESS,
        Err(_) => ExitCode::FAILURE,
    }
}
