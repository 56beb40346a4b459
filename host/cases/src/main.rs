//! Writes the cases of the gate, what is expected of them, the conformance
//! files and the sample. See `USAGE`.
#![forbid(unsafe_code)]

use std::fs;
use std::io::{self, Read, Write};
use std::path::Path;
use std::process::ExitCode;

use cases::{all, conformance, sequence};
use reference::table;

const USAGE: &str = "\
usage: cases write > FILE       the cases of the gate, as one sequence
       cases expect < FILE      what is to be printed for a sequence
       cases list               number, name and idea of each case
       cases conformance DIR    make the files of the conformance set in DIR
       cases document > FILE    the log to check by, with its limits";

fn main() -> ExitCode {
    let arguments: Vec<String> = std::env::args().skip(1).collect();
    let words: Vec<&str> = arguments.iter().map(String::as_str).collect();
    let done = match words[..] {
        ["write"] => print(&sequence::write(all().iter().map(|case| &case.input[..]))),
        ["expect"] => expect(),
        ["list"] => print(list().as_bytes()),
        ["conformance", folder] => write_files(Path::new(folder)),
        ["document"] => print(&table::input()),
        _ => {
            eprintln!("{USAGE}");
            return ExitCode::from(2);
        }
    };
    match done {
        Ok(()) => ExitCode::SUCCESS,
        Err(error) => {
            eprintln!("cases: {error}");
            ExitCode::FAILURE
        }
    }
}

fn print(bytes: &[u8]) -> io::Result<()> {
    io::stdout().lock().write_all(bytes)
}

/// Reads a sequence and prints what is expected of it.
fn expect() -> io::Result<()> {
    let mut bytes = Vec::new();
    io::stdin().lock().read_to_end(&mut bytes)?;
    match sequence::read(&bytes) {
        Some(inputs) => print(sequence::expect(&inputs).as_bytes()),
        None => Err(io::Error::other("the sequence breaks off inside a case")),
    }
}

fn list() -> String {
    let line = |(index, case): (usize, &cases::Case)| {
        format!("{} {}: {}\n", index + 1, case.name, case.catches)
    };
    all().iter().enumerate().map(line).collect()
}

/// Makes the conformance files; older files of the set are taken away first.
fn write_files(folder: &Path) -> io::Result<()> {
    fs::create_dir_all(folder)?;
    for entry in fs::read_dir(folder)? {
        let path = entry?.path();
        let ending = path.extension().and_then(|ending| ending.to_str());
        if matches!(ending, Some("input" | "parts" | "expected" | "reasons")) {
            fs::remove_file(path)?;
        }
    }
    for (name, bytes) in conformance::files() {
        fs::write(folder.join(name), bytes)?;
    }
    Ok(())
}
