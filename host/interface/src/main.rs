//! `interface TOP`: do the header, the Rust declarations and the proved source of
//! the repository at TOP agree? Status 0 if they do; 1 with a line for each
//! difference; 2 if a file cannot be read or has a form that is not known.
#![forbid(unsafe_code)]

use std::path::Path;
use std::process::ExitCode;

use interface::Sources;

fn main() -> ExitCode {
    let Some(top) = std::env::args().nth(1) else {
        eprintln!("usage: interface TOP");
        return ExitCode::from(2);
    };
    match Sources::read(Path::new(&top)).and_then(|sources| sources.differences()) {
        Err(problem) => {
            eprintln!("interface: {problem}");
            ExitCode::from(2)
        }
        Ok((found, functions, answers)) if found.is_empty() && functions > 0 => {
            println!("{functions} functions and {answers} answers: header, Rust declarations and proved source agree");
            ExitCode::SUCCESS
        }
        Ok((found, functions, _)) => {
            found.iter().for_each(|line| println!("{line}"));
            println!(
                "{} differences in {functions} proved functions",
                found.len()
            );
            ExitCode::from(1)
        }
    }
}
