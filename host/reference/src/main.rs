//! The program of R41 by the reference: standard input is N and Z and a
//! log, standard output the lines. `reference full` is that of R46. `reference
//! words` prints the same input in hex and in words instead, `reference parts FILE`
//! the lines of the page form: the log fed in parts of the sizes in FILE. `reference
//! reasons` prints R52's nine numbers for each record, otherwise as R46 has it.
#![forbid(unsafe_code)]

use std::fs;
use std::io::{self, Read, Write};
use std::process::ExitCode;

use reference::program::{lines_unread, lines_up_to, FULL_N, MOST_N};
use reference::{pages, reason, words};

fn main() -> ExitCode {
    let arguments: Vec<String> = std::env::args().skip(1).collect();
    let done = match arguments.iter().map(String::as_str).collect::<Vec<_>>()[..] {
        [] => print_lines(
            |input| lines_up_to(MOST_N, input),
            |input| lines_unread(MOST_N, input),
        ),
        ["full"] => print_lines(
            |input| lines_up_to(FULL_N, input),
            |input| lines_unread(FULL_N, input),
        ),
        ["reasons"] => print_lines(reason::lines, reason::lines_unread),
        ["words"] => print_words(MOST_N),
        ["words", "full"] => print_words(FULL_N),
        ["parts", sizes] => print_calls(sizes),
        _ => {
            eprintln!("usage: reference [words] [full] < INPUT");
            eprintln!("       reference parts FILE < INPUT");
            eprintln!("       reference reasons < INPUT");
            return ExitCode::from(2);
        }
    };
    match done {
        Ok(()) => ExitCode::SUCCESS,
        Err(error) => {
            eprintln!("reference: {error}");
            ExitCode::FAILURE
        }
    }
}

/// Reads standard input whole and prints the program's lines, or, where reading
/// fails, those of what was read.
fn print_lines(lines: fn(&[u8]) -> String, lines_unread: fn(&[u8]) -> String) -> io::Result<()> {
    let mut input = Vec::new();
    match io::stdin().lock().read_to_end(&mut input) {
        Ok(_) => print(&lines(&input)),
        Err(error) => print(&lines_unread(&input)).and(Err(error)),
    }
}

/// Reads standard input whole and prints it in words.
fn print_words(most: u32) -> io::Result<()> {
    let mut input = Vec::new();
    io::stdin().lock().read_to_end(&mut input)?;
    print(&words::input_words_up_to(most, &input))
}

/// Reads standard input whole and prints a line a call, for parts of the sizes in
/// this file.
fn print_calls(sizes: &str) -> io::Result<()> {
    let sizes = pages::sizes_in(&fs::read_to_string(sizes)?)
        .ok_or_else(|| io::Error::other("the sizes of the parts are not decimal numbers"))?;
    let mut input = Vec::new();
    io::stdin().lock().read_to_end(&mut input)?;
    print(&pages::lines(&input, &sizes))
}

fn print(text: &str) -> io::Result<()> {
    io::stdout().lock().write_all(text.as_bytes())
}
