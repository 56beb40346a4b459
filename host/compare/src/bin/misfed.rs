//! The page form with a mistake, to try `compare --parts` and `conformance/check
//! --parts` on: `misfed [NAME] SIZES < INPUT`, or the name in the variable MISTAKE;
//! without a name there is no mistake. `misfed list` names all.
#![forbid(unsafe_code)]

use std::fs;
use std::io::{self, Read, Write};
use std::process::ExitCode;

use compare::mistaken::feed::{lines, FeedMistake};
use reference::pages::sizes_in;

fn main() -> ExitCode {
    let arguments: Vec<String> = std::env::args().skip(1).collect();
    let (name, sizes) = match &arguments[..] {
        [list] if list == "list" => {
            for mistake in FeedMistake::ALL {
                println!("{mistake:?}: {}", mistake.words());
            }
            return ExitCode::SUCCESS;
        }
        [sizes] => (std::env::var("MISTAKE").ok(), sizes),
        [name, sizes] => (Some(name.clone()), sizes),
        _ => {
            eprintln!("usage: misfed [NAME] SIZES < INPUT, or misfed list");
            return ExitCode::from(2);
        }
    };
    let mistake = name.as_deref().and_then(FeedMistake::named);
    if name.is_some() && mistake.is_none() {
        eprintln!("no such mistake; see `misfed list`");
        return ExitCode::from(2);
    }
    let read = fs::read_to_string(sizes).ok();
    let Some(sizes) = read.and_then(|text| sizes_in(&text)) else {
        eprintln!("no sizes in {sizes}");
        return ExitCode::from(2);
    };
    let mut input = Vec::new();
    let text = match io::stdin().lock().read_to_end(&mut input) {
        Ok(_) => lines(mistake, &input, &sizes),
        Err(_) => return ExitCode::FAILURE,
    };
    match io::stdout().lock().write_all(text.as_bytes()) {
        Ok(()) => ExitCode::SUCCESS,
        Err(_) => ExitCode::FAILURE,
    }
}
