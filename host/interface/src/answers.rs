//! The answers, and what a call of `emuparasol_feed` has done: a name and a number each.

use crate::{between, without_comments};

/// An answer's name, as in the proved source, and its number.
#[derive(Clone, Debug, PartialEq, Eq)]
pub struct Answer {
    /// Words in capitals, joined by `_`.
    pub name: String,
    /// Its number in R3.
    pub number: u8,
}

/// The associated constants of the Rattle answer type.
pub fn of_rattle(text: &str) -> Result<Vec<Answer>, String> {
    let text = without_comments(text);
    let parts = text.split("pub const ").skip(1);
    parts
        .map(|part| {
            let (name, rest) = part.split_once(':').ok_or(part)?;
            let number = between(rest, "{ number: ", " }").ok_or(part)?;
            answer(name, number)
        })
        .collect()
}

/// The constants of the header's `enum emuparasol_answer`, without their prefix.
pub fn of_c(text: &str) -> Result<Vec<Answer>, String> {
    of_c_enum(text, "emuparasol_answer")
}

/// The constants of the header's `enum emuparasol_happened`, without their prefix.
pub fn of_c_happened(text: &str) -> Result<Vec<Answer>, String> {
    of_c_enum(text, "emuparasol_happened")
}

fn of_c_enum(text: &str, name: &str) -> Result<Vec<Answer>, String> {
    let text = without_comments(text);
    let open = format!("enum {name} {{");
    let block = between(&text, &open, "}").ok_or(format!("no {name}"))?;
    listed(block, |name| {
        name.strip_prefix("EMUPARASOL_").map(str::to_string)
    })
}

/// What has happened, as the proved source and the Rust declarations have it: their
/// `pub const NAME: u8 = NUMBER;`, of which there has to be one.
pub fn of_bytes(text: &str) -> Result<Vec<Answer>, String> {
    let text = without_comments(text);
    let mut found = Vec::new();
    for part in text.split("pub const ").skip(1) {
        let (name, rest) = part.split_once(": u8 = ").ok_or(part)?;
        let (number, _) = rest.split_once(';').ok_or(part)?;
        found.push(answer(name, number)?);
    }
    match found.is_empty() {
        true => Err("no pub const NAME: u8".into()),
        false => Ok(found),
    }
}

/// The names that the header's `emuparasol_answer_name` gives to the numbers, in the
/// form of the constants.
pub fn of_c_names(text: &str) -> Result<Vec<Answer>, String> {
    let block = between(text, "emuparasol_answer_name(uint8_t answer) {", "\n}\n")
        .ok_or("no emuparasol_answer_name")?;
    let list = between(block, "names[] = {", "}").ok_or("no list of names")?;
    list.split(',')
        .zip(0u8..)
        .map(|(item, number)| {
            let name = item.trim().strip_prefix('"').ok_or(item)?;
            let name = name.strip_suffix('"').ok_or(item)?;
            let constant = |c: char| c == ' ' || c.is_ascii_lowercase();
            if name.is_empty() || !name.chars().all(constant) {
                return Err(format!("a name that is not in small letters: {item}"));
            }
            Ok(Answer {
                name: name.to_ascii_uppercase().replace(' ', "_"),
                number,
            })
        })
        .collect()
}

/// The cases of Rust's enum of verdicts, their words in capitals.
pub fn of_rust_verdicts(text: &str) -> Result<Vec<Answer>, String> {
    let text = without_comments(text);
    let block = between(&text, "pub enum Verdict {", "}").ok_or("no enum Verdict")?;
    listed(block, |name| Some(in_capitals(name)))
}

/// The cases of Rust's enum of errors, by the numbers that it gives them; the case
/// for a number of no answer is left out.
pub fn of_rust_errors(text: &str) -> Result<Vec<Answer>, String> {
    let text = without_comments(text);
    let errors = text.split_once("impl Error {").ok_or("no impl Error")?.1;
    let block = between(errors, "match self {", "}").ok_or("no numbers of errors")?;
    let known = block.replace("Error::Unknown(number) => number,", "");
    listed(&known.replace("=>", "="), |name| {
        name.strip_prefix("Error::").map(in_capitals)
    })
}

/// `TooOld` as `TOO_OLD`.
fn in_capitals(name: &str) -> String {
    let mut words = String::new();
    for letter in name.chars() {
        if letter.is_ascii_uppercase() && !words.is_empty() {
            words.push('_');
        }
        words.push(letter.to_ascii_uppercase());
    }
    words
}

/// A list of `NAME = NUMBER` with commas.
fn listed(block: &str, named: impl Fn(&str) -> Option<String>) -> Result<Vec<Answer>, String> {
    let items = block.split(',').filter(|item| !item.trim().is_empty());
    items
        .map(|item| {
            let (name, number) = item.split_once('=').ok_or(item)?;
            answer(&named(name.trim()).ok_or(item)?, number.trim())
        })
        .collect()
}

fn answer(name: &str, number: &str) -> Result<Answer, String> {
    Ok(Answer {
        name: name.trim().to_string(),
        number: number.parse().map_err(|_| format!("{name}: {number}"))?,
    })
}

/// Where two lists of answers differ, a line each.
pub fn compare_answers(ours: &str, one: &[Answer], theirs: &str, other: &[Answer]) -> Vec<String> {
    let mut found = Vec::new();
    for (list, from, rest, to) in [(one, ours, other, theirs), (other, theirs, one, ours)] {
        for answer in list.iter().filter(|&answer| !rest.contains(answer)) {
            let Answer { name, number } = answer;
            found.push(format!("{name} = {number}: in {from}, not in {to}"));
        }
    }
    found
}
