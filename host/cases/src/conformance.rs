//! The files of `conformance/`: an input, the expected lines and the reasons for each
//! idea, for those of the page form the sizes of the parts instead of reasons; an index,
//! and all logs in hex and in words.

use std::ops::RangeFrom;

use reference::pages::{self, sizes_text};
use reference::program::lines;
use reference::reason;
use reference::words::input_words;

use crate::{ideas, Case, InParts};

/// The ideas with their numbers: those of the program, those in parts, and those for
/// which the reasons matter.
struct Set {
    whole: Vec<(usize, Case)>,
    in_parts: Vec<(usize, InParts)>,
    reasons: Vec<(usize, Case)>,
}

impl Set {
    /// All of them. A number never changes: what is new stands behind all that was there,
    /// whichever of the three it belongs to.
    fn new() -> Set {
        let mut next = 0..;
        let mut set = Set {
            whole: numbered(&mut next, ideas::first()),
            in_parts: numbered(&mut next, ideas::parts::first()),
            reasons: numbered(&mut next, ideas::reason::first()),
        };
        let endings = numbered(&mut next, ideas::log::endings());
        set.whole.extend(endings);
        let endings = numbered(&mut next, ideas::parts::torn_or_impossible());
        set.in_parts.extend(endings);
        let larger = numbered(&mut next, ideas::larger::all());
        set.whole.extend(larger);
        let larger = numbered(&mut next, ideas::parts::larger());
        set.in_parts.extend(larger);
        let larger = numbered(&mut next, ideas::reason::larger());
        set.reasons.extend(larger);
        let nothing = numbered(&mut next, ideas::nothing::all());
        set.whole.extend(nothing);
        let nothing = numbered(&mut next, ideas::reason::of_nothing());
        set.reasons.extend(nothing);
        let joined = numbered(&mut next, ideas::joined::all());
        set.whole.extend(joined);
        set
    }
}

/// Ideas with the next numbers.
fn numbered<T>(next: &mut RangeFrom<usize>, ideas: Vec<T>) -> Vec<(usize, T)> {
    let with_number = ideas.into_iter().zip(next);
    with_number.map(|(idea, number)| (number, idea)).collect()
}

/// The files by name, in a fixed order.
pub fn files() -> Vec<(String, Vec<u8>)> {
    let set = Set::new();
    let mut files = Vec::new();
    for (index, case) in set.whole.iter().chain(&set.reasons) {
        let name = file_name(*index, case);
        let reasons = reason::lines(&case.input);
        files.push((format!("{name}.input"), case.input.clone()));
        files.push((format!("{name}.expected"), lines(&case.input).into_bytes()));
        files.push((format!("{name}.reasons"), reasons.into_bytes()));
    }
    for (index, InParts { case, sizes }) in &set.in_parts {
        let name = file_name(*index, case);
        let expected = pages::lines(&case.input, sizes);
        files.push((format!("{name}.input"), case.input.clone()));
        files.push((format!("{name}.parts"), sizes_text(sizes).into_bytes()));
        files.push((format!("{name}.expected"), expected.into_bytes()));
    }
    let pages = [
        ("README.md", index_page(&set)),
        ("WORDS.md", words_page(&set)),
    ];
    files.extend(pages.map(|(name, page)| (name.to_string(), page.into_bytes())));
    files
}

/// The name of a case's files without the ending.
pub fn file_name(index: usize, case: &Case) -> String {
    format!("{:02}-{}", index + 1, case.name)
}

/// The index: what each file catches.
fn index_page(set: &Set) -> String {
    let mut page = String::from(
        "# Conformance\n\n\
         Each pair of files has one idea: `NAME.input` is what the program reads (N and Z, four\n\
         bytes each, big-endian, then a log), `NAME.expected` the lines it has to print. The rules\n\
         are in [docs/RULES.md](../docs/RULES.md); its last table says which files try which rule.\n\
         [How to check your port](CHECK.md) says how to use the files, `check PROGRAM` does it.\n\
         [WORDS.md](WORDS.md) has every input in hex and in words.\n\n\
         `NAME.reasons` has nine numbers for each record, with the reason of its answer (R50):\n\
         `check --reasons PROGRAM`.\n\n\
         Where there is a `NAME.parts` instead, it has the sizes of the parts that the log is fed\n\
         in (R47), and `NAME.expected` a line for each call: `check --parts PROGRAM`.\n\n\
         Written by hand: `CHECK.md`, `check` and `.gitattributes`. All others, that is each\n\
         `.input`, `.parts`, `.expected` and `.reasons`, `WORDS.md` and this page, are made by\n\
         `cases conformance ../conformance` in `host/` (see `docs/HOST.md`); change them there.\n\n",
    );
    let whole = set.whole.iter().map(|(index, case)| (*index, case));
    let in_parts = set.in_parts.iter();
    let in_parts = in_parts.map(|(index, InParts { case, .. })| (*index, case));
    let reasons = set.reasons.iter().map(|(index, case)| (*index, case));
    page += &index_table(whole);
    page += "\nIn parts:\n\n";
    page += &index_table(in_parts);
    page += "\nWith reasons that matter:\n\n";
    page += &index_table(reasons);
    page
}

/// A table of files and what each catches.
fn index_table<'a>(cases: impl Iterator<Item = (usize, &'a Case)>) -> String {
    let row = |(index, case): (usize, &Case)| {
        format!("| {} | {} |\n", file_name(index, case), case.catches)
    };
    let rows: String = cases.map(row).collect();
    format!("| file | catches |\n|---|---|\n{rows}")
}

/// Every input in hex and in words, with the answers.
fn words_page(set: &Set) -> String {
    let mut page = String::from(
        "# The inputs in words\n\n\
         Each record in words, with the answer, the looks and the reason it is to get, and its bytes below.\n\
         For a log in parts also the sizes of the parts, and what each call says, with its looks, the bytes\n\
         it takes and the bytes that are carried then.\n",
    );
    for (index, case) in &set.whole {
        page += &words_of(&file_name(*index, case), case);
    }
    for (index, InParts { case, sizes }) in &set.in_parts {
        page += &words_of(&file_name(*index, case), case);
        let sizes_line = match sizes_text(sizes) {
            none if none.is_empty() => "none, the log is one part\n".to_string(),
            some => some,
        };
        let calls = pages::lines(&case.input, sizes);
        page += &format!("\nSizes: {sizes_line}\n```\n{calls}```\n");
    }
    for (index, case) in &set.reasons {
        page += &words_of(&file_name(*index, case), case);
    }
    page
}

/// One input in words.
fn words_of(name: &str, case: &Case) -> String {
    let words = input_words(&case.input);
    format!("\n## {name}\n\n{}\n\n```\n{words}```\n", case.catches)
}
