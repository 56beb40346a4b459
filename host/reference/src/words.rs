//! An input in hex and in words, with the verdicts, for people to read.

use crate::log::parts;
use crate::program::{split_up_to, MOST_N};
use crate::reason::{self, Explained};
use crate::record::{Kind, Record};
use crate::state::Verdict;

/// The most bytes that are printed whole: those of the longest record of version 1.
const WHOLE_BYTES: usize = 905;
/// The most points, and the most scans, that are printed whole.
const WHOLE_LIST: usize = 72;
/// How many of more are printed: so many first ones, and so many last ones.
const FRONT: usize = 24;
const BACK: usize = 8;

/// Bytes as pairs of hex digits with single spaces.
pub fn hex(bytes: &[u8]) -> String {
    hex_pairs(bytes).join(" ")
}

/// Bytes as pairs of hex digits.
fn hex_pairs(bytes: &[u8]) -> Vec<String> {
    bytes.iter().map(|byte| format!("{byte:02X}")).collect()
}

/// The same for people to read: of more bytes than the longest record of version 1
/// has, the first and the last ones.
fn hex_shortened(bytes: &[u8]) -> String {
    shortened(hex_pairs(bytes), WHOLE_BYTES, " ")
}

/// Words with something between them; of more than so many, the first and the last
/// ones and how many are left out.
fn shortened(words: Vec<String>, most: usize, between: &str) -> String {
    if words.len() <= most {
        return words.join(between);
    }
    let (front, rest) = words.split_at(FRONT);
    let (left_out, back) = rest.split_at(rest.len() - BACK);
    let left_out = format!("... {} more ...", left_out.len());
    [front, &[left_out], back].concat().join(between)
}

/// A record as in the rows of R44, or why the bytes are none.
pub fn record_words(bytes: &[u8]) -> String {
    let record = match Record::parse(bytes) {
        Ok(record) => record,
        Err(flaw) => return format!("not a record: {flaw}"),
    };
    let points = record.points.iter().map(|point| match point.kind {
        Kind::Read => format!("read {}", point.key),
        Kind::Put(payload) => format!("put {} = {payload}", point.key),
        Kind::Delete => format!("delete {}", point.key),
    });
    let scans = record.scans.iter();
    let scans = scans.map(|scan| format!("scan {} to {}", scan.low, scan.high));
    let mut words = vec![format!("s {}", record.snapshot)];
    for list in [points.collect::<Vec<_>>(), scans.collect()] {
        if !list.is_empty() {
            words.push(shortened(list, WHOLE_LIST, ", "));
        }
    }
    if words.len() == 1 {
        words.push("nothing".to_string());
    }
    words.join(", ")
}

/// Answer, looks and the reason, where there is one.
fn explained_words(explained: &Explained) -> String {
    let Verdict { answer, looks } = explained.verdict;
    let said = format!("{} {}, looks {looks}", answer.number(), answer.name());
    match explained.reason.words() {
        None => said,
        Some(reason) => format!("{said}: {reason}"),
    }
}

/// A whole input: limits, each record with its verdict and the reason, and what is at
/// the end. Long records are shortened.
pub fn input_words(input: &[u8]) -> String {
    input_words_up_to(MOST_N, input)
}

/// The same for N up to `most`.
pub fn input_words_up_to(most: u32, input: &[u8]) -> String {
    let (Ok((limits, log)), Ok(run)) = (split_up_to(most, input), reason::run(input)) else {
        return format!("bad limits\n    {}\n", hex(input));
    };
    let mut text = format!(
        "N = {}, Z = {}\n    {}\n",
        limits.n(),
        limits.z(),
        hex(&input[..8])
    );
    let (parts, rest) = parts(log);
    for (index, (part, explained)) in parts.iter().zip(&run.verdicts).enumerate() {
        text += &format!("{}: {}", index + 1, record_words(part));
        text += &format!(" -> {}\n", explained_words(explained));
        text += &format!("    {}\n", hex_shortened(part));
    }
    text += &match run.ending.answer() {
        None => "end\n".to_string(),
        Some(answer) => format!(
            "then {} {}\n    {}\n",
            answer.number(),
            answer.name(),
            hex_shortened(rest)
        ),
    };
    text
}
