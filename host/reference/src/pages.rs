//! The page form of the program: limits and a log, and beside them the sizes of
//! the parts that the log is fed in (R47); a line a call.

use crate::answer::Answer;
use crate::feed::{feed, Fed, Said, CARRY_BYTES};
use crate::program::split;
use crate::state::State;

/// The sizes in a text, decimal, with any white space between; none if
/// something else stands there. A size above every log's is one past the end.
pub fn sizes_in(text: &str) -> Option<Vec<usize>> {
    let size = |word: &str| {
        let digits = word.bytes().all(|byte| byte.is_ascii_digit());
        digits.then(|| word.parse().unwrap_or(usize::MAX))
    };
    text.split_ascii_whitespace().map(size).collect()
}

/// The sizes as a text: a line of them, or nothing.
pub fn sizes_text(sizes: &[usize]) -> String {
    let words: Vec<String> = sizes.iter().map(usize::to_string).collect();
    match &words[..] {
        [] => String::new(),
        _ => words.join(" ") + "\n",
    }
}

/// The log in parts of these sizes. A size past its end takes what is left, and
/// what the sizes leave over is one part more.
pub fn cut<'a>(log: &'a [u8], sizes: &[usize]) -> Vec<&'a [u8]> {
    let mut rest = log;
    let mut parts = Vec::new();
    for &size in sizes {
        let (part, behind) = rest.split_at(size.min(rest.len()));
        parts.push(part);
        rest = behind;
    }
    if !rest.is_empty() {
        parts.push(rest);
    }
    parts
}

/// Everything that is said in a run over these parts, from a new pool of this
/// state, to the first call that says 8, 7, 10, 11 or "end". Each part is lent, and
/// then what is not yet taken of it, until nothing is left; an empty part once.
/// Behind the last part "over" is said, with an empty one.
pub fn calls(state: &mut State, parts: &[&[u8]]) -> Vec<Fed> {
    let mut carry = [0; CARRY_BYTES];
    let mut carried = 0;
    let mut calls = Vec::new();
    for part in parts {
        let mut rest = *part;
        loop {
            let fed = feed(Some(state), &mut carry, carried, rest, false);
            carried = fed.carried;
            rest = &rest[fed.taken..];
            calls.push(fed);
            if is_last(fed.said) {
                return calls;
            }
            if rest.is_empty() {
                break;
            }
        }
    }
    calls.push(feed(Some(state), &mut carry, carried, &[], true));
    calls
}

/// Is it 8, 7, 10, 11 or "end"?
fn is_last(said: Said) -> bool {
    match said {
        Said::Answer(answer) => matches!(
            answer,
            Answer::OutputShort | Answer::UnfitPool | Answer::TornLog | Answer::ImpossibleLength
        ),
        Said::More => false,
        Said::End => true,
    }
}

/// Everything the page form prints for an input and these sizes.
pub fn lines(input: &[u8], sizes: &[usize]) -> String {
    match split(input) {
        Err(answer) => format!("{}\n", answer.number()),
        Ok((limits, log)) => {
            let calls = calls(&mut State::new(limits), &cut(log, sizes));
            calls.iter().map(line).collect()
        }
    }
}

/// The line of a call.
pub fn line(fed: &Fed) -> String {
    let said = match fed.said {
        Said::Answer(answer) => answer.number().to_string(),
        Said::More => "more".to_string(),
        Said::End => "end".to_string(),
    };
    format!("{said} {} {} {}\n", fed.looks, fed.taken, fed.carried)
}
