//! The program of R41, and R46's for larger N: limits and a log in, a line a record out.

use crate::answer::Answer;
use crate::log::{Ending, LogReader, Step};
use crate::state::{Limits, State, Verdict};

/// The largest N that the program of R41 takes.
pub const MOST_N: u32 = 1_000;

/// The largest N that the program at full size takes (R46).
pub const FULL_N: u32 = 65_536;

/// A whole run over a log, with what is told of each record: its verdict, or more.
#[derive(Clone, Debug)]
pub struct Run<Told = Verdict> {
    /// The state after the last record.
    pub state: State,
    /// A verdict for each record, the first at position 1.
    pub verdicts: Vec<Told>,
    /// What stands behind the last record.
    pub ending: Ending,
}

/// The limits and the log of an input; bad limits for N or Z outside its range,
/// N above 1,000 or fewer than 8 bytes.
pub fn split(input: &[u8]) -> Result<(Limits, &[u8]), Answer> {
    split_up_to(MOST_N, input)
}

/// The same for N up to `most`.
pub fn split_up_to(most: u32, input: &[u8]) -> Result<(Limits, &[u8]), Answer> {
    let (n, rest) = input.split_first_chunk::<4>().ok_or(Answer::BadLimits)?;
    let (z, log) = rest.split_first_chunk::<4>().ok_or(Answer::BadLimits)?;
    let (n, z) = (u32::from_be_bytes(*n), u32::from_be_bytes(*z));
    if n > most {
        return Err(Answer::BadLimits);
    }
    Ok((Limits::new(n, z)?, log))
}

/// An input from limits, in range or not, and a log.
pub fn join(n: u32, z: u32, log: &[u8]) -> Vec<u8> {
    [&n.to_be_bytes()[..], &z.to_be_bytes(), log].concat()
}

/// Melds every record of the input's log.
pub fn run(input: &[u8]) -> Result<Run, Answer> {
    run_up_to(MOST_N, input)
}

/// The same for N up to `most`.
pub fn run_up_to(most: u32, input: &[u8]) -> Result<Run, Answer> {
    run_by(State::meld, most, input)
}

/// The same with what `meld` tells of each record that it melds.
pub fn run_by<Told>(
    meld: impl Fn(&mut State, &[u8]) -> Told,
    most: u32,
    input: &[u8],
) -> Result<Run<Told>, Answer> {
    let (limits, log) = split_up_to(most, input)?;
    let mut state = State::new(limits);
    let mut verdicts = Vec::new();
    let mut reader = LogReader::new(log);
    let ending = loop {
        match reader.step() {
            Step::Part(part) => verdicts.push(meld(&mut state, part)),
            Step::End => break Ending::End,
            Step::Torn => break Ending::Torn,
            Step::Impossible => break Ending::Impossible,
        }
    };
    Ok(Run {
        state,
        verdicts,
        ending,
    })
}

/// Everything the program prints for an input.
pub fn lines(input: &[u8]) -> String {
    lines_up_to(MOST_N, input)
}

/// The same for N up to `most`.
pub fn lines_up_to(most: u32, input: &[u8]) -> String {
    text(&run_up_to(most, input), line)
}

/// What the program prints where its input can be read so far and no further:
/// the lines of the records in it, and no closing line. Limits that were read and
/// are bad end it before that, and so does an impossible length, with 11.
pub fn lines_unread(most: u32, input: &[u8]) -> String {
    text_unread(&run_up_to(most, input), input, line)
}

/// A run's text: a line for each record and a closing line, or only 9.
pub fn text<Told>(
    run: &Result<Run<Told>, Answer>,
    line: impl Fn(usize, &Told) -> String,
) -> String {
    match run {
        Err(answer) => closing(Some(*answer)),
        Ok(run) => record_lines(run, line) + &closing(run.ending.answer()),
    }
}

/// The same where this input can be read so far and no further.
pub fn text_unread<Told>(
    run: &Result<Run<Told>, Answer>,
    input: &[u8],
    line: impl Fn(usize, &Told) -> String,
) -> String {
    match run {
        Err(_) if input.len() < 8 => String::new(),
        Ok(run) if run.ending != Ending::Impossible => record_lines(run, line),
        known => text(known, line),
    }
}

/// A line for each record.
fn record_lines<Told>(run: &Run<Told>, line: impl Fn(usize, &Told) -> String) -> String {
    let numbered = run.verdicts.iter().enumerate();
    numbered
        .map(|(index, told)| line(index + 1, told))
        .collect()
}

/// The line of a record at a position.
fn line(position: usize, verdict: &Verdict) -> String {
    let (answer, looks) = (verdict.answer.number(), verdict.looks);
    format!("{position} {answer} {looks}\n")
}

/// The closing line: an answer, or `end` where there is none.
fn closing(answer: Option<Answer>) -> String {
    match answer {
        None => "end\n".to_string(),
        Some(answer) => format!("{}\n", answer.number()),
    }
}
