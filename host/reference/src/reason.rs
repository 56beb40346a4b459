//! The reason of an answer (R50), and the program that tells it of every record of a
//! log: R46's, with the nine numbers of R52 in a line.

use crate::answer::Answer;
use crate::program::{run_by, text, text_unread, Run, FULL_N};
use crate::record::Record;
use crate::state::{State, Verdict};

/// What of a record touches a key, by its number in the record, from 1 on.
#[derive(Clone, Copy, Debug, PartialEq, Eq)]
pub enum Touch {
    /// The point with that key.
    Point(usize),
    /// No point has it; this scan covers it.
    Scan(usize),
}

/// Why a record gets its answer.
#[derive(Clone, Copy, Debug, PartialEq, Eq)]
pub enum Reason {
    /// The answer says it all.
    Nothing,
    /// 1: the smallest key in conflict.
    Conflict {
        /// The key.
        key: u32,
        /// The position of its last write.
        position: u32,
        /// What touches it.
        touch: Touch,
    },
    /// 2: how many positions back the snapshot lies.
    TooOld {
        /// p - s.
        lag: u32,
    },
    /// 3: how many keys would have to find room.
    NoRoom {
        /// The count of R26.
        keys: u32,
    },
}

/// What melding would say, and why.
#[derive(Clone, Copy, Debug, PartialEq, Eq)]
pub struct Explained {
    /// The answer and the looks.
    pub verdict: Verdict,
    /// The reason.
    pub reason: Reason,
}

/// R50: what melding these bytes would say now, and why. The state is only read.
pub fn explain(state: &State, bytes: &[u8]) -> Explained {
    let verdict = state.verdict(bytes);
    let reason = match Record::parse(bytes) {
        Ok(record) => reason(state, &record, verdict.answer),
        Err(_) => Reason::Nothing,
    };
    Explained { verdict, reason }
}

/// The reason of this answer to a record.
fn reason(state: &State, record: &Record, answer: Answer) -> Reason {
    match answer {
        Answer::Conflict => blame(state, record).expect("R25 names a write"),
        Answer::TooOld => Reason::TooOld {
            lag: state.position() - record.snapshot,
        },
        Answer::NoRoom => Reason::NoRoom {
            keys: state.needed(record) as u32,
        },
        _ => Reason::Nothing,
    }
}

/// The smallest key that a committed record wrote since the snapshot and this one
/// names or scans, with its last write; none if there is no such key.
fn blame(state: &State, record: &Record) -> Option<Reason> {
    let key = state.in_conflict(record).map(|write| write.key).min()?;
    let mut writes = state.in_conflict(record).filter(|write| write.key == key);
    Some(Reason::Conflict {
        key,
        position: writes.next()?.position,
        touch: touch(record, key)?,
    })
}

/// The point with this key; where there is none, the scan that covers it.
fn touch(record: &Record, key: u32) -> Option<Touch> {
    let number = |index: usize| index + 1;
    let point = record.points.iter().position(|point| point.key == key);
    let covers = |scan: &crate::Scan| scan.low <= key && key <= scan.high;
    let scan = record.scans.iter().position(covers);
    let scan = scan.map(|index| Touch::Scan(number(index)));
    point.map(|index| Touch::Point(number(index))).or(scan)
}

/// Explains every record of the input's log and melds it, for N up to 65,536.
pub fn run(input: &[u8]) -> Result<Run<Explained>, Answer> {
    let explained = |state: &mut State, part: &[u8]| {
        let explained = explain(state, part);
        state.meld(part);
        explained
    };
    run_by(explained, FULL_N, input)
}

/// Everything the program prints for an input.
pub fn lines(input: &[u8]) -> String {
    text(&run(input), line)
}

/// The same where the input can be read so far and no further.
pub fn lines_unread(input: &[u8]) -> String {
    text_unread(&run(input), input, line)
}

/// R52's line for the record at a position: position, answer, looks and the six
/// numbers of the reason.
pub fn line(position: usize, explained: &Explained) -> String {
    let Verdict { answer, looks } = explained.verdict;
    let [key, written, point, scan, lag, keys] = explained.reason.numbers();
    let answer = answer.number();
    format!("{position} {answer} {looks} {key} {written} {point} {scan} {lag} {keys}\n")
}

impl Reason {
    /// Key, written, point, scan, lag, keys (R52); what is not told is 0.
    pub fn numbers(&self) -> [u64; 6] {
        match *self {
            Reason::Nothing => [0; 6],
            Reason::Conflict {
                key,
                position,
                touch,
            } => {
                let (point, scan) = match touch {
                    Touch::Point(number) => (number as u64, 0),
                    Touch::Scan(number) => (0, number as u64),
                };
                [key.into(), position.into(), point, scan, 0, 0]
            }
            Reason::TooOld { lag } => [0, 0, 0, 0, lag.into(), 0],
            Reason::NoRoom { keys } => [0, 0, 0, 0, 0, keys.into()],
        }
    }

    /// The reason in words; none where there is no reason.
    pub fn words(&self) -> Option<String> {
        match *self {
            Reason::Nothing => None,
            Reason::Conflict {
                key,
                position,
                touch,
            } => {
                let touch = match touch {
                    Touch::Point(number) => format!("point {number}"),
                    Touch::Scan(number) => format!("scan {number}"),
                };
                Some(format!("key {key}, written at {position}, {touch}"))
            }
            Reason::TooOld { lag } => Some(format!("lag {lag}")),
            Reason::NoRoom { keys } => Some(format!("{keys} keys")),
        }
    }
}
