//! Refresh (R38) and the record in force (R39).

use crate::answer::Answer;
use crate::log::{LogReader, Step};
use crate::state::State;

/// The trial meld: order 4, 5, 2, 1, 8, 0. On 0 the front of `out` is the same
/// record with snapshot p; on any other answer `out` is untouched.
pub fn refresh(state: &State, bytes: &[u8], out: &mut [u8]) -> Answer {
    let mut record = match state.admit(bytes) {
        Ok(record) => record,
        Err(answer) => return answer,
    };
    if state.conflict(&record) {
        return Answer::Conflict;
    }
    if out.len() < bytes.len() {
        return Answer::OutputShort;
    }
    record.snapshot = state.position();
    out[..bytes.len()].copy_from_slice(&record.to_bytes());
    Answer::Committed
}

/// The record to meld later: the original after 5, after 0 the record at the
/// front of the refreshed buffer, else the empty part at the original's start.
pub fn in_force<'a>(answer: Answer, original: &'a [u8], refreshed: &'a [u8]) -> &'a [u8] {
    match (answer, LogReader::new(refreshed).step()) {
        (Answer::Ahead, _) => original,
        (Answer::Committed, Step::Part(part)) => part,
        _ => &original[..0],
    }
}
