//! The log in parts: R47, row by row, and R48.

use crate::answer::Answer;
use crate::log::{can_be, length_in, LENGTH_BYTES};
use crate::record::MOST_LENGTH;
use crate::state::State;

/// The bytes of a carry: those of the longest record.
pub const CARRY_BYTES: usize = MOST_LENGTH + LENGTH_BYTES;

/// What a call says.
#[derive(Clone, Copy, Debug, PartialEq, Eq)]
pub enum Said {
    /// An answer of R3: of a record that was decided, or 7, 8, 10 or 11.
    Answer(Answer),
    /// The record's other bytes are still to come.
    More,
    /// The log is over, behind its last record.
    End,
}

/// What a call says and leaves besides pool and carry.
#[derive(Clone, Copy, Debug, PartialEq, Eq)]
pub struct Fed {
    /// What is said.
    pub said: Said,
    /// The looks of a record that was decided, else 0.
    pub looks: u32,
    /// How many bytes of the part were taken.
    pub taken: usize,
    /// How many bytes are carried now.
    pub carried: usize,
}

/// R48: may so many bytes at the carry's front be carried?
pub fn may_be_carried(carry: &[u8], carried: usize) -> bool {
    let Some(front) = carry.get(..carried) else {
        return false;
    };
    match length_in(front) {
        None => true,
        Some(length) if can_be(length) => carried < length + LENGTH_BYTES,
        Some(_) => carried == LENGTH_BYTES,
    }
}

/// R47: the first row that applies. The state is that of the pool, none for an
/// unfit one.
pub fn feed(
    state: Option<&mut State>,
    carry: &mut [u8],
    carried: usize,
    part: &[u8],
    over: bool,
) -> Fed {
    let refusal = |answer| Fed {
        said: Said::Answer(answer),
        looks: 0,
        taken: 0,
        carried,
    };
    if carry.len() != CARRY_BYTES || !may_be_carried(carry, carried) {
        return refusal(Answer::OutputShort);
    }
    let front = &carry[..carried];
    if length_in(front).is_some_and(|length| !can_be(length)) {
        return refusal(Answer::ImpossibleLength);
    }
    let inside = carried + part.len();
    let both = front.iter().chain(part).take(LENGTH_BYTES).copied();
    let both: Vec<u8> = both.collect();
    let length = length_in(&both);
    if length.is_some_and(|length| !can_be(length)) {
        carry[..LENGTH_BYTES].copy_from_slice(&both);
        return Fed {
            taken: LENGTH_BYTES - carried,
            carried: LENGTH_BYTES,
            ..refusal(Answer::ImpossibleLength)
        };
    }
    let size = length.map(|length| length + LENGTH_BYTES);
    if let Some(size) = size.filter(|&size| size <= inside) {
        let Some(state) = state else {
            return refusal(Answer::UnfitPool);
        };
        let taken = size - carried;
        let record = [front, &part[..taken]].concat();
        let verdict = state.meld(&record);
        if carried > 0 {
            carry[..size].copy_from_slice(&record);
        }
        return Fed {
            said: Said::Answer(verdict.answer),
            looks: verdict.looks,
            taken,
            carried: 0,
        };
    }
    if !over {
        carry[carried..inside].copy_from_slice(part);
        return Fed {
            said: Said::More,
            looks: 0,
            taken: part.len(),
            carried: inside,
        };
    }
    if inside == 0 {
        return Fed {
            said: Said::End,
            looks: 0,
            taken: 0,
            carried: 0,
        };
    }
    refusal(Answer::TornLog)
}
