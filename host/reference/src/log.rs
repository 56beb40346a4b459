//! Walking a log: R13 to R15.

use crate::answer::Answer;
use crate::record::{LEAST_LENGTH, MOST_LENGTH};

/// The bytes of a length.
pub const LENGTH_BYTES: usize = 2;

/// What the log reader says at its place.
#[derive(Clone, Copy, Debug, PartialEq, Eq)]
pub enum Step<'a> {
    /// The bytes of the next record; the place has moved past them.
    Part(&'a [u8]),
    /// Exactly at the end; the place is unchanged.
    End,
    /// Answer 10, too few bytes; the place is unchanged.
    Torn,
    /// Answer 11, two bytes that are no length of a record; the place is unchanged.
    Impossible,
}

/// What stands behind the last record of a log.
#[derive(Clone, Copy, Debug, PartialEq, Eq)]
pub enum Ending {
    /// The log's end.
    End,
    /// 10: too few bytes for another record.
    Torn,
    /// 11: a length that no record has.
    Impossible,
}

impl Ending {
    /// 10 or 11; none for "end", which is no answer of R3.
    pub fn answer(self) -> Option<Answer> {
        match self {
            Ending::End => None,
            Ending::Torn => Some(Answer::TornLog),
            Ending::Impossible => Some(Answer::ImpossibleLength),
        }
    }
}

/// The length in the first two bytes, if they are there.
pub(crate) fn length_in(bytes: &[u8]) -> Option<usize> {
    let two = bytes.first_chunk::<LENGTH_BYTES>()?;
    Some(usize::from(u16::from_be_bytes(*two)))
}

/// Is it from 7 to 13,833?
pub(crate) fn can_be(length: usize) -> bool {
    (LEAST_LENGTH..=MOST_LENGTH).contains(&length)
}

/// A lent log and a place in it.
#[derive(Clone, Copy, Debug)]
pub struct LogReader<'a> {
    log: &'a [u8],
    place: usize,
}

impl<'a> LogReader<'a> {
    /// A reader at the start of the log.
    pub fn new(log: &'a [u8]) -> LogReader<'a> {
        LogReader::at(log, 0)
    }

    /// A reader at any place, also one past the end.
    pub fn at(log: &'a [u8], place: usize) -> LogReader<'a> {
        LogReader { log, place }
    }

    /// The place in the log.
    pub fn place(&self) -> usize {
        self.place
    }

    /// The first row of R14 that applies.
    pub fn step(&mut self) -> Step<'a> {
        if self.place == self.log.len() {
            return Step::End;
        }
        let Some(rest) = self.log.get(self.place..) else {
            return Step::Torn;
        };
        let Some(length) = length_in(rest) else {
            return Step::Torn;
        };
        if !can_be(length) {
            return Step::Impossible;
        }
        let Some(part) = rest.get(..length + LENGTH_BYTES) else {
            return Step::Torn;
        };
        self.place += part.len();
        Step::Part(part)
    }
}

/// The parts of a log, and the bytes from the place where the walk stops.
pub fn parts(log: &[u8]) -> (Vec<&[u8]>, &[u8]) {
    let mut reader = LogReader::new(log);
    let mut parts = Vec::new();
    while let Step::Part(part) = reader.step() {
        parts.push(part);
    }
    (parts, &log[reader.place()..])
}
