//! Walking over the records of a log (R13 to R15).

use core::fmt;
use core::iter::FusedIterator;

use crate::answer::Error;
use crate::calls;

/// The records of a log, one after the other, each as its bytes.
///
/// It ends where the log ends. Where the log does not go on with a whole record it
/// gives one [`NoRecord`] that says the place and why, a torn log or an impossible
/// length, and then ends. A record that is given need not be well formed: it takes its
/// position all the same, and [`Pool::meld`](crate::Pool::meld) says so.
///
/// ```
/// use emuparasol::{Error, Records};
///
/// // A record of 9 bytes, and the first four of another.
/// let mut log = [0, 7, 1, 0, 0, 0, 0, 0, 0, 0, 7, 1, 0];
/// let mut records = Records::new(&log);
/// assert_eq!(records.next(), Some(Ok(&log[..9])));
/// let stopped = records.next().and_then(Result::err).ok_or("a whole log")?;
/// assert_eq!((stopped.place, stopped.why), (9, Error::TornLog));
/// assert_eq!(stopped.to_string(), "torn log at byte 9");
/// assert_eq!(records.next(), None);
///
/// // The same, and the flash has lost the second length.
/// (log[9], log[10]) = (0xFF, 0xFF);
/// let stopped = Records::at(&log, 9).next().and_then(Result::err).ok_or("a whole log")?;
/// assert_eq!((stopped.place, stopped.why), (9, Error::ImpossibleLength));
/// assert_eq!(stopped.to_string(), "impossible length at byte 9");
/// # Ok::<(), &str>(())
/// ```
#[derive(Clone, Debug)]
#[must_use = "an iterator does nothing until it is asked"]
pub struct Records<'a> {
    log: &'a [u8],
    place: usize,
    /// Was it told that no record stands there?
    told: bool,
}

impl<'a> Records<'a> {
    /// The records of a log, from its first byte on.
    pub const fn new(log: &'a [u8]) -> Records<'a> {
        Records::at(log, 0)
    }

    /// The records from a place on, where an earlier walk has come to. At a place past
    /// the end the log is torn.
    pub const fn at(log: &'a [u8], place: usize) -> Records<'a> {
        let told = false;
        Records { log, place, told }
    }

    /// The place behind the last record given: where the next one begins, where the
    /// log ends, or where no record stands.
    pub const fn place(&self) -> usize {
        self.place
    }
}

impl<'a> Iterator for Records<'a> {
    type Item = Result<&'a [u8], NoRecord>;

    fn next(&mut self) -> Option<Self::Item> {
        if self.told {
            return None;
        }
        let place = self.place;
        let mut next = 0;
        let answer = calls::cut(self.log, place as u64, &mut next);
        let next = usize::try_from(next).ok();
        let part = next.and_then(|next| self.log.get(place..next));
        match (answer, part) {
            (0, Some([])) => None,
            (0, Some(record)) => {
                self.place = place.saturating_add(record.len());
                Some(Ok(record))
            }
            (answer, _) => {
                self.told = true;
                let why = Error::of(answer);
                Some(Err(NoRecord { place, why }))
            }
        }
    }
}

impl FusedIterator for Records<'_> {}

/// Answer 10 or 11: the log does not end at this place, and no whole record stands there.
#[derive(Clone, Copy, Debug, PartialEq, Eq, Hash)]
#[non_exhaustive]
pub struct NoRecord {
    /// Where the record should begin; the first byte of a log has place 0.
    pub place: usize,
    /// [`Error::TornLog`] if there are too few bytes: the record is not all there yet, or
    /// its append was cut short. [`Error::ImpossibleLength`] if no record can stand there,
    /// whatever is appended: its two first bytes are no length.
    pub why: Error,
}

impl fmt::Display for NoRecord {
    fn fmt(&self, out: &mut fmt::Formatter<'_>) -> fmt::Result {
        write!(out, "{} at byte {}", self.why, self.place)
    }
}

impl core::error::Error for NoRecord {}

impl From<NoRecord> for Error {
    fn from(stopped: NoRecord) -> Error {
        stopped.why
    }
}
