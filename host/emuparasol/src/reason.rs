//! The reason of an answer (R50).

use core::fmt;

use crate::answer::{Error, Verdict};
use crate::calls;
use crate::pool::Pool;

/// What of a record touches a key, by its number in the record: the first point has
/// number 1, and so has the first scan.
#[derive(Clone, Copy, Debug, PartialEq, Eq, Hash)]
pub enum Touch {
    /// The point with that key.
    Point(usize),
    /// No point has it; this scan covers it.
    Scan(usize),
}

impl Touch {
    /// Exactly one of the two numbers of `emuparasol_explain` is above 0.
    fn of(point: u64, scan: u64) -> Result<Touch, Error> {
        let number = |number| usize::try_from(number).map_err(|_| Error::Unknown(0));
        match (point, scan) {
            (1.., 0) => number(point).map(Touch::Point),
            (0, 1..) => number(scan).map(Touch::Scan),
            _ => Err(Error::Unknown(0)),
        }
    }
}

impl fmt::Display for Touch {
    fn fmt(&self, out: &mut fmt::Formatter<'_>) -> fmt::Result {
        match self {
            Touch::Point(number) => write!(out, "point {number}"),
            Touch::Scan(number) => write!(out, "scan {number}"),
        }
    }
}

/// Why a record is refused, where its verdict does not say it all.
///
/// ```
/// use emuparasol::{Reason, Touch};
///
/// let touch = Touch::Scan(2);
/// let reason = Reason::Conflict { key: 30, position: 3, touch };
/// let words = "record 3 wrote key 30 after this record's snapshot, and scan 2 covers it";
/// assert_eq!(reason.to_string(), words);
/// ```
#[derive(Clone, Copy, Debug, PartialEq, Eq, Hash)]
pub enum Reason {
    /// [`Verdict::Conflict`]: who beat it.
    Conflict {
        /// The smallest key that the record names or scans and that was written since
        /// its snapshot.
        key: u32,
        /// The position of that key's last write: the record there wrote it.
        position: u32,
        /// What of the record names or scans the key.
        touch: Touch,
    },
    /// [`Verdict::TooOld`]: how far it lags.
    TooOld {
        /// How many positions back the snapshot lies: more than Z.
        lag: u32,
    },
    /// [`Verdict::NoRoom`]: how many keys would have to find room.
    NoRoom {
        /// How many keys would have to be kept: more than N. Those that are live, those
        /// with a tombstone that is too young to be dropped, and those that the record
        /// writes, each once; a delete of a key that is not live writes nothing.
        keys: u32,
    },
}

impl fmt::Display for Reason {
    fn fmt(&self, out: &mut fmt::Formatter<'_>) -> fmt::Result {
        match *self {
            Reason::Conflict {
                key,
                position,
                touch,
            } => {
                let does = match touch {
                    Touch::Point(_) => "names",
                    Touch::Scan(_) => "covers",
                };
                write!(
                    out,
                    "record {position} wrote key {key} after this record's "
                )?;
                write!(out, "snapshot, and {touch} {does} it")
            }
            Reason::TooOld { lag } => {
                write!(out, "its snapshot is {lag} positions back, more than Z")
            }
            Reason::NoRoom { keys } => {
                write!(out, "{keys} keys would have to be kept, more than N")
            }
        }
    }
}

/// What [`Pool::explain`] says of a record: what melding it would say now, and why.
/// It prints itself as a line for whoever asks.
#[derive(Clone, Copy, Debug, PartialEq, Eq, Hash)]
#[non_exhaustive]
pub struct Explained {
    /// The verdict that the record would get.
    pub verdict: Verdict,
    /// The looks that melding it would take.
    pub looks: u32,
    /// Why; none where the verdict says it all: committed, malformed and ahead.
    pub reason: Option<Reason>,
}

impl fmt::Display for Explained {
    fn fmt(&self, out: &mut fmt::Formatter<'_>) -> fmt::Result {
        match self.reason {
            Some(reason) => write!(out, "{}: {reason}", self.verdict),
            None => self.verdict.fmt(out),
        }
    }
}

impl<B: AsRef<[u8]>> Pool<B> {
    /// Says what melding this record would say now, and why: who beat it, how far it
    /// lags, or how many keys would have to find room. Nothing is melded, and the pool
    /// is only read. A record that has its position already is explained by the pool as
    /// it was before: meld the log up to the record before it.
    ///
    /// # Errors
    /// [`Error::UnfitPool`], or else [`Error::PositionsUsedUp`].
    ///
    /// ```
    /// use emuparasol::{pool_bytes, Error, Limits, Point, Pool, Reason, Record, Touch, Verdict};
    ///
    /// let mut pool = Pool::create([0; pool_bytes(3)], Limits { n: 3, z: 4 })?;
    /// let (mut first, mut second) = ([0; 30], [0; 30]);
    /// let points = &[Point::put(7, 100)];
    /// let first = Record { snapshot: 0, points, scans: &[] }.write(&mut first)?;
    /// let points = &[Point::read(5), Point::put(7, 200)];
    /// let second = Record { snapshot: 0, points, scans: &[] }.write(&mut second)?;
    ///
    /// pool.meld(first)?.verdict.committed()?;
    /// let explained = pool.explain(second)?;
    /// assert_eq!(explained.verdict, Verdict::Conflict);
    /// // The record at position 1 wrote key 7, which is the second point.
    /// let (key, position, touch) = (7, 1, Touch::Point(2));
    /// assert_eq!(explained.reason, Some(Reason::Conflict { key, position, touch }));
    /// let line = "conflict: record 1 wrote key 7 after this record's snapshot, and point 2 names it";
    /// assert_eq!(explained.to_string(), line);
    /// // And that is what melding it says.
    /// assert_eq!(pool.meld(second)?.verdict, explained.verdict);
    /// # Ok::<(), Error>(())
    /// ```
    pub fn explain(&self, record: &[u8]) -> Result<Explained, Error> {
        let (mut looks, mut key, mut position) = (0, 0, 0);
        let (mut point, mut scan, mut lag, mut keys) = (0, 0, 0, 0);
        let number = calls::explain(
            self.as_bytes(),
            record,
            &mut looks,
            &mut key,
            &mut position,
            &mut point,
            &mut scan,
            &mut lag,
            &mut keys,
        );
        let verdict = Verdict::from_number(number).ok_or(Error::of(number))?;
        let reason = match verdict {
            Verdict::Conflict => Some(Reason::Conflict {
                key,
                position,
                touch: Touch::of(point, scan)?,
            }),
            Verdict::TooOld => Some(Reason::TooOld { lag }),
            Verdict::NoRoom => Some(Reason::NoRoom { keys }),
            Verdict::Committed | Verdict::Malformed | Verdict::Ahead => None,
        };
        Ok(Explained {
            verdict,
            looks,
            reason,
        })
    }
}
