//! Records: points, scans, and the bytes of R4.

use core::fmt;

use crate::answer::{done, front, Error};
use crate::calls;

/// The bytes of the shortest record.
pub const LEAST_RECORD: usize = 9;
/// The bytes of the longest record.
pub const MOST_RECORD: usize = 13_835;
/// The most points that a record can have.
pub const MOST_POINTS: usize = 1_024;
/// The most scans that a record can have.
pub const MOST_SCANS: usize = 64;

/// The most points and scans of a record of version 1 (R53). The library decides the
/// version; here these say only how much room a call is lent.
const FEW_POINTS: usize = 64;
const FEW_SCANS: usize = 8;

/// A key, and what a record does with it (R5).
#[derive(Clone, Copy, Debug, PartialEq, Eq, Hash)]
pub enum Point {
    /// The key was looked at, whether or not anything was found under it.
    Read {
        /// The key.
        key: u32,
    },
    /// The payload is put under the key.
    Put {
        /// The key.
        key: u32,
        /// What is put.
        payload: u64,
    },
    /// The key is deleted, if it is live then. Where nothing is under it, because it was
    /// never put or is deleted already, this writes nothing (R22): it beats no other
    /// record and needs no room. The record names the key all the same, and is itself
    /// beaten by who wrote it.
    Delete {
        /// The key.
        key: u32,
    },
}

impl Point {
    /// A read of this key.
    pub const fn read(key: u32) -> Point {
        Point::Read { key }
    }

    /// A put of this payload under this key.
    pub const fn put(key: u32, payload: u64) -> Point {
        Point::Put { key, payload }
    }

    /// A delete of this key.
    pub const fn delete(key: u32) -> Point {
        Point::Delete { key }
    }

    /// Its key.
    pub const fn key(self) -> u32 {
        match self {
            Point::Read { key } | Point::Put { key, .. } | Point::Delete { key } => key,
        }
    }

    /// What it puts; none if it is a read or a delete.
    pub const fn payload(self) -> Option<u64> {
        match self {
            Point::Put { payload, .. } => Some(payload),
            Point::Read { .. } | Point::Delete { .. } => None,
        }
    }

    /// Kind, key and payload, as the lists of R10 have them.
    const fn listed(self) -> (u8, u32, u64) {
        match self {
            Point::Read { key } => (1, key, 0),
            Point::Put { key, payload } => (2, key, payload),
            Point::Delete { key } => (3, key, 0),
        }
    }

    /// The point that the lists have; none if there is no such kind.
    const fn of_lists(kind: u8, key: u32, payload: u64) -> Option<Point> {
        match kind {
            1 => Some(Point::Read { key }),
            2 => Some(Point::Put { key, payload }),
            3 => Some(Point::Delete { key }),
            _ => None,
        }
    }
}

/// A range of keys that a record has looked through, both ends included.
#[derive(Clone, Copy, Debug, PartialEq, Eq, Hash)]
pub struct Scan {
    /// The least key of the range.
    pub low: u32,
    /// The largest key of the range, at least `low`.
    pub high: u32,
}

/// A record: what one transaction has read and writes, and up to where it had seen
/// the log.
///
/// The keys of the points rise, and so do the scans, without a key in common; a
/// record that breaks this, or has more than [`MOST_POINTS`] points or [`MOST_SCANS`]
/// scans, is malformed. A list that was gathered in another order is put in order by
/// `points.sort_unstable_by_key(|point| point.key())`.
///
/// With at most 64 points and 8 scans its bytes have version 1, and there are 905 of them
/// at most; with more of either they have version 2 (R53). Every card on a log has to
/// know version 2 before the first such record is written: docs/FIRMWARE.md, "Moving to
/// version 2".
///
/// ```
/// use emuparasol::{Error, Point, Record, RecordBuffer, Scan, MOST_RECORD};
///
/// let record = Record {
///     snapshot: 1,
///     points: &[Point::read(10), Point::put(30, 300), Point::delete(40)],
///     scans: &[Scan { low: 11, high: 19 }],
/// };
/// let mut output = [0; MOST_RECORD];
/// let bytes = record.write(&mut output)?;
/// assert_eq!(bytes.len(), 9 + 5 + 13 + 5 + 8);
///
/// let mut buffer = RecordBuffer::new();
/// assert_eq!(buffer.read(bytes)?, record);
/// # Ok::<(), Error>(())
/// ```
#[derive(Clone, Copy, Debug, Default, PartialEq, Eq, Hash)]
pub struct Record<'a> {
    /// The position up to which the transaction had seen the log.
    pub snapshot: u32,
    /// At most 1,024, by rising key.
    pub points: &'a [Point],
    /// At most 64, rising, without a key in common.
    pub scans: &'a [Scan],
}

impl Record<'_> {
    /// Writes the record's bytes to the front of the output and gives them; the rest
    /// of the output is as it was. [`MOST_RECORD`] bytes are always enough, and 905 for a
    /// record of at most 64 points and 8 scans.
    ///
    /// The points and scans are copied to lists on the stack: 896 bytes for such a
    /// record, 13,824 for a larger one.
    ///
    /// # Errors
    /// [`Error::Malformed`] if the points or scans break a rule; else
    /// [`Error::OutputShort`] if the output is shorter than the record. The output
    /// is then as it was.
    ///
    /// ```
    /// use emuparasol::{Error, Point, Record};
    ///
    /// let twice = [Point::read(7), Point::put(7, 1)];
    /// let record = Record { points: &twice, ..Record::default() };
    /// assert_eq!(record.write(&mut [0; 100]), Err(Error::Malformed));
    ///
    /// let record = Record { points: &twice[..1], ..Record::default() };
    /// assert_eq!(record.write(&mut [0; 13]), Err(Error::OutputShort));
    /// assert_eq!(record.write(&mut [0; 14])?.len(), 14);
    /// # Ok::<(), Error>(())
    /// ```
    pub fn write<'o>(&self, output: &'o mut [u8]) -> Result<&'o [u8], Error> {
        if self.points.len() <= FEW_POINTS && self.scans.len() <= FEW_SCANS {
            self.write_by::<FEW_POINTS, FEW_SCANS>(output)
        } else {
            self.write_by::<MOST_POINTS, MOST_SCANS>(output)
        }
    }

    /// Writes the record by lists of this length. A function of its own for each length,
    /// so that a small record takes no more of the stack than it needs.
    #[inline(never)]
    fn write_by<'o, const POINTS: usize, const SCANS: usize>(
        &self,
        output: &'o mut [u8],
    ) -> Result<&'o [u8], Error> {
        let mut lists = Lists::<POINTS, SCANS>::EMPTY;
        let lent = lists.lent(self.points.len(), self.scans.len());
        // More than the lists have room for is more than a record can have.
        let lent = lent.ok_or(Error::Malformed)?;
        let places = lent.kinds.iter_mut().zip(lent.keys.iter_mut());
        let places = places.zip(lent.payloads.iter_mut());
        for (((kind, key), payload), point) in places.zip(self.points) {
            (*kind, *key, *payload) = point.listed();
        }
        let places = lent.lows.iter_mut().zip(lent.highs.iter_mut());
        for ((low, high), scan) in places.zip(self.scans) {
            (*low, *high) = (scan.low, scan.high);
        }
        let mut size = 0;
        done(calls::write(
            self.snapshot,
            lent.kinds,
            lent.keys,
            lent.payloads,
            lent.lows,
            lent.highs,
            output,
            &mut size,
        ))?;
        front(output, size)
    }
}

/// Room for one record that is read, without a heap: by default for any, which is 1,024
/// points and 64 scans.
///
/// ```
/// use emuparasol::{Error, RecordBuffer};
///
/// let mut buffer = RecordBuffer::new();
/// let bytes = [0, 12, 1, 0, 0, 0, 1, 1, 0, 1, 0, 0, 0, 30];
/// let record = buffer.read(&bytes)?;
/// assert_eq!(record.snapshot, 1);
/// assert_eq!(record.points.iter().map(|point| point.key()).next(), Some(30));
/// assert_eq!(buffer.read(&bytes[1..]), Err(Error::Malformed));
/// # Ok::<(), Error>(())
/// ```
///
/// That is 17 KB: make it once, in a `static` for instance, and read one record after the
/// other into it. A card that meets only small records takes a smaller one:
///
/// ```
/// use emuparasol::{Error, Point, Record, RecordBuffer};
///
/// // Any record of version 1, in some 1,100 bytes.
/// let mut small = RecordBuffer::<64, 8>::with_room();
/// let points: Vec<Point> = (0..65).map(Point::read).collect();
/// let mut output = [0; 400];
/// let record = Record { snapshot: 0, points: &points[..64], scans: &[] };
/// assert_eq!(small.read(record.write(&mut output)?), Ok(record));
/// let record = Record { points: &points, ..record };
/// assert_eq!(small.read(record.write(&mut output)?), Err(Error::OutputShort));
/// # Ok::<(), Error>(())
/// ```
#[derive(Clone)]
pub struct RecordBuffer<const POINTS: usize = MOST_POINTS, const SCANS: usize = MOST_SCANS> {
    snapshot: u32,
    points: [Point; POINTS],
    point_count: u64,
    scans: [Scan; SCANS],
    scan_count: u64,
}

impl RecordBuffer {
    /// A buffer for any record; it holds the empty one with snapshot 0. It is `const`,
    /// for a `static`.
    pub const fn new() -> RecordBuffer {
        RecordBuffer::with_room()
    }
}

impl<const POINTS: usize, const SCANS: usize> RecordBuffer<POINTS, SCANS> {
    /// A buffer for so many points and scans; it holds the empty record with snapshot 0.
    pub const fn with_room() -> RecordBuffer<POINTS, SCANS> {
        RecordBuffer {
            snapshot: 0,
            points: [Point::read(0); POINTS],
            point_count: 0,
            scans: [Scan { low: 0, high: 0 }; SCANS],
            scan_count: 0,
        }
    }

    /// Takes the bytes of a record apart and gives what they say.
    ///
    /// The library fills lists on the stack, and they are copied here: 896 bytes for a
    /// record of version 1, up to 13,824 for one of version 2.
    ///
    /// # Errors
    /// [`Error::Malformed`] if the bytes are no well-formed record; else
    /// [`Error::OutputShort`] if it has more points or scans than the buffer has room
    /// for. The buffer then holds what it held.
    pub fn read(&mut self, record: &[u8]) -> Result<Record<'_>, Error> {
        // Only a record whose version is 2 can need more than the short lists (R53); what
        // lies about its version is malformed, whatever is lent.
        match record.get(2) {
            Some(2) => self.read_by::<POINTS, SCANS>(record),
            _ => self.read_by::<FEW_POINTS, FEW_SCANS>(record),
        }
    }

    /// Reads a record by lists of this length. A function of its own for each length, so
    /// that a small record takes no more of the stack than it needs.
    #[inline(never)]
    fn read_by<const LISTED: usize, const RANGES: usize>(
        &mut self,
        record: &[u8],
    ) -> Result<Record<'_>, Error> {
        let mut lists = Lists::<LISTED, RANGES>::EMPTY;
        let (mut snapshot, mut point_count, mut scan_count) = (0, 0, 0);
        done(calls::read(
            record,
            &mut lists.kinds,
            &mut lists.keys,
            &mut lists.payloads,
            &mut lists.lows,
            &mut lists.highs,
            &mut snapshot,
            &mut point_count,
            &mut scan_count,
        ))?;
        let kinds = front(&lists.kinds, point_count)?;
        let lows = front(&lists.lows, scan_count)?;
        if kinds.len() > POINTS || lows.len() > SCANS {
            return Err(Error::OutputShort);
        }
        (self.point_count, self.scan_count) = (0, 0);
        let listed = kinds.iter().zip(&lists.keys).zip(&lists.payloads);
        for (point, ((&kind, &key), &payload)) in self.points.iter_mut().zip(listed) {
            *point = Point::of_lists(kind, key, payload).ok_or(Error::Unknown(0))?;
        }
        let listed = lows.iter().zip(&lists.highs);
        for (scan, (&low, &high)) in self.scans.iter_mut().zip(listed) {
            *scan = Scan { low, high };
        }
        self.snapshot = snapshot;
        self.point_count = point_count;
        self.scan_count = scan_count;
        Ok(self.record())
    }

    /// What was read last.
    pub fn record(&self) -> Record<'_> {
        Record {
            snapshot: self.snapshot,
            points: front(&self.points, self.point_count).unwrap_or_default(),
            scans: front(&self.scans, self.scan_count).unwrap_or_default(),
        }
    }
}

impl Default for RecordBuffer {
    fn default() -> RecordBuffer {
        RecordBuffer::new()
    }
}

impl<const POINTS: usize, const SCANS: usize> fmt::Debug for RecordBuffer<POINTS, SCANS> {
    fn fmt(&self, out: &mut fmt::Formatter<'_>) -> fmt::Result {
        out.debug_tuple("RecordBuffer")
            .field(&self.record())
            .finish()
    }
}

/// Are these bytes exactly one well-formed record (R9)?
///
/// # Errors
/// [`Error::Malformed`] if they are not.
pub fn check(record: &[u8]) -> Result<(), Error> {
    done(calls::check(record))
}

/// Makes one record of two that belong together, at the front of the output, and gives its
/// bytes; the rest of the output is as it was (R56). `a` is the first, meant for a position
/// of the log, and `b` the second, meant for the next one; the joined record is meant for
/// the position of `a`.
///
/// It has one verdict, and stores what both write or nothing. Where it commits, every key
/// has the payload that `a` and behind it `b` would have left, or none (R58). It names each
/// key that either names, once: as `b` has it if `b` puts or deletes it or `a` does not name
/// it, and else as `a` has it. Its scans are those of both, of which those that share a key
/// have become one.
///
/// [`MOST_RECORD`] bytes are always enough, and so are as many as `a` and `b` have together.
///
/// # Errors
/// [`Error::CannotJoin`] if one of the two is malformed, their snapshots differ, `b` names or
/// scans a key that `a` puts or deletes, or the joined record would have more than
/// [`MOST_POINTS`] points or [`MOST_SCANS`] scans: append them one after the other then, each
/// with a verdict of its own (docs/FIRMWARE.md, "Two records as one"). Else
/// [`Error::OutputShort`] if the output is shorter than the joined record. The output is then
/// as it was.
///
/// ```
/// use emuparasol::{join, Error, Point, Record, MOST_RECORD};
///
/// // A lease of port 5000, and the tenant's count of leases, which was 3.
/// let (mut a, mut b) = ([0; 50], [0; 50]);
/// let points = [Point::read(7), Point::put(5000, 1)];
/// let a = Record { snapshot: 9, points: &points, scans: &[] }.write(&mut a)?;
/// let points = [Point::put(7, 4)];
/// let b = Record { snapshot: 9, points: &points, scans: &[] }.write(&mut b)?;
///
/// let mut output = [0; MOST_RECORD];
/// let points = [Point::put(7, 4), Point::put(5000, 1)];
/// let both = Record { snapshot: 9, points: &points, scans: &[] };
/// assert_eq!(join(a, b, &mut output)?, both.write(&mut [0; 50])?);
///
/// // The other way round the second names what the first puts.
/// assert_eq!(join(b, a, &mut output), Err(Error::CannotJoin));
/// # Ok::<(), Error>(())
/// ```
pub fn join<'o>(a: &[u8], b: &[u8], output: &'o mut [u8]) -> Result<&'o [u8], Error> {
    let mut size = 0;
    done(calls::join(a, b, output, &mut size))?;
    front(output, size)
}

/// The lists of R10, with room for so many points and scans.
struct Lists<const POINTS: usize, const SCANS: usize> {
    kinds: [u8; POINTS],
    keys: [u32; POINTS],
    payloads: [u64; POINTS],
    lows: [u32; SCANS],
    highs: [u32; SCANS],
}

/// The fronts of such lists.
struct Lent<'a> {
    kinds: &'a mut [u8],
    keys: &'a mut [u32],
    payloads: &'a mut [u64],
    lows: &'a mut [u32],
    highs: &'a mut [u32],
}

impl<const POINTS: usize, const SCANS: usize> Lists<POINTS, SCANS> {
    const EMPTY: Lists<POINTS, SCANS> = Lists {
        kinds: [0; POINTS],
        keys: [0; POINTS],
        payloads: [0; POINTS],
        lows: [0; SCANS],
        highs: [0; SCANS],
    };

    /// Their fronts for so many points and scans; none if there is no room.
    fn lent(&mut self, points: usize, scans: usize) -> Option<Lent<'_>> {
        Some(Lent {
            kinds: self.kinds.get_mut(..points)?,
            keys: self.keys.get_mut(..points)?,
            payloads: self.payloads.get_mut(..points)?,
            lows: self.lows.get_mut(..scans)?,
            highs: self.highs.get_mut(..scans)?,
        })
    }
}
