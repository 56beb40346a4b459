//! The pool: the bytes that a card keeps its keys in, and the calls on them.

use core::fmt;

use crate::answer::{done, front, Error, Verdict};
use crate::calls;

/// N and Z: the same on every card that shares a log.
#[derive(Clone, Copy, Debug, PartialEq, Eq, Hash)]
pub struct Limits {
    /// How many keys a card keeps at most, 1 to 65,536.
    pub n: u32,
    /// How many positions back a snapshot may lie, 1 to 4,096.
    pub z: u32,
}

/// The bytes of a pool for n keys: 64 + 64·n.
///
/// ```
/// use emuparasol::{pool_bytes, Limits};
///
/// const LIMITS: Limits = Limits { n: 1_000, z: 256 };
/// static POOL: [u8; pool_bytes(LIMITS.n)] = [0; pool_bytes(LIMITS.n)];
/// assert_eq!(POOL.len(), 64_064);
/// ```
pub const fn pool_bytes(n: u32) -> usize {
    let keys = n as usize;
    if keys as u64 == n as u64 {
        keys.saturating_mul(64).saturating_add(64)
    } else {
        usize::MAX
    }
}

/// A pool in bytes of any kind that can be lent as a slice: `[u8; SIZE]`,
/// `&'static mut [u8]`, a box on a host. Over `&[u8]` it can be asked, but not
/// changed.
///
/// The bytes may have been anything before. A pool that was made by
/// [`create`](Pool::create) and is not written to by anyone else stays fit, and the
/// same limits and the same log give the same bytes in it on every card. Any other
/// bytes are answered [`Error::UnfitPool`], and are left as they are.
///
/// ```
/// use emuparasol::{pool_bytes, Error, Limits, Point, Pool, Record, Verdict};
///
/// let limits = Limits { n: 3, z: 4 };
/// let mut pool = Pool::create([0; pool_bytes(3)], limits)?;
///
/// let put = Record { snapshot: 0, points: &[Point::put(10, 100)], scans: &[] };
/// let mut output = [0; 30];
/// let melded = pool.meld(put.write(&mut output)?)?;
/// assert_eq!(melded.verdict, Verdict::Committed);
///
/// let found = pool.lookup(10)?.map(|found| (found.payload, found.position));
/// assert_eq!(found, Some((100, 1)));
/// assert_eq!(pool.lookup(11)?, None);
/// # Ok::<(), Error>(())
/// ```
#[derive(Clone)]
pub struct Pool<B> {
    bytes: B,
}

impl<B> Pool<B> {
    /// Takes over bytes that are, or are to become, a pool. Nothing is looked at: if
    /// they are none, each call says so, and [`recreate`](Pool::recreate) makes them
    /// one. It is `const`, for pools in a `static`.
    pub const fn from_bytes(bytes: B) -> Pool<B> {
        Pool { bytes }
    }

    /// Gives the bytes back.
    pub fn into_bytes(self) -> B {
        self.bytes
    }
}

impl<B: AsRef<[u8]>> Pool<B> {
    /// The pool's bytes. Two cards at the same position of a log have the same.
    pub fn as_bytes(&self) -> &[u8] {
        self.bytes.as_ref()
    }

    /// What the pool says of itself (R45). A transaction takes its snapshot from it,
    /// the position, before its first read.
    ///
    /// # Errors
    /// [`Error::UnfitPool`].
    ///
    /// ```
    /// use emuparasol::{pool_bytes, Error, Limits, Point, Pool, Record};
    ///
    /// let mut pool = Pool::create([0; pool_bytes(3)], Limits { n: 3, z: 4 })?;
    /// for points in [[Point::put(10, 100), Point::put(20, 200)], [Point::read(10), Point::delete(20)]] {
    ///     let snapshot = pool.status()?.position;
    ///     let record = Record { snapshot, points: &points, scans: &[] };
    ///     let mut output = [0; 40];
    ///     pool.meld(record.write(&mut output)?)?.verdict.committed()?;
    /// }
    /// let status = pool.status()?;
    /// assert_eq!(status.limits, Limits { n: 3, z: 4 });
    /// assert_eq!(status.position, 2);
    /// assert_eq!((status.kept, status.tombstones), (2, 1));
    /// # Ok::<(), Error>(())
    /// ```
    pub fn status(&self) -> Result<Status, Error> {
        let (mut n, mut z) = (0, 0);
        let (mut position, mut kept, mut tombstones) = (0, 0, 0);
        done(calls::status(
            self.as_bytes(),
            &mut n,
            &mut z,
            &mut position,
            &mut kept,
            &mut tombstones,
        ))?;
        Ok(Status {
            limits: Limits { n, z },
            position,
            kept,
            tombstones,
        })
    }

    /// What the pool keeps under a key; none if it was never written, or deleted.
    ///
    /// # Errors
    /// [`Error::UnfitPool`].
    pub fn lookup(&self, key: u32) -> Result<Option<Found>, Error> {
        let (mut payload, mut position) = (0, 0);
        let number = calls::lookup(self.as_bytes(), key, &mut payload, &mut position);
        done(number)?;
        // Positions begin at 1.
        Ok((position > 0).then_some(Found { payload, position }))
    }

    /// Brings a record that has waited up to the pool's position: the same record
    /// with that position as its snapshot, at the front of the output, whose rest is
    /// as it was. The output has to be as long as the record. The pool is only read.
    ///
    /// [`in_force`] says what to append then.
    ///
    /// # Errors
    /// The first that applies of [`Error::UnfitPool`], [`Error::Malformed`],
    /// [`Error::Ahead`], [`Error::TooOld`], [`Error::Conflict`] and
    /// [`Error::OutputShort`]. The output is then as it was.
    pub fn refresh<'o>(&self, original: &[u8], output: &'o mut [u8]) -> Result<&'o [u8], Error> {
        done(calls::refresh(self.as_bytes(), original, output))?;
        front(output, original.len() as u64)
    }
}

impl<B: AsMut<[u8]>> Pool<B> {
    /// Makes the bytes a new pool, at position 0 and without keys, whatever they
    /// held: after power-up or a reset.
    ///
    /// # Errors
    /// [`Error::BadLimits`] if N or Z is outside its range, or the bytes are not
    /// exactly [`pool_bytes`] of N; they are then as they were. Lend `&mut` bytes, or
    /// take [`from_bytes`](Pool::from_bytes) and [`recreate`](Pool::recreate), if
    /// they are to be had back.
    ///
    /// ```
    /// use emuparasol::{pool_bytes, Error, Limits, Pool};
    ///
    /// let mut bytes = [0; pool_bytes(3)];
    /// assert!(Pool::create(&mut bytes, Limits { n: 3, z: 4 }).is_ok());
    /// let refused = Pool::create(&mut bytes, Limits { n: 4, z: 4 });
    /// assert_eq!(refused.err(), Some(Error::BadLimits));
    /// ```
    pub fn create(bytes: B, limits: Limits) -> Result<Pool<B>, Error> {
        let mut pool = Pool::from_bytes(bytes);
        pool.recreate(limits)?;
        Ok(pool)
    }

    /// Makes these bytes a new pool once more: after [`Error::UnfitPool`], or for a
    /// new log.
    ///
    /// # Errors
    /// As [`create`](Pool::create).
    pub fn recreate(&mut self, limits: Limits) -> Result<(), Error> {
        done(calls::create(self.bytes.as_mut(), limits.n, limits.z))
    }

    /// The pool's bytes, to be lent to a call.
    pub(crate) fn as_mut_bytes(&mut self) -> &mut [u8] {
        self.bytes.as_mut()
    }

    /// Decides the log's next record, and stores what it commits. With `Ok` the
    /// record has taken its position, whatever the verdict is; with an error nothing
    /// has changed. Written are the keys of its puts, and of its deletes those that are
    /// live before it: deleting what is not there writes nothing (R22). Cards from before
    /// this rule wrote it: docs/FIRMWARE.md, "Moving to deletes that write nothing".
    ///
    /// # Errors
    /// [`Error::UnfitPool`], or else [`Error::PositionsUsedUp`].
    ///
    /// ```
    /// use emuparasol::{pool_bytes, Error, Limits, Point, Pool, Record, Verdict, MOST_RECORD};
    ///
    /// let mut pool = Pool::create([0; pool_bytes(3)], Limits { n: 3, z: 4 })?;
    /// // Refused, and position 1 is taken.
    /// assert_eq!(pool.meld(b"no record")?.verdict, Verdict::Malformed);
    ///
    /// // A thousand ports that nobody has leased are cleaned, in a pool for three keys.
    /// let ports: Vec<Point> = (5_000..6_000).map(Point::delete).collect();
    /// let mut output = vec![0; MOST_RECORD];
    /// let clean = Record { snapshot: 1, points: &ports, scans: &[] };
    /// assert_eq!(pool.meld(clean.write(&mut output)?)?.verdict, Verdict::Committed);
    /// assert_eq!(pool.status()?.kept, 0);
    ///
    /// let mut pool = Pool::from_bytes(*b"no pool");
    /// assert_eq!(pool.meld(b"no record"), Err(Error::UnfitPool));
    /// # Ok::<(), Error>(())
    /// ```
    pub fn meld(&mut self, record: &[u8]) -> Result<Melded, Error> {
        let mut looks = 0;
        let number = calls::meld(self.bytes.as_mut(), record, &mut looks);
        let verdict = Verdict::from_number(number).ok_or(Error::of(number))?;
        Ok(Melded { verdict, looks })
    }
}

impl<B: AsRef<[u8]>> AsRef<[u8]> for Pool<B> {
    fn as_ref(&self) -> &[u8] {
        self.as_bytes()
    }
}

impl<B: AsRef<[u8]>> fmt::Debug for Pool<B> {
    fn fmt(&self, out: &mut fmt::Formatter<'_>) -> fmt::Result {
        let length = self.as_bytes().len();
        out.debug_struct("Pool").field("length", &length).finish()
    }
}

/// What a pool says of itself.
#[derive(Clone, Copy, Debug, PartialEq, Eq, Hash)]
#[non_exhaustive]
pub struct Status {
    /// N and Z.
    pub limits: Limits,
    /// The position of the last record that was melded; 0 before the first.
    pub position: u32,
    /// How many keys are kept, those with a tombstone included.
    pub kept: u32,
    /// How many of them have a tombstone: they were deleted.
    pub tombstones: u32,
}

/// What a pool keeps under a key: the last committed write.
#[derive(Clone, Copy, Debug, PartialEq, Eq, Hash)]
#[non_exhaustive]
pub struct Found {
    /// What was put.
    pub payload: u64,
    /// The position of the write, 1 or more.
    pub position: u32,
}

/// What [`Pool::meld`] says of a record that has taken its position.
#[derive(Clone, Copy, Debug, PartialEq, Eq, Hash)]
#[non_exhaustive]
#[must_use = "only a committed record has stored its writes"]
pub struct Melded {
    /// Committed, or why not.
    pub verdict: Verdict,
    /// How many nodes of the tree the search for a conflict looked at: the same on
    /// every card, and 0 where there was no search.
    pub looks: u32,
}

/// The record to append after [`Pool::refresh`] (R39): the refreshed one, or the
/// original if that was ahead; none after any other refusal.
///
/// ```
/// use emuparasol::{in_force, pool_bytes, Error, Limits, Pool, Record};
///
/// let pool = Pool::create([0; pool_bytes(3)], Limits { n: 3, z: 4 })?;
/// let (mut written, mut output) = ([0; 9], [0; 9]);
/// let early = Record { snapshot: 5, ..Record::default() };
/// let original = early.write(&mut written)?;
///
/// let refreshed = pool.refresh(original, &mut output);
/// assert_eq!(refreshed, Err(Error::Ahead));
/// assert_eq!(in_force(refreshed, original), Some(original));
/// assert_eq!(in_force(Err(Error::Conflict), original), None);
/// # Ok::<(), Error>(())
/// ```
pub fn in_force<'a>(refreshed: Result<&'a [u8], Error>, original: &'a [u8]) -> Option<&'a [u8]> {
    let (answer, output) = match refreshed {
        Ok(record) => (0, record),
        Err(error) => (error.number(), Default::default()),
    };
    let (mut offset, mut length) = (0, 0);
    let from = match calls::in_force(answer, original, output, &mut offset, &mut length) {
        true => output,
        false => original,
    };
    let from = from.get(usize::try_from(offset).ok()?..)?;
    let part = front(from, length).ok()?;
    (!part.is_empty()).then_some(part)
}
