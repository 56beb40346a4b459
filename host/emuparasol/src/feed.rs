//! A log fed in parts (R47 to R49).

use core::fmt;

use crate::answer::{front, Error, Verdict};
use crate::calls;
use crate::declared::{DECIDED, END, MORE, REFUSED};
use crate::pool::{Melded, Pool};
use crate::record::MOST_RECORD;

/// The bytes of a carry: as many as the longest record has.
pub const CARRY_BYTES: usize = MOST_RECORD;

/// What has come in of a record whose rest is still to come. [`Pool::feed`] puts it
/// there and takes it out again; nobody else can, so what is carried is always
/// something that a call has left (R48).
///
/// It belongs to one pool and one place of the log. Where the log is read again from
/// another place, from its first byte after a reset for instance, [`forget`](Carry::forget)
/// what is carried, or take a new one. It has some 14 KB: keep it in a `static`, or beside
/// the pool.
#[derive(Clone)]
pub struct Carry {
    bytes: [u8; CARRY_BYTES],
    count: u64,
}

impl Carry {
    /// A carry that carries nothing. It is `const`, for a `static`.
    pub const fn new() -> Carry {
        Carry {
            bytes: [0; CARRY_BYTES],
            count: 0,
        }
    }

    /// Forgets what is carried: the next part begins with a record's first byte. No byte
    /// is cleared for that.
    pub fn forget(&mut self) {
        self.count = 0;
    }

    /// The bytes that are carried, as they came in; none between two records.
    pub fn as_bytes(&self) -> &[u8] {
        front(&self.bytes, self.count).unwrap_or_default()
    }
}

impl Default for Carry {
    fn default() -> Carry {
        Carry::new()
    }
}

impl fmt::Debug for Carry {
    fn fmt(&self, out: &mut fmt::Formatter<'_>) -> fmt::Result {
        let carried = self.count;
        out.debug_struct("Carry")
            .field("carried", &carried)
            .finish()
    }
}

/// What [`Pool::feed`] has done with a part.
#[derive(Clone, Copy, Debug, PartialEq, Eq, Hash)]
#[must_use = "what of a part was not taken has to be fed again"]
pub enum Fed {
    /// A record was decided, and has taken its position.
    Decided {
        /// Its verdict and its looks.
        melded: Melded,
        /// How many bytes of the part were the record's. Feed those behind them next.
        taken: usize,
    },
    /// All of the part is taken, and the record's last byte is still to come.
    More,
    /// The log is over, behind a whole record or with none.
    End,
}

impl<B: AsMut<[u8]>> Pool<B> {
    /// Takes the next part of the log, of any length, and decides one record at most:
    /// as soon as its last byte is in. A part may end anywhere. With `over` the log
    /// ends with this part.
    ///
    /// A record that lies in the part with all its bytes is melded there; of any other
    /// the bytes wait in the carry. So it does not matter how a log is cut into parts:
    /// the verdicts, the looks and the pool are those of its records melded one by one.
    ///
    /// # Errors
    /// [`Error::ImpossibleLength`] as soon as the two bytes of a length that no record has
    /// are in, and from then on at each call with this carry. [`Error::TornLog`] only with
    /// `over`, if the log stops within its last record: pool and carry are as they were.
    /// [`Error::UnfitPool`] once a record is whole: pool and carry are as they were.
    /// [`Error::PositionsUsedUp`] once a record is whole: the pool is as it was, the carry
    /// carries nothing more of that record, and every record behind it would be answered
    /// so.
    ///
    /// ```
    /// use emuparasol::{pool_bytes, Carry, Error, Fed, Limits, Pool, Verdict};
    ///
    /// // Three empty records of 9 bytes, on pages of 16.
    /// let log = [[0, 7, 1, 0, 0, 0, 0, 0, 0]; 3].concat();
    /// let mut pool = Pool::create([0; pool_bytes(3)], Limits { n: 3, z: 4 })?;
    /// let mut carry = Carry::new();
    /// let mut decided = 0;
    /// for page in log.chunks(16) {
    ///     let mut rest = page;
    ///     while let Fed::Decided { melded, taken } = pool.feed(&mut carry, rest, false)? {
    ///         assert_eq!(melded.verdict, Verdict::Committed);
    ///         decided += 1;
    ///         rest = &rest[taken..];
    ///     }
    /// }
    /// assert_eq!(decided, 3);
    /// assert_eq!(pool.feed(&mut carry, &[], true), Ok(Fed::End));
    /// # Ok::<(), Error>(())
    /// ```
    pub fn feed(&mut self, carry: &mut Carry, part: &[u8], over: bool) -> Result<Fed, Error> {
        let (mut happened, mut looks, mut taken) = (REFUSED, 0, 0);
        let number = calls::feed(
            self.as_mut_bytes(),
            &mut carry.bytes,
            &mut carry.count,
            part,
            over,
            &mut happened,
            &mut looks,
            &mut taken,
        );
        match happened {
            DECIDED => {
                let verdict = Verdict::from_number(number).ok_or(Error::of(number))?;
                let melded = Melded { verdict, looks };
                let taken = front(part, taken)?.len();
                Ok(Fed::Decided { melded, taken })
            }
            MORE => Ok(Fed::More),
            END => Ok(Fed::End),
            _ => Err(Error::of(number)),
        }
    }
}
