//! The answers of R3, each number with its one name: those that leave a record
//! with a position of its own, and those that a call refuses with.

use core::fmt;

/// What became of a record that was melded: answers 0 to 5. With each of them the
/// record has taken its position, on every card alike, and the card goes on with
/// the next one.
#[derive(Clone, Copy, Debug, PartialEq, Eq, Hash)]
#[repr(u8)]
#[must_use = "only a committed record has stored its writes"]
pub enum Verdict {
    /// The writes are stored.
    Committed = 0,
    /// A key that the record names or scans was written since its snapshot.
    Conflict = 1,
    /// The snapshot is more than Z positions back.
    TooOld = 2,
    /// More than N keys would have to be kept.
    NoRoom = 3,
    /// The bytes are no well-formed record.
    Malformed = 4,
    /// The snapshot is past the pool's position.
    Ahead = 5,
}

impl Verdict {
    /// Its number in R3.
    pub const fn number(self) -> u8 {
        self as u8
    }

    /// The verdict with this number; none if it is above 5.
    pub const fn from_number(number: u8) -> Option<Verdict> {
        match number {
            0 => Some(Verdict::Committed),
            1 => Some(Verdict::Conflict),
            2 => Some(Verdict::TooOld),
            3 => Some(Verdict::NoRoom),
            4 => Some(Verdict::Malformed),
            5 => Some(Verdict::Ahead),
            _ => None,
        }
    }

    /// Its name in R3.
    pub const fn name(self) -> &'static str {
        match self.committed() {
            Ok(()) => "committed",
            Err(error) => error.name(),
        }
    }

    /// Nothing for a committed record, and the refusal for any other.
    ///
    /// ```
    /// use emuparasol::{Error, Verdict};
    ///
    /// assert_eq!(Verdict::Committed.committed(), Ok(()));
    /// assert_eq!(Verdict::TooOld.committed(), Err(Error::TooOld));
    /// ```
    pub const fn committed(self) -> Result<(), Error> {
        match self {
            Verdict::Committed => Ok(()),
            Verdict::Conflict => Err(Error::Conflict),
            Verdict::TooOld => Err(Error::TooOld),
            Verdict::NoRoom => Err(Error::NoRoom),
            Verdict::Malformed => Err(Error::Malformed),
            Verdict::Ahead => Err(Error::Ahead),
        }
    }
}

impl fmt::Display for Verdict {
    fn fmt(&self, out: &mut fmt::Formatter<'_>) -> fmt::Result {
        out.pad(self.name())
    }
}

/// Why a call did not do what it was asked: answers 1 to 12. What a refusal leaves
/// behind is said at each call; in a word, everything as it was.
///
/// ```
/// use emuparasol::Error;
///
/// assert_eq!(Error::UnfitPool.number(), 7);
/// assert_eq!(Error::UnfitPool.to_string(), "unfit pool");
/// assert_eq!(Error::from_number(7), Some(Error::UnfitPool));
/// assert_eq!(Error::from_number(0), None);
/// ```
#[derive(Clone, Copy, Debug, PartialEq, Eq, Hash)]
#[non_exhaustive]
pub enum Error {
    /// A key that the record names or scans was written since its snapshot.
    Conflict,
    /// The snapshot is more than Z positions back.
    TooOld,
    /// More than N keys would have to be kept.
    NoRoom,
    /// The record, or the points and scans to be written, break a rule.
    Malformed,
    /// The snapshot is past the pool's position.
    Ahead,
    /// The pool is at position 4,294,967,295: this log is full.
    PositionsUsedUp,
    /// The bytes of the pool are no pool: build it again from the log.
    UnfitPool,
    /// Less room lent than needed.
    OutputShort,
    /// N or Z outside its range, or bytes of another size than 64 + 64·N.
    BadLimits,
    /// Too few bytes: the log merely stops, within a record. More may come, or an append
    /// was cut short.
    TornLog,
    /// Two bytes that are no length of a record, below 7 or above 13,833: no record
    /// can stand there, whatever comes behind them.
    ImpossibleLength,
    /// The two records cannot be made one (R56). Each is as good as before by itself.
    CannotJoin,
    /// A number that R3 does not have, or 0 beside a length or a number that cannot be.
    /// The library is proved to answer no such thing; another archive might.
    Unknown(u8),
}

impl Error {
    /// Its number in R3.
    pub const fn number(self) -> u8 {
        match self {
            Error::Conflict => 1,
            Error::TooOld => 2,
            Error::NoRoom => 3,
            Error::Malformed => 4,
            Error::Ahead => 5,
            Error::PositionsUsedUp => 6,
            Error::UnfitPool => 7,
            Error::OutputShort => 8,
            Error::BadLimits => 9,
            Error::TornLog => 10,
            Error::ImpossibleLength => 11,
            Error::CannotJoin => 12,
            Error::Unknown(number) => number,
        }
    }

    /// The refusal with this number; none for 0, which is no refusal.
    pub const fn from_number(number: u8) -> Option<Error> {
        match number {
            0 => None,
            number => Some(Error::of(number)),
        }
    }

    /// Its name in R3; "unknown answer" for a number that R3 does not have.
    pub const fn name(self) -> &'static str {
        match self {
            Error::Conflict => "conflict",
            Error::TooOld => "too old",
            Error::NoRoom => "no room",
            Error::Malformed => "malformed",
            Error::Ahead => "ahead",
            Error::PositionsUsedUp => "positions used up",
            Error::UnfitPool => "unfit pool",
            Error::OutputShort => "output short",
            Error::BadLimits => "bad limits",
            Error::TornLog => "torn log",
            Error::ImpossibleLength => "impossible length",
            Error::CannotJoin => "cannot join",
            Error::Unknown(_) => "unknown answer",
        }
    }

    /// What a call says with a number that it does not succeed with.
    pub(crate) const fn of(number: u8) -> Error {
        match number {
            1 => Error::Conflict,
            2 => Error::TooOld,
            3 => Error::NoRoom,
            4 => Error::Malformed,
            5 => Error::Ahead,
            6 => Error::PositionsUsedUp,
            7 => Error::UnfitPool,
            8 => Error::OutputShort,
            9 => Error::BadLimits,
            10 => Error::TornLog,
            11 => Error::ImpossibleLength,
            12 => Error::CannotJoin,
            number => Error::Unknown(number),
        }
    }
}

impl fmt::Display for Error {
    fn fmt(&self, out: &mut fmt::Formatter<'_>) -> fmt::Result {
        match self {
            Error::Unknown(number) => write!(out, "{} {number}", self.name()),
            known => out.pad(known.name()),
        }
    }
}

impl core::error::Error for Error {}

/// Nothing for 0, and the refusal for any other number.
pub(crate) const fn done(number: u8) -> Result<(), Error> {
    match number {
        0 => Ok(()),
        number => Err(Error::of(number)),
    }
}

/// The front of what was lent, so long as a call has said; a length that cannot be
/// is no answer of the library.
pub(crate) fn front<T>(lent: &[T], length: u64) -> Result<&[T], Error> {
    let length = usize::try_from(length).ok();
    length
        .and_then(|length| lent.get(..length))
        .ok_or(Error::Unknown(0))
}
