//! The answers of R3: a number and a fixed name each.

/// An answer; its number is the one of R3.
#[derive(Clone, Copy, Debug, PartialEq, Eq, PartialOrd, Ord)]
#[repr(u8)]
pub enum Answer {
    /// The record's writes are stored.
    Committed = 0,
    /// A key it names or scans was written since its snapshot.
    Conflict = 1,
    /// Its zone is longer than Z.
    TooOld = 2,
    /// More than N keys would have to be kept.
    NoRoom = 3,
    /// The record is not well formed.
    Malformed = 4,
    /// Its snapshot is above p.
    Ahead = 5,
    /// p is 4,294,967,295.
    PositionsUsedUp = 6,
    /// The lent pool is no state's image.
    UnfitPool = 7,
    /// Less room lent than needed.
    OutputShort = 8,
    /// N or Z outside its range.
    BadLimits = 9,
    /// The log stops within a record: there are too few bytes.
    TornLog = 10,
    /// A length that no record has.
    ImpossibleLength = 11,
    /// Two records cannot be one.
    CannotJoin = 12,
}

impl Answer {
    /// Every answer, in the order of the numbers.
    pub const ALL: [Answer; 13] = [
        Answer::Committed,
        Answer::Conflict,
        Answer::TooOld,
        Answer::NoRoom,
        Answer::Malformed,
        Answer::Ahead,
        Answer::PositionsUsedUp,
        Answer::UnfitPool,
        Answer::OutputShort,
        Answer::BadLimits,
        Answer::TornLog,
        Answer::ImpossibleLength,
        Answer::CannotJoin,
    ];

    /// Its number in R3.
    pub const fn number(self) -> u8 {
        self as u8
    }

    /// Its name in R3.
    pub const fn name(self) -> &'static str {
        match self {
            Answer::Committed => "committed",
            Answer::Conflict => "conflict",
            Answer::TooOld => "too old",
            Answer::NoRoom => "no room",
            Answer::Malformed => "malformed",
            Answer::Ahead => "ahead",
            Answer::PositionsUsedUp => "positions used up",
            Answer::UnfitPool => "unfit pool",
            Answer::OutputShort => "output short",
            Answer::BadLimits => "bad limits",
            Answer::TornLog => "torn log",
            Answer::ImpossibleLength => "impossible length",
            Answer::CannotJoin => "cannot join",
        }
    }
}

#[cfg(test)]
mod tests {
    use super::Answer;

    #[test]
    fn numbers_count_up_from_zero_and_names_differ() {
        for (number, answer) in Answer::ALL.iter().enumerate() {
            assert_eq!(usize::from(answer.number()), number);
            for other in &Answer::ALL[..number] {
                assert_ne!(answer.name(), other.name());
            }
        }
    }
}
