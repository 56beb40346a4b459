//! The version of a record (R53), and what depends on it: how wide its counts are.

/// A version.
#[derive(Clone, Copy, Debug, PartialEq, Eq)]
pub enum Version {
    /// 1: counts of one byte.
    One,
    /// 2: counts of two bytes.
    Two,
}

/// The most points of version 1.
pub const MOST_POINTS_OF_ONE: usize = 64;
/// The most scans of version 1.
pub const MOST_SCANS_OF_ONE: usize = 8;

impl Version {
    /// The version of a record with so many points and scans.
    pub fn of(points: usize, scans: usize) -> Version {
        match points <= MOST_POINTS_OF_ONE && scans <= MOST_SCANS_OF_ONE {
            true => Version::One,
            false => Version::Two,
        }
    }

    /// The version that this byte says, if it says one.
    pub fn numbered(byte: u8) -> Option<Version> {
        [Version::One, Version::Two]
            .into_iter()
            .find(|version| version.number() == byte)
    }

    /// The byte that says it.
    pub fn number(self) -> u8 {
        match self {
            Version::One => 1,
            Version::Two => 2,
        }
    }

    /// How many bytes a count has.
    fn width(self) -> usize {
        match self {
            Version::One => 1,
            Version::Two => 2,
        }
    }

    /// The bytes of a count, most significant first; of a count that is too large
    /// the last ones.
    pub fn count_bytes(self, count: usize) -> Vec<u8> {
        let bytes = count.to_be_bytes();
        bytes[bytes.len() - self.width()..].to_vec()
    }

    /// Takes a count off the front of `rest`, if there are enough bytes.
    pub(crate) fn take_count(self, rest: &mut &[u8]) -> Option<usize> {
        let (count, back) = rest.split_at_checked(self.width())?;
        *rest = back;
        let with_byte = |number, &byte: &u8| number * 256 + usize::from(byte);
        Some(count.iter().fold(0, with_byte))
    }
}
