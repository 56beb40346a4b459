//! What can be wrong with a record: R4 to R7, R53, R9.

use std::fmt;

/// Why bytes or lists are not a well-formed record. The answer is 4 for all.
#[derive(Clone, Copy, Debug, PartialEq, Eq, PartialOrd, Ord)]
pub enum Flaw {
    /// The bytes lent are not exactly length + 2.
    Length,
    /// The version is neither 1 nor 2.
    Version,
    /// The counts are those of the other version.
    OtherVersion,
    /// More than 1,024 points.
    PointCount,
    /// More than 64 scans.
    ScanCount,
    /// A kind other than 1, 2, 3.
    Kind,
    /// Point keys do not rise strictly.
    KeyOrder,
    /// A scan has low above high.
    ScanEnds,
    /// A scan's low is not above the high before it.
    ScanOrder,
    /// The counts ask for more bytes than there are.
    BytesMissing,
    /// Bytes are left after the last scan.
    BytesLeft,
}

impl Flaw {
    /// Every flaw.
    pub const ALL: [Flaw; 11] = [
        Flaw::Length,
        Flaw::Version,
        Flaw::OtherVersion,
        Flaw::PointCount,
        Flaw::ScanCount,
        Flaw::Kind,
        Flaw::KeyOrder,
        Flaw::ScanEnds,
        Flaw::ScanOrder,
        Flaw::BytesMissing,
        Flaw::BytesLeft,
    ];
}

impl fmt::Display for Flaw {
    fn fmt(&self, out: &mut fmt::Formatter<'_>) -> fmt::Result {
        out.write_str(match self {
            Flaw::Length => "the bytes are not exactly length + 2",
            Flaw::Version => "the version is neither 1 nor 2",
            Flaw::OtherVersion => "so many points and scans are for the other version",
            Flaw::PointCount => "more than 1,024 points",
            Flaw::ScanCount => "more than 64 scans",
            Flaw::Kind => "a kind other than 1, 2, 3",
            Flaw::KeyOrder => "point keys do not rise strictly",
            Flaw::ScanEnds => "a scan has low above high",
            Flaw::ScanOrder => "a scan is not above the one before it",
            Flaw::BytesMissing => "bytes are missing",
            Flaw::BytesLeft => "bytes are left over",
        })
    }
}
