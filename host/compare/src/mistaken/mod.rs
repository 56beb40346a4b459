//! A program with one mistake of choice, to see that a set of logs catches it.
//!
//! Without a mistake it is a third way to the same answers: it decides by the
//! kept positions and in the conflict walk itself, where the reference scans
//! the committed writes. Module `feed` is the page form in this way, module `reason`
//! the reasons, module `writer` the writer and refresh, module `joiner` joining. All are for
//! tests only.

/// An enum of mistakes with their words.
macro_rules! mistakes {
    ($(#[$about:meta])* $name:ident { $($case:ident: $words:literal,)* }) => {
        $(#[$about])*
        #[derive(Clone, Copy, Debug, PartialEq, Eq)]
        pub enum $name {
            $(#[doc = $words] $case,)*
        }

        impl $name {
            /// Every mistake.
            pub const ALL: &'static [$name] = &[$($name::$case,)*];

            /// The mistake in words.
            pub fn words(self) -> &'static str {
                match self {
                    $($name::$case => $words,)*
                }
            }

            /// The mistake of this name.
            pub fn named(name: &str) -> Option<$name> {
                match name {
                    $(stringify!($case) => Some($name::$case),)*
                    _ => None,
                }
            }
        }
    };
}

mod explainer;
pub mod feed;
mod feeder;
pub mod joiner;
mod meld;
pub mod reason;
mod record;
mod room;
mod walk;
pub mod writer;

use meld::Pool;
use record::{next_part, Next};

mistakes! {
    /// A mistake that a port might make.
    Mistake {
        NoKeysTaken: "N = 0 is taken",
        TooManyKeysTaken: "N = 1,001 is taken",
        MostKeysRefused: "N = 1,000 is refused",
        NoZoneTaken: "Z = 0 is taken",
        TooLongZoneTaken: "Z = 4,097 is taken",
        LongestZoneRefused: "Z = 4,096 is refused",
        ShortInputTaken: "fewer than 8 bytes are an empty log",
        EmptyLogTorn: "an empty log is torn",
        LastByteIgnored: "a single byte at the end is not seen",
        LastByteImpossible: "a single byte at the end is an impossible length",
        LastByteJudged: "a single byte at the end that no length begins with is an impossible length",
        TornRecordIgnored: "a torn record is the end",
        TornRecordMalformed: "a torn record answers 4",
        TornRecordImpossible: "a record that runs past the end is an impossible length",
        LengthAloneImpossible: "a length with nothing behind it is impossible, whatever it says",
        LengthSixTaken: "length 6 is handed out",
        LengthSevenRefused: "length 7 is impossible",
        LengthNotMost: "length 13,833 is impossible",
        LengthAboveTaken: "length 13,834 is handed out",
        LengthOfBefore: "a length above 903 is impossible, as before there was version 2",
        LengthOfVersionOne: "a length above 903 is impossible in version 1",
        ImpossibleTorn: "an impossible length is a torn log",
        ImpossibleShortTorn: "an impossible length that runs past the end is a torn log",
        ImpossibleWholeTorn: "an impossible length whose bytes are there is a torn log",
        ImpossibleAloneTorn: "an impossible length with nothing behind it is a torn log",
        LengthBelowTorn: "a length below 7 is a torn log",
        LengthAboveTorn: "a length above 13,833 is a torn log",
        ZeroIsEnd: "length 0 is the end",
        ErasedIsEnd: "length 65,535 is the end, as if erased flash were",
        MalformedTorn: "a malformed record is a torn log",
        MalformedImpossible: "a malformed record is an impossible length",
        LittleEndianClamped: "the snapshot is read little-endian and clamped to p",
        LittleEndian: "the snapshot is read little-endian",
        VersionIgnored: "the version is not looked at",
        VersionThreeTaken: "version 3 is taken for version 2",
        VersionTwoRefused: "version 2 is malformed",
        RuleOfBefore: "version 2 is malformed, and a length above 903 impossible: the rule of before",
        VersionTwoAlwaysTaken: "version 2 is taken whatever the counts",
        VersionTwoFromFullPoints: "version 2 is taken with 64 points",
        VersionTwoFromFullScans: "version 2 is taken with 8 scans",
        VersionTwoEmptyTaken: "version 2 is taken with nothing in it",
        VersionTwoNeedsBoth: "version 2 is taken only with more points and more scans",
        VersionTwoPointsRefused: "65 points are refused in version 2",
        VersionTwoScansRefused: "9 scans are refused in version 2",
        VersionOneAlwaysTaken: "version 1 is taken whatever the counts",
        VersionOnePointsTaken: "65 points are taken in version 1",
        VersionOneScansTaken: "9 scans are taken in version 1",
        VersionOnePointsRefused: "64 points are refused in version 1",
        VersionOneScansRefused: "8 scans are refused in version 1",
        CountsLittleEndian: "counts of two bytes are read little-endian",
        CountsOfOneByte: "counts of one byte are read in version 2",
        CountsOfTwoBytes: "counts of two bytes are read in version 1",
        CountsLastByte: "only the last byte of a count is looked at",
        PointsAboveTaken: "1,025 points are taken",
        PointsFullRefused: "1,024 points are refused",
        ScansAboveTaken: "65 scans are taken",
        ScansFullRefused: "64 scans are refused",
        OrderOfFirstPoints: "keys are held to their order up to the 64th point only",
        OrderOfFirstScans: "scans are held to their order up to the 8th only",
        KindsAnyTaken: "an unknown kind is a read",
        KeysEqualTaken: "equal point keys are taken",
        KeysFallingTaken: "falling point keys are taken",
        KeysSigned: "keys are compared as signed numbers",
        ScanOneKeyRefused: "a scan of one key is refused",
        ScanBackwardsTaken: "a scan with low above high is taken",
        ScansTouchTaken: "a scan may begin where the one before ends",
        ScansNextRefused: "a scan may not begin right behind the one before",
        ScansAnyOrderTaken: "scans may fall",
        OverlapRefused: "a point inside a scan is refused",
        BytesLeftTaken: "bytes after the last scan are passed over",
        NothingRefused: "an empty record is malformed",
        AheadBeforeMalformed: "5 comes before 4",
        OldBeforeMalformed: "2 comes before 4",
        RoomBeforeConflict: "3 comes before 1",
        AheadAtP: "s = p answers 5",
        AheadLate: "s = p + 1 passes",
        OldAtZ: "p - s = Z answers 2",
        OldLate: "p - s = Z + 1 passes",
        MalformedTakesNoPosition: "a malformed record takes no position",
        AbortedTakesNoPosition: "an aborted record takes no position",
        AbsentReadsLeftOut: "reads of keys absent at the snapshot are left out",
        PutsDoNotConflict: "only reads and scans are looked at, not puts",
        DeletesDoNotConflict: "deletes are not looked at",
        ScansLeftOut: "scans are not looked at",
        LaterPointsLeftOut: "points behind the 64th are not looked at",
        LaterScansLeftOut: "scans behind the 8th are not looked at",
        ScanLowLeftOut: "a scan does not cover its low end",
        ScanHighLeftOut: "a scan does not cover its high end",
        TombstonesDoNotConflict: "a deleted key is no conflict",
        SnapshotInZone: "a write at s itself is a conflict",
        AbortedWriter: "an aborted record counts as a writer",
        ReadsWrite: "a read counts as a write",
        DeletesAlwaysWrite: "a delete of a key that is not live is written, as it once was",
        TombstonesWrittenAgain: "only a key that is not kept is nothing to delete: a tombstone is written again",
        TombstonesRenewed: "a delete of a tombstone sets its position, and needs no room",
        DeletesWriteNothing: "no delete writes anything, of a live key neither",
        NothingNotNamed: "a delete of a key that is not live is not looked at",
        AbsentDeleteNotNamed: "a delete of a key that is not kept is not looked at",
        NothingTakesNoPosition: "a record whose deletes write nothing takes no position if it has no put",
        DeleteRemoves: "a delete takes the key out at once",
        ZeroPutDeletes: "a put of payload 0 is a delete",
        LaterWritesLost: "writes behind the 64th point are not stored",
        RoomForOneMore: "N + 1 keys fit",
        RoomForOneLess: "N keys do not fit",
        TombstonesNeedNoRoom: "young tombstones are not counted",
        AbsentDeletesNeedRoom: "a delete of a key that is not kept needs room, though it writes nothing",
        TombstoneDeletesNeedRoom: "a delete of an old tombstone needs room, though it writes nothing",
        ReadsNeedRoom: "the keys a record reads are counted",
        RewritesNeedRoom: "a kept key that is written counts twice",
        NeverDropped: "a tombstone is never dropped",
        DroppedEarly: "a tombstone is dropped a position early",
        DroppedLate: "a tombstone is dropped a position late",
        DroppedAlways: "old tombstones are dropped with every commit",
        DroppedWhenFull: "old tombstones are dropped at N keys already",
        DroppedForNothing: "a delete of a key that is not kept counts for the drop, though it writes nothing",
        DroppedJustEnough: "only as many tombstones are dropped as needed",
        DroppedOnRefusal: "answer 3 drops old tombstones too",
        RootNotCounted: "the root is not counted",
        StopsNotCounted: "a node that is stopped at is not counted",
        EmptyTreeCounted: "an empty tree takes a look",
        RefusalsLook: "answers 2 and 5 take a look",
        NoRoomHidesLooks: "answer 3 takes no looks",
        RightAfterConflict: "the right child is looked at after a conflict",
        RightFirst: "the right child is looked at first",
        CoverOfKeys: "an inner node covers only its lowest to highest key",
        NewestIgnored: "newest does not stop the walk",
        NewestAtSnapshotSeen: "newest = s does not stop the walk",
        CoverIgnored: "the cover does not stop the walk",
        LooksAfterWrites: "looks are counted after the writes are stored",
    }
}

/// What the program with this mistake prints for an input.
pub fn lines(mistake: Option<Mistake>, input: &[u8]) -> String {
    let has = |other| mistake == Some(other);
    if input.len() < 8 {
        return if has(Mistake::ShortInputTaken) {
            "end\n"
        } else {
            "9\n"
        }
        .to_string();
    }
    let number =
        |at: usize| u32::from_be_bytes([input[at], input[at + 1], input[at + 2], input[at + 3]]);
    let (n, z) = (number(0), number(4));
    let least_n = u32::from(!has(Mistake::NoKeysTaken));
    let least_z = u32::from(!has(Mistake::NoZoneTaken));
    let most_n = 1_000 + u32::from(has(Mistake::TooManyKeysTaken))
        - u32::from(has(Mistake::MostKeysRefused));
    let most_z = 4_096 + u32::from(has(Mistake::TooLongZoneTaken))
        - u32::from(has(Mistake::LongestZoneRefused));
    if n < least_n || n > most_n || z < least_z || z > most_z {
        return "9\n".to_string();
    }
    let mut pool = Pool::new(n, z, mistake);
    let mut rest = &input[8..];
    let mut text = String::new();
    loop {
        match next_part(mistake, rest) {
            Next::Part(part) => {
                let verdict = pool.meld(part);
                match mistake {
                    Some(Mistake::MalformedTorn) if verdict.0 == 4 => return text + "10\n",
                    Some(Mistake::MalformedImpossible) if verdict.0 == 4 => return text + "11\n",
                    _ => {}
                }
                text += &format!("{} {} {}\n", verdict.2, verdict.0, verdict.1);
                rest = &rest[part.len()..];
            }
            ending => return text + ending.closing(),
        }
    }
}
