//! Version 2 (R53): records with more than 64 points or 8 scans, what each version may
//! hold, and the lengths that came with it.

use reference::record::with_length;
use reference::table::{record, scanning};
use reference::{Point, Record, Version};

use super::{melds, pieces};
use crate::Case;

/// The cases.
pub fn all() -> Vec<Case> {
    [before(), versions(), counts(), contents(), lengths()].concat()
}

/// Reads of the keys 1 to `count`.
fn reads(count: u32) -> Vec<Point> {
    (1..=count).map(Point::read).collect()
}

/// Puts of the keys 1 to `count`.
fn puts(count: u32) -> Vec<Point> {
    (1..=count).map(|key| Point::put(key, 1)).collect()
}

/// So many scans: 10 to 11, 20 to 21, and so on.
fn ranges(count: u32) -> Vec<(u32, u32)> {
    (1..=count)
        .map(|index| (index * 10, index * 10 + 1))
        .collect()
}

/// A record of reads and scans, so many of each.
fn reading(snapshot: u32, points: u32, scans: u32) -> Record {
    scanning(snapshot, &reads(points), &ranges(scans))
}

/// The same record with another byte as its version, and nothing else changed.
fn with_version(record: &Record, version: u8) -> Vec<u8> {
    let mut bytes = record.to_bytes();
    bytes[2] = version;
    bytes
}

/// A record of nothing.
fn nothing(snapshot: u32) -> Vec<u8> {
    record(snapshot, &[]).to_bytes()
}

/// Logs that a card parts from which still goes by the rule of before (R54): the first
/// record writes 7, the second reads it and writes 8, the third reads 8.
fn before() -> Vec<Case> {
    let put_and_reads: Vec<Point> = (1..=65)
        .map(|key| match key {
            7 => Point::put(7, 70),
            _ => Point::read(key),
        })
        .collect();
    let behind = [
        record(0, &[Point::read(7), Point::put(80, 1)]),
        record(1, &[Point::read(80)]),
    ];
    let log = |first: Record| [&[first][..], &behind].concat();
    vec![
        melds(
            "version-2-unknown-before",
            "A card of before version 2, which answers 4 to the first record and stores nothing of it: then \
             the second commits there, and the third conflicts.",
            (100, 9),
            &log(record(0, &put_and_reads)),
        ),
        melds(
            "version-2-impossible-before",
            "A card of before version 2, which says 11 of the first record's length, 945, and stays there \
             for good.",
            (100, 9),
            &log(record(0, &puts(72))),
        ),
    ]
}

/// Which version a record has.
fn versions() -> Vec<Case> {
    let full = reading(0, 64, 8);
    vec![
        melds(
            "version-2-65-points",
            "65 points refused: version 2 has them.",
            (1, 9),
            &[reading(0, 65, 0), reading(1, 66, 0)],
        ),
        melds(
            "version-2-9-scans",
            "9 scans refused: version 2 has them. It is the shortest record of version 2, with length 81.",
            (1, 9),
            &[reading(0, 0, 9), reading(1, 0, 10)],
        ),
        melds(
            "version-2-one-is-enough",
            "Version 2 taken only with more of both: more points than 64 do, or more scans than 8.",
            (1, 9),
            &[
                reading(0, 65, 0),
                reading(1, 65, 8),
                reading(2, 0, 9),
                reading(3, 64, 9),
                reading(4, 65, 9),
            ],
        ),
        pieces(
            "version-2-64-points-8-scans",
            "Version 2 taken where version 1 will do: 64 points and 8 scans have one form, and this is not it.",
            (1, 9),
            &[
                &full.to_bytes_in(Version::Two),
                &reading(0, 64, 0).to_bytes_in(Version::Two),
                &reading(0, 0, 8).to_bytes_in(Version::Two),
                &reading(0, 1, 1).to_bytes_in(Version::Two),
                &full.to_bytes(),
            ],
        ),
        pieces(
            "version-2-nothing",
            "Version 2 with nothing in it taken.",
            (1, 9),
            &[&record(0, &[]).to_bytes_in(Version::Two), &nothing(0)],
        ),
        pieces(
            "version-1-255-points",
            "Version 1 taken with as many points or scans as a byte can say, 255. Their lengths, 1,282 and \
             2,047, are cut.",
            (1, 9),
            &[
                &reading(0, 255, 0).to_bytes_in(Version::One),
                &reading(0, 0, 255).to_bytes_in(Version::One),
                &reading(0, 255, 0).to_bytes(),
            ],
        ),
        pieces(
            "version-3",
            "Version 3 taken for version 2, or 0, or 255: there is no other version.",
            (1, 9),
            &[
                &with_version(&reading(0, 65, 0), 3),
                &with_version(&reading(0, 65, 0), 0),
                &with_version(&reading(0, 65, 0), 255),
                &reading(0, 65, 0).to_bytes(),
            ],
        ),
    ]
}

/// The counts of version 2, two bytes each.
fn counts() -> Vec<Case> {
    let mut swapped = reading(0, 65, 0).to_bytes();
    swapped.swap(7, 8);
    let beyond = |counts: [u8; 4]| with_length(&[&[2, 0, 0, 0, 0][..], &counts].concat());
    let longest = scanning(0, &puts(1_024), &ranges(64));
    vec![
        pieces(
            "version-2-counts-of-one-byte",
            "Counts of one byte taken in version 2, or of two bytes in version 1.",
            (1, 9),
            &[
                &with_version_and_counts_of(&reading(0, 65, 0), Version::One),
                &with_version_and_counts_of(&reading(0, 3, 0), Version::Two),
                &reading(0, 65, 0).to_bytes(),
            ],
        ),
        pieces(
            "version-2-256-points",
            "Counts read little-endian: 256 points are 01 00, and would be 1; 65 are 00 41, and would be \
             16,640. With the bytes of 65 exchanged, or a 0 and a 1, the record is malformed.",
            (1, 9),
            &[
                &reading(0, 256, 0).to_bytes(),
                &reading(1, 65, 9).to_bytes(),
                &swapped,
                &with_length(&[2, 0, 0, 0, 0, 1, 0, 0, 0, 1, 0, 0, 0, 9]),
                &nothing(4),
            ],
        ),
        pieces(
            "version-2-last-byte-of-a-count",
            "Only the last byte of a count looked at: 257 points are 01 01, and are not one.",
            (1, 9),
            &[&reading(0, 257, 9).to_bytes(), &reading(1, 300, 0).to_bytes(), &nothing(2)],
        ),
        melds(
            "version-2-1024-points",
            "1,024 points refused, or 1,025 taken.",
            (1, 9),
            &[reading(0, 1_024, 0), reading(0, 1_025, 0), record(2, &[])],
        ),
        melds(
            "version-2-64-scans",
            "64 scans refused, or 65 taken.",
            (1, 9),
            &[reading(0, 0, 64), reading(0, 0, 65), record(2, &[])],
        ),
        pieces(
            "version-2-counts-beyond",
            "Counts far out of range: 65,535 points, 65,535 scans, both; and 1,024 points that are not there.",
            (1, 9),
            &[
                &beyond([255, 255, 0, 0]),
                &beyond([0, 0, 255, 255]),
                &beyond([255, 255, 255, 255]),
                &beyond([4, 0, 0, 64]),
                &nothing(0),
            ],
        ),
        pieces(
            "version-2-bytes-missing-or-left",
            "A byte too few or too many behind the counts of version 2, or the two bytes that its counts are \
             longer by not seen.",
            (1, 9),
            &[
                &shorter(&reading(0, 65, 9), 1),
                &shorter(&reading(0, 65, 9), 2),
                &with_length(&[&reading(0, 65, 9).to_bytes()[2..], &[0]].concat()),
                &with_length(&[2, 0, 0, 0, 0, 0, 65, 0]),
                &reading(0, 65, 9).to_bytes(),
            ],
        ),
        melds(
            "version-2-longest",
            "The longest record, 13,833 bytes after the length: 1,024 puts and 64 scans. It finds no room here.",
            (1_000, 9),
            &[longest, record(1, &[])],
        ),
    ]
}

/// A record with its version's number, and its counts as wide as those of another.
fn with_version_and_counts_of(record: &Record, other: Version) -> Vec<u8> {
    let mut bytes = record.to_bytes_in(other);
    bytes[2] = record.version().number();
    bytes
}

/// A record without its last bytes, and a length that fits.
fn shorter(record: &Record, by: usize) -> Vec<u8> {
    let bytes = record.to_bytes();
    with_length(&bytes[2..bytes.len() - by])
}

/// What stands behind the 64th point and the 8th scan counts like what stands before.
fn contents() -> Vec<Case> {
    let mut equal = reading(0, 66, 0);
    equal.points[65].key = 65;
    let mut falling = reading(0, 300, 0);
    falling.points[299].key = 0;
    let mut touching = reading(0, 0, 10);
    touching.scans[9].low = 91;
    let mut backwards = reading(0, 0, 64);
    backwards.scans[63].high = 639;
    let mut unknown = reading(0, 65, 0).to_bytes();
    let last_kind = unknown.len() - 5;
    unknown[last_kind] = 4;
    let spread: Vec<Point> = (0..1_000).map(|index| Point::put(index * 4, 1)).collect();
    let beside: Vec<Point> = (0..1_024).map(|index| Point::read(index * 4 + 1)).collect();
    let gaps: Vec<(u32, u32)> = (0..64)
        .map(|index| (index * 60 + 2, index * 60 + 3))
        .collect();
    vec![
        melds(
            "version-2-keys-in-order",
            "The order of keys not looked at behind the 64th point: the last two are equal, then the last \
             falls.",
            (1, 9),
            &[equal, falling, reading(2, 66, 0)],
        ),
        melds(
            "version-2-scans-in-order",
            "Scans not looked at behind the 8th: the last two touch, then the last has its low above its high.",
            (1, 9),
            &[touching, backwards, reading(2, 0, 10)],
        ),
        pieces(
            "version-2-kinds",
            "An unknown kind taken behind the 64th point.",
            (1, 9),
            &[&unknown, &reading(1, 65, 0).to_bytes()],
        ),
        melds(
            "version-2-conflict-behind-64-points",
            "Points not looked at behind the 64th: only the last of 65, and of 959, was written.",
            (3, 9),
            &[
                record(0, &[Point::put(65, 1), Point::put(1_024, 1)]),
                record(0, &reads(64)),
                record(0, &reads(65)),
                record(0, &reading(0, 1_024, 0).points[65..]),
            ],
        ),
        melds(
            "version-2-conflict-behind-8-scans",
            "Scans not looked at behind the 8th: only the last of 9, and of 55, was written in.",
            (3, 9),
            &[
                record(0, &[Point::put(90, 1), Point::put(641, 1)]),
                reading(0, 0, 8),
                reading(0, 0, 9),
                scanning(0, &[], &ranges(64)[9..]),
            ],
        ),
        melds(
            "version-2-writes-behind-64-points",
            "Writes not stored behind the 64th point: the last put is seen by a later read. The delete behind it, of a \
             key that is not there, is not.",
            (100, 9),
            &[
                record(0, &[&puts(69)[..], &[Point::delete(70)]].concat()),
                record(0, &[Point::read(69)]),
                record(0, &[Point::read(70)]),
                record(0, &[Point::read(71)]),
            ],
        ),
        melds(
            "version-2-room",
            "Only the first 64 points counted for room: 65 keys fit, 66 do not.",
            (65, 9),
            &[record(0, &puts(66)), record(1, &puts(65)), record(2, &[Point::put(66, 1)])],
        ),
        melds(
            "version-2-looks",
            "The looks of a record with 1,024 points and 64 scans, beside 1,000 keys: it goes down nearly \
             everywhere, and finds nothing.",
            (1_000, 9),
            &[record(0, &spread), scanning(0, &beside, &gaps), reading(0, 65, 0)],
        ),
    ]
}

/// Lengths: 7 to 13,833 are cut, in whichever version.
fn lengths() -> Vec<Case> {
    let first = record(0, &[Point::put(10, 100)]).to_bytes();
    let next = nothing(2);
    let longest = with_length(&[1; 13_833]);
    let fullest = scanning(0, &puts(64), &ranges(8)).to_bytes();
    vec![
        pieces(
            "version-1-length-904",
            "Version 1 with a length of 904 taken, or said to be impossible: it is cut, and malformed. The \
             first has 69 puts, the second 64 puts, 8 scans and a byte more.",
            (100, 9),
            &[
                &record(0, &puts(69)).to_bytes_in(Version::One),
                &with_length(&[&fullest[2..], &[0]].concat()),
                &next,
            ],
        ),
        pieces(
            "log-length-13833",
            "Length 13,833 taken for impossible: it is the longest that is cut, well formed or not.",
            (3, 4),
            &[&first, &longest, &next],
        ),
        pieces(
            "log-length-13833-torn",
            "Length 13,833 with 13,832 bytes behind it.",
            (3, 4),
            &[&first, &longest[..13_834]],
        ),
        pieces(
            "log-length-13833-alone",
            "11 said of the longest length there is because nothing is behind it: the log merely stops.",
            (3, 4),
            &[&first, &[0x36, 0x09]],
        ),
        pieces(
            "log-length-13834",
            "Length 13,834 cut: it is impossible, although its bytes are there.",
            (3, 4),
            &[&first, &with_length(&[1; 13_834]), &next],
        ),
        pieces(
            "log-length-13834-past-the-end",
            "10 said of an impossible length because too few bytes are behind it: where both hold, it is 11.",
            (3, 4),
            &[&first, &[0x36, 0x0A], &first],
        ),
        pieces(
            "log-length-13834-alone",
            "10 said of 13,834 with nothing behind it: these two bytes are no length of a record, and that is 11.",
            (3, 4),
            &[&first, &[0x36, 0x0A]],
        ),
        pieces(
            "log-length-13834-three-bytes",
            "10 said of a record that runs past the end: 13,834 is no length, with one byte behind it.",
            (3, 4),
            &[&first, &[0x36, 0x0A, 2]],
        ),
        pieces(
            "log-length-13834-first",
            "An impossible length in front of all records: it is the only line, and what follows is not read.",
            (3, 4),
            &[&[0x36, 0x0A], &first],
        ),
    ]
}
