//! The record: what is well formed and what is not. Each malformed record
//! stands behind a length that fits, so that the log goes on.

use reference::record::with_length;
use reference::table::{record, scanning};
use reference::{Point, Record, Version};

use super::{melds, pieces};
use crate::Case;

/// A body with its length.
fn body(bytes: &[u8]) -> Vec<u8> {
    with_length(bytes)
}

fn reads(snapshot: u32, keys: &[u32]) -> Record {
    let points: Vec<Point> = keys.iter().map(|&key| Point::read(key)).collect();
    record(snapshot, &points)
}

fn scans(ranges: &[(u32, u32)]) -> Record {
    scanning(0, &[], ranges)
}

/// The cases.
pub fn all() -> Vec<Case> {
    [sizes(), fields(), orders(), bytes()].concat()
}

fn sizes() -> Vec<Case> {
    let keys: Vec<u32> = (1..=65).collect();
    let puts: Vec<Point> = (1..=64).map(|key| Point::put(key, 1)).collect();
    let ranges: Vec<(u32, u32)> = (1..=9).map(|index| (index * 10, index * 10 + 1)).collect();
    vec![
        melds(
            "record-empty",
            "A record with nothing in it refused: it commits and stores nothing.",
            (1, 4),
            &[record(0, &[]), record(1, &[])],
        ),
        pieces(
            "record-64-points",
            "64 points refused, or 65 taken, in version 1.",
            (64, 4),
            &[
                &reads(0, &keys[..64]).to_bytes(),
                &reads(0, &keys).to_bytes_in(Version::One),
            ],
        ),
        pieces(
            "record-8-scans",
            "8 scans refused, or 9 taken, in version 1.",
            (1, 4),
            &[
                &scans(&ranges[..8]).to_bytes(),
                &scans(&ranges).to_bytes_in(Version::One),
            ],
        ),
        melds(
            "record-longest",
            "The longest record of version 1, 903 bytes after the length: 64 puts and 8 scans.",
            (64, 4),
            &[scanning(0, &puts, &ranges[..8]), record(1, &[])],
        ),
    ]
}

fn fields() -> Vec<Case> {
    vec![
        pieces(
            "record-version",
            "The version not looked at: with nothing in the record 0, 2 and 255 are malformed, 1 is not.",
            (1, 4),
            &[
                &body(&[0, 0, 0, 0, 0, 0, 0]),
                &body(&[2, 0, 0, 0, 0, 0, 0]),
                &body(&[255, 0, 0, 0, 0, 0, 0]),
                &body(&[1, 0, 0, 0, 0, 0, 0]),
            ],
        ),
        pieces(
            "record-kinds",
            "An unknown kind taken or passed over: 0, 4 and 255 are malformed.",
            (2, 4),
            &[
                &body(&[1, 0, 0, 0, 0, 1, 0, 0, 0, 0, 0, 9]),
                &body(&[1, 0, 0, 0, 0, 1, 0, 4, 0, 0, 0, 9]),
                &body(&[1, 0, 0, 0, 0, 1, 0, 255, 0, 0, 0, 9]),
                &body(&[1, 0, 0, 0, 0, 1, 0, 1, 0, 0, 0, 9]),
            ],
        ),
        pieces(
            "record-kind-decides-the-size",
            "The payload taken for a read or delete, or left out for a put.",
            (2, 4),
            &[
                &body(&[1, 0, 0, 0, 0, 1, 0, 2, 0, 0, 0, 9]),
                &body(&[1, 0, 0, 0, 0, 1, 0, 1, 0, 0, 0, 9, 0, 0, 0, 0, 0, 0, 0, 1]),
                &body(&[1, 0, 0, 0, 0, 1, 0, 3, 0, 0, 0, 9, 0, 0, 0, 0, 0, 0, 0, 0]),
                &body(&[1, 0, 0, 0, 0, 1, 0, 2, 0, 0, 0, 9, 0, 0, 0, 0, 0, 0, 0, 1]),
            ],
        ),
    ]
}

fn orders() -> Vec<Case> {
    vec![
        melds(
            "record-equal-keys",
            "Two points of one key taken, side by side or at the end of a list.",
            (4, 9),
            &[
                reads(0, &[5, 5]),
                record(0, &[Point::read(5), Point::put(5, 1)]),
                reads(0, &[1, 2, 2]),
                reads(0, &[1, 2, 3]),
            ],
        ),
        melds(
            "record-falling-keys",
            "Points in any order taken.",
            (4, 9),
            &[
                reads(0, &[6, 5]),
                reads(0, &[1, 3, 2]),
                reads(0, &[u32::MAX, 0]),
                reads(0, &[0, u32::MAX]),
            ],
        ),
        melds(
            "record-scan-ends",
            "A scan with low above high taken, also as the last of several.",
            (1, 9),
            &[
                scans(&[(5, 4)]),
                scans(&[(1, 2), (9, 8)]),
                scans(&[(u32::MAX, 0)]),
                scans(&[(5, 5)]),
            ],
        ),
        melds(
            "record-scan-order",
            "Scans that touch, overlap, repeat or fall taken; side by side is right.",
            (1, 9),
            &[
                scans(&[(1, 5), (5, 6)]),
                scans(&[(1, 5), (4, 6)]),
                scans(&[(1, 5), (1, 5)]),
                scans(&[(7, 9), (1, 5)]),
                scans(&[(1, u32::MAX), (u32::MAX, u32::MAX)]),
                scans(&[(1, 5), (6, 6)]),
            ],
        ),
    ]
}

fn bytes() -> Vec<Case> {
    vec![
        pieces(
            "record-bytes-missing",
            "Counts that ask for more than there is: reading past the record.",
            (2, 9),
            &[
                &body(&[1, 0, 0, 0, 0, 1, 0]),
                &body(&[1, 0, 0, 0, 0, 0, 1]),
                &body(&[1, 0, 0, 0, 0, 1, 0, 1, 0, 0, 0]),
                &body(&[1, 0, 0, 0, 0, 1, 0, 2, 0, 0, 0, 9, 0, 0, 0, 0, 0, 0, 1]),
                &body(&[1, 0, 0, 0, 0, 0, 1, 0, 0, 0, 1, 0, 0, 0]),
                &body(&[1, 0, 0, 0, 0, 64, 8, 1, 0, 0, 0, 9]),
                &body(&[1, 0, 0, 0, 0, 0, 0]),
            ],
        ),
        pieces(
            "record-bytes-left",
            "Bytes behind the last scan passed over.",
            (2, 9),
            &[
                &body(&[1, 0, 0, 0, 0, 0, 0, 0]),
                &body(&[1, 0, 0, 0, 0, 0, 0, 1, 0, 0, 0, 9]),
                &body(&[1, 0, 0, 0, 0, 1, 0, 1, 0, 0, 0, 9, 0]),
                &body(&[1, 0, 0, 0, 0, 0, 1, 0, 0, 0, 1, 0, 0, 0, 2, 0]),
                &body(&[1, 0, 0, 0, 0, 0, 0]),
            ],
        ),
        pieces(
            "record-counts-beyond",
            "Counts far out of range: 255 points, 255 scans, both.",
            (2, 9),
            &[
                &body(&[1, 0, 0, 0, 0, 255, 0]),
                &body(&[1, 0, 0, 0, 0, 0, 255]),
                &body(&[255; 20]),
                &body(&[0; 20]),
                &body(&[1, 0, 0, 0, 0, 0, 0]),
            ],
        ),
    ]
}
