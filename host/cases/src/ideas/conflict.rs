//! R21, R22, R24: what is named, what is covered, what was written.

use reference::table::{record, scanning};
use reference::{Point, Record};

use super::melds;
use crate::Case;

/// A record that only scans.
fn scan(snapshot: u32, low: u32, high: u32) -> Record {
    scanning(snapshot, &[], &[(low, high)])
}

/// The cases.
pub fn all() -> Vec<Case> {
    [points(), scans()].concat()
}

fn points() -> Vec<Case> {
    let many: Vec<Point> = (1..=64).map(Point::read).collect();
    let all_but_last = &many[..63];
    vec![
        melds(
            "conflict-every-kind",
            "Only reads looked at: reads, puts and deletes of a key put in the zone all \
             conflict.",
            (2, 9),
            &[
                record(0, &[Point::put(7, 1)]),
                record(0, &[Point::read(7)]),
                record(0, &[Point::put(7, 2)]),
                record(0, &[Point::delete(7)]),
                record(1, &[Point::put(7, 3)]),
            ],
        ),
        melds(
            "conflict-with-a-delete",
            "A deleted key no conflict: a delete is a write in the zone.",
            (2, 9),
            &[
                record(0, &[Point::put(7, 1)]),
                record(1, &[Point::delete(7)]),
                record(1, &[Point::read(7)]),
            ],
        ),
        melds(
            "conflict-with-an-absent-delete",
            "A delete of an absent key that beats a read or a put: it is no write.",
            (2, 9),
            &[
                record(0, &[Point::delete(7)]),
                record(0, &[Point::read(7)]),
                record(1, &[Point::put(7, 1)]),
            ],
        ),
        melds(
            "reads-do-not-write",
            "A read counted as a write: the third record's zone has only reads of 7.",
            (2, 9),
            &[
                record(0, &[Point::put(7, 1)]),
                record(1, &[Point::read(7)]),
                record(1, &[Point::put(7, 2)]),
            ],
        ),
        melds(
            "conflict-keys-0-and-highest",
            "Keys 0 and 4,294,967,295 lost or confused: each conflicts with itself only.",
            (2, 9),
            &[
                record(0, &[Point::put(0, 1), Point::put(u32::MAX, 2)]),
                record(0, &[Point::read(0)]),
                record(0, &[Point::read(u32::MAX)]),
                record(0, &[Point::read(1), Point::read(u32::MAX - 1)]),
            ],
        ),
        melds(
            "keys-are-unsigned",
            "Keys compared as signed: 2,147,483,647 comes before 2,147,483,648.",
            (2, 9),
            &[
                record(0, &[Point::put(0x7FFF_FFFF, 1), Point::put(0x8000_0000, 2)]),
                scan(0, 0x7FFF_FFFF, 0x8000_0000),
                scan(0, 0x8000_0001, u32::MAX),
            ],
        ),
        melds(
            "conflict-last-of-64-points",
            "The last point left out: only the 64th of the third record's points was written.",
            (3, 9),
            &[
                record(0, &[Point::put(64, 1)]),
                record(0, all_but_last),
                record(0, &many),
            ],
        ),
    ]
}

fn scans() -> Vec<Case> {
    let eight: Vec<(u32, u32)> = (1..=8).map(|index| (index * 10, index * 10 + 4)).collect();
    vec![
        melds(
            "scan-covers-both-ends",
            "An end of a scan left out: 20 is the high end, then the low end, then beside both.",
            (2, 9),
            &[
                record(0, &[Point::put(20, 1)]),
                scan(0, 11, 20),
                scan(0, 20, 29),
                scan(0, 11, 19),
                scan(0, 21, 29),
            ],
        ),
        melds(
            "scan-of-one-key",
            "A scan with low = high refused or covering nothing.",
            (2, 9),
            &[
                record(0, &[Point::put(20, 1)]),
                scan(0, 19, 19),
                scan(0, 20, 20),
                scan(0, 21, 21),
            ],
        ),
        melds(
            "scan-to-the-highest",
            "An overflow at 4,294,967,295, or a scan that ends before it.",
            (2, 9),
            &[
                record(0, &[Point::put(u32::MAX, 1)]),
                scan(0, u32::MAX, u32::MAX),
                scan(0, 5, u32::MAX),
                scan(0, 5, u32::MAX - 1),
            ],
        ),
        melds(
            "scan-from-0",
            "A scan from 0 that begins behind it.",
            (2, 9),
            &[
                record(0, &[Point::put(0, 1)]),
                scan(0, 0, 0),
                scan(0, 0, 5),
                scan(0, 1, 5),
                scan(0, 0, u32::MAX),
            ],
        ),
        melds(
            "scan-of-absent-keys",
            "A scan that looks only at keys there at its snapshot: 15 was put since.",
            (3, 9),
            &[
                record(0, &[Point::put(10, 1)]),
                record(1, &[Point::put(15, 1)]),
                scan(1, 11, 19),
                scan(1, 16, 19),
            ],
        ),
        melds(
            "scan-of-deleted-keys",
            "Tombstones passed over by scans: 15 was deleted in the zone.",
            (3, 9),
            &[
                record(0, &[Point::put(15, 1)]),
                record(1, &[Point::delete(15)]),
                scan(1, 11, 19),
                scan(2, 11, 19),
            ],
        ),
        melds(
            "scan-overlaps-points",
            "Points inside scans refused: they may overlap, and either can conflict.",
            (3, 9),
            &[
                record(0, &[Point::put(15, 1)]),
                scanning(
                    1,
                    &[Point::put(15, 2), Point::read(16)],
                    &[(10, 16), (17, 20)],
                ),
                scanning(1, &[Point::read(16)], &[(10, 20)]),
            ],
        ),
        melds(
            "scans-side-by-side",
            "Scans that touch without a gap refused, or the key between them lost.",
            (3, 9),
            &[
                record(0, &[Point::put(15, 1)]),
                scanning(0, &[], &[(10, 14), (15, 15), (16, 20)]),
                scanning(0, &[], &[(10, 14), (16, 20)]),
            ],
        ),
        melds(
            "conflict-last-of-8-scans",
            "The last scan left out: only the eighth of the third record's scans was written in.",
            (3, 9),
            &[
                record(0, &[Point::put(84, 1)]),
                scanning(0, &[], &eight[..7]),
                scanning(0, &[], &eight),
            ],
        ),
    ]
}
