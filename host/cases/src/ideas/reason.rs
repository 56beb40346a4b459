//! R50: who beat a record, how far it lags, how many keys have to find room.

use reference::table::{record, scanning};
use reference::{Point, Record};

use super::{melds, pieces};
use crate::Case;

fn put(snapshot: u32, key: u32) -> Record {
    record(snapshot, &[Point::put(key, 1)])
}

fn puts(snapshot: u32, keys: &[u32]) -> Record {
    let points: Vec<Point> = keys.iter().map(|&key| Point::put(key, 1)).collect();
    record(snapshot, &points)
}

fn reads(snapshot: u32, keys: &[u32]) -> Record {
    reading(snapshot, keys, &[])
}

/// A record that reads these keys and scans.
fn reading(snapshot: u32, keys: &[u32], scans: &[(u32, u32)]) -> Record {
    let points: Vec<Point> = keys.iter().copied().map(Point::read).collect();
    scanning(snapshot, &points, scans)
}

fn delete(snapshot: u32, key: u32) -> Record {
    record(snapshot, &[Point::delete(key)])
}

fn nothing(snapshot: u32) -> Record {
    record(snapshot, &[])
}

/// The cases.
pub fn all() -> Vec<Case> {
    [first(), larger(), of_nothing()].concat()
}

/// Those that have the first numbers.
pub fn first() -> Vec<Case> {
    [
        keys_told(),
        touches(),
        writers(),
        lags(),
        counts(),
        others(),
    ]
    .concat()
}

/// Which key is told.
fn keys_told() -> Vec<Case> {
    vec![
        melds(
            "reason-smallest-key",
            "Another key in conflict told: 1 is the smallest, though it was written neither first nor \
             last.",
            (5, 9),
            &[put(0, 5), put(1, 1), put(2, 3), reads(0, &[1, 3, 5]), reads(0, &[3, 5]), reads(2, &[1, 3])],
        ),
        melds(
            "reason-smallest-in-a-scan",
            "Points looked at before scans: the scan has 3, the point 7.",
            (5, 9),
            &[puts(0, &[3, 7]), reading(0, &[7], &[(1, 4)]), reading(0, &[7], &[(4, 6)])],
        ),
        melds(
            "reason-smallest-in-a-point",
            "Scans looked at before points: the point has 3, the scan 7.",
            (5, 9),
            &[puts(0, &[3, 7]), reading(0, &[3], &[(5, 9)]), reading(0, &[4], &[(5, 9)])],
        ),
        melds(
            "reason-smallest-unsigned",
            "Keys compared as signed: 2,147,483,647 is smaller than 2,147,483,648.",
            (5, 9),
            &[
                puts(0, &[0x7FFF_FFFF, 0x8000_0000]),
                reads(0, &[0x7FFF_FFFF, 0x8000_0000]),
                reading(0, &[], &[(0x8000_0000, u32::MAX)]),
            ],
        ),
        melds(
            "reason-deleted-key",
            "A deleted key passed over: the tombstone of 3 is the smallest key in conflict.",
            (5, 9),
            &[puts(0, &[3, 7]), record(1, &[Point::delete(3), Point::put(7, 2)]), reads(1, &[3, 7])],
        ),
        melds(
            "reason-key-written-before",
            "A smaller key told that was last written at the snapshot or before it: 3 was, 7 was not.",
            (5, 9),
            &[puts(0, &[3, 7]), put(1, 7), reads(1, &[3, 7]), reading(1, &[3], &[(0, 9)])],
        ),
        melds(
            "reason-keys-0-and-highest",
            "Key 0 taken for none, or 4,294,967,295 lost: the write's position says that a key is told.",
            (5, 9),
            &[
                puts(0, &[0, u32::MAX]),
                reading(0, &[u32::MAX], &[(0, 5)]),
                reads(0, &[1, u32::MAX]),
                reading(0, &[], &[(1, u32::MAX)]),
            ],
        ),
    ]
}

/// What touched it.
fn touches() -> Vec<Case> {
    let many: Vec<u32> = (1..=64).collect();
    let mixed = |snapshot| {
        let points = [
            Point::read(1),
            Point::put(2, 2),
            Point::delete(3),
            Point::read(4),
            Point::put(5, 2),
        ];
        record(snapshot, &points)
    };
    let eight: Vec<(u32, u32)> = (1..=8).map(|index| (index * 10, index * 10 + 4)).collect();
    vec![
        melds(
            "reason-key-in-a-scan",
            "An end of the scan told in the key's place: 15 lies within it, then at either end.",
            (5, 9),
            &[
                put(0, 15),
                reading(0, &[], &[(11, 19)]),
                reading(0, &[], &[(15, 19)]),
                reading(0, &[], &[(11, 15)]),
            ],
        ),
        melds(
            "reason-point-before-scan",
            "The scan told where a point has the key too, or both told.",
            (5, 9),
            &[
                put(0, 15),
                reading(0, &[15], &[(11, 19)]),
                scanning(0, &[Point::put(15, 2)], &[(1, 2), (15, 15)]),
                reading(0, &[14, 16], &[(11, 19)]),
            ],
        ),
        melds(
            "reason-point-beside",
            "A point beside the key told: only the second scan has 15, with points right below and above it.",
            (5, 9),
            &[put(0, 15), reading(0, &[14, 16, 20], &[(3, 9), (14, 16)])],
        ),
        melds(
            "reason-point-numbers",
            "Points numbered from 0, or each kind by itself: 5 is the fifth and 4 the fourth, 64 the last of \
             64.",
            (5, 9),
            &[
                puts(0, &[5, 64]),
                mixed(0),
                put(1, 4),
                mixed(1),
                put(4, 64),
                reads(4, &many),
            ],
        ),
        melds(
            "reason-scan-numbers",
            "Scans numbered from 0 or behind the points: 10, 24 and 84 are in the first, the second and the \
             eighth.",
            (5, 9),
            &[
                puts(0, &[10, 24, 84]),
                reading(0, &[1, 2], &eight),
                reading(0, &[1, 2], &[(1, 9), (20, 29)]),
                put(1, 84),
                reading(1, &many[..5], &eight),
            ],
        ),
    ]
}

/// Who wrote it.
fn writers() -> Vec<Case> {
    vec![
        melds(
            "reason-writers-position",
            "Another position told than the writer's: v, p or s. It wrote at 2, with p = 4 and s = 0.",
            (5, 9),
            &[nothing(0), put(1, 7), nothing(2), nothing(3), reads(0, &[7])],
        ),
        melds(
            "reason-last-write",
            "The key's first write told, of all or of those since the snapshot: it was written at 1, 2 and 4.",
            (5, 9),
            &[put(0, 7), put(1, 7), nothing(2), delete(3, 7), reads(0, &[7]), reads(1, &[7]), reads(2, &[7])],
        ),
        melds(
            "reason-newest-of-others",
            "The newest write of all keys in conflict told, or of all kept ones: 3 was written at 2, 5 at 3 and \
             9 at 4.",
            (5, 9),
            &[nothing(0), put(1, 3), put(2, 5), put(3, 9), reads(0, &[3, 5]), reading(1, &[], &[(2, 6)])],
        ),
        melds(
            "reason-refused-is-no-writer",
            "A refused record taken for the writer: behind position 4 the key is put with answers 1, 5, 2 and 3 \
             only.",
            (1, 5),
            &[
                nothing(0),
                nothing(1),
                nothing(2),
                put(3, 7),
                put(3, 7),
                put(9, 7),
                put(0, 7),
                puts(7, &[7, 8]),
                reads(3, &[7]),
            ],
        ),
        melds(
            "reason-reads-do-not-write",
            "A committed read taken for the writer: 7 was put at 1 and read at 2.",
            (5, 9),
            &[put(0, 7), reads(1, &[7]), reads(0, &[7])],
        ),
    ]
}

/// How far it lags.
fn lags() -> Vec<Case> {
    vec![
        melds(
            "reason-lag",
            "Z told, or the lag from v, or from Z on: it is p - s, first Z + 1, then more.",
            (1, 2),
            &[
                nothing(0),
                nothing(1),
                nothing(2),
                nothing(0),
                nothing(0),
                nothing(3),
                nothing(5),
            ],
        ),
        melds(
            "reason-lag-only-when-too-old",
            "A lag told with 1 or 5: p - s = Z is a conflict, and s = p + 1 is ahead.",
            (1, 2),
            &[
                put(0, 7),
                nothing(1),
                reads(0, &[7]),
                nothing(4),
                nothing(9),
            ],
        ),
        melds(
            "reason-old-before-conflict",
            "A conflict told of a record that is too old: 7 was written behind its snapshot.",
            (1, 2),
            &[
                put(0, 7),
                nothing(1),
                nothing(2),
                reads(0, &[7]),
                reading(0, &[], &[(1, 9)]),
            ],
        ),
    ]
}

/// How many keys have to find room.
fn counts() -> Vec<Case> {
    vec![
        melds(
            "reason-keys-kept-and-written",
            "The keys written not counted, or one counted twice that is kept and written: 1, 2, 3 and 4 are four.",
            (3, 9),
            &[puts(0, &[1, 2, 3]), puts(1, &[2, 4]), puts(2, &[1, 2, 3, 4]), put(3, 4)],
        ),
        melds(
            "reason-keys-beyond-n",
            "N told, or how many keys are too many: two are kept and three more are five.",
            (3, 9),
            &[puts(0, &[1, 2]), puts(1, &[3, 4, 5]), puts(2, &[3, 4]), puts(0, &[6, 7, 8, 9])],
        ),
        melds(
            "reason-keys-deleted-and-read",
            "A reason told of deletes of absent keys in a full pool: they need no room, and commit.",
            (2, 9),
            &[puts(0, &[1, 2]), record(1, &[Point::delete(3), Point::read(4)]), delete(2, 5)],
        ),
        melds(
            "reason-young-tombstones",
            "Tombstones not counted: that of 1 is counted at 3, 4 and, with w + Z = v + 1, at 5.",
            (2, 4),
            &[puts(0, &[1, 2]), delete(1, 1), put(2, 3), put(3, 3), put(4, 3), put(5, 3)],
        ),
        melds(
            "reason-old-tombstones",
            "Tombstones counted at their age or behind it: those of 1 and 2 are not, at 4 and at 5.",
            (3, 2),
            &[
                puts(0, &[1, 2, 3]),
                record(1, &[Point::delete(1), Point::delete(2)]),
                puts(2, &[4, 5]),
                puts(3, &[4, 5, 6]),
                puts(4, &[4, 5, 6]),
            ],
        ),
        melds(
            "reason-old-and-young-tombstones",
            "Tombstones counted all or none: at 5 that of 1 is old and that of 2 is young.",
            (3, 3),
            &[puts(0, &[1, 2, 3]), delete(1, 1), delete(2, 2), nothing(3), puts(4, &[4, 5])],
        ),
        melds(
            "reason-old-tombstone-written",
            "A key with an old tombstone not counted where the record writes it: 1, 2, 3 and 4 are four.",
            (3, 1),
            &[puts(0, &[1, 2, 3]), delete(1, 1), nothing(2), puts(3, &[1, 4])],
        ),
    ]
}

/// What has no reason, and what explaining leaves.
fn others() -> Vec<Case> {
    let malformed = [&[0, 8][..], &nothing(0).to_bytes()[2..], &[0]].concat();
    vec![
        pieces(
            "reason-none",
            "A reason told with 0, 4 or 5.",
            (2, 1),
            &[
                &puts(0, &[1, 2]).to_bytes(),
                &malformed,
                &reads(9, &[1]).to_bytes(),
                &puts(3, &[1, 2]).to_bytes(),
                &nothing(4).to_bytes(),
            ],
        ),
        melds(
            "reason-conflict-before-room",
            "The keys counted of a record that conflicts.",
            (1, 9),
            &[put(0, 1), puts(0, &[1, 2]), puts(1, &[1, 2])],
        ),
        melds(
            "reason-looks",
            "Looks left out, or counted on behind the first key in conflict: they are the meld's.",
            (9, 9),
            &[puts(0, &[1, 2, 3, 4, 8, 9]), reading(0, &[], &[(0, 9)]), reads(0, &[2, 4, 9]), reads(0, &[5, 9])],
        ),
        melds(
            "reason-changes-nothing",
            "Explaining that takes a position or stores a write: the snapshots behind it would be off.",
            (1, 1),
            &[put(0, 1), put(1, 1), nothing(2), reads(2, &[1]), reads(2, &[1])],
        ),
    ]
}

/// Numbers that only records of version 2 have.
pub fn larger() -> Vec<Case> {
    let keys: Vec<u32> = (1..=1_024).collect();
    let scans: Vec<(u32, u32)> = (1..=64).map(|index| (index * 10, index * 10 + 4)).collect();
    vec![
        melds(
            "reason-point-numbers-above-255",
            "A point's number told in one byte, or as 64: it is 65, then 256, 299 and 1,024.",
            (9, 9),
            &[
                puts(0, &[65, 256, 300, 1_024]),
                reads(0, &keys[..65]),
                reads(0, &[&[0][..], &keys[..64], &keys[65..256]].concat()),
                reads(0, &[&[0][..], &keys[..64], &keys[65..255], &keys[256..300]].concat()),
                reads(1, &keys),
                put(5, 1_024),
                reads(1, &keys),
            ],
        ),
        melds(
            "reason-scan-numbers-above-8",
            "A scan's number told as 8, or behind the points: 94, 100 and 644 are in the 9th, the 10th and the 64th.",
            (9, 9),
            &[
                put(0, 94),
                reading(0, &[], &scans[..9]),
                put(1, 100),
                reading(1, &keys[..65], &scans[..10]),
                put(3, 644),
                reading(4, &[], &scans),
            ],
        ),
    ]
}

/// Deletes of keys that are not live, which wrote nothing and are not counted.
pub fn of_nothing() -> Vec<Case> {
    vec![
        melds(
            "reason-first-delete",
            "The last delete of a key told, not the last write: 7 was deleted at 2, 3 and 4, and those at 3 and 4 wrote \
             nothing.",
            (5, 9),
            &[put(0, 7), delete(1, 7), delete(2, 7), delete(3, 7), reads(0, &[7]), reading(1, &[], &[(0, 9)])],
        ),
        melds(
            "reason-nothing-passed-over",
            "A smaller key told that was only deleted, and was not there: 3 was not written, 7 was.",
            (5, 9),
            &[
                put(0, 7),
                record(1, &[Point::delete(3), Point::put(7, 2)]),
                reading(1, &[], &[(0, 9)]),
                reads(1, &[3, 7]),
            ],
        ),
        melds(
            "reason-deletes-in-conflict",
            "A delete that would write nothing not told as what touched the key: it is the second point, then the first.",
            (5, 9),
            &[
                put(0, 7),
                delete(1, 7),
                record(1, &[Point::read(1), Point::delete(7)]),
                record(0, &[Point::delete(7), Point::put(8, 1)]),
            ],
        ),
        melds(
            "reason-nothing-not-counted",
            "The keys deleted counted that are not live: 1, 2 and 3 are three, then 1, 2, 5 and 6 four, and with 1 \
             deleted, which is live, 1, 2 and 5 three.",
            (2, 9),
            &[
                puts(0, &[1, 2]),
                record(1, &[Point::put(3, 1), Point::delete(4)]),
                record(2, &[Point::delete(4), Point::put(5, 1), Point::put(6, 1)]),
                record(3, &[Point::delete(1), Point::put(5, 1)]),
            ],
        ),
        melds(
            "reason-old-tombstone-deleted",
            "A key with an old tombstone counted where the record deletes it: 2, 3 and 4 are three. At 3 it is young, and \
             counted once.",
            (2, 2),
            &[
                puts(0, &[1, 2]),
                delete(1, 1),
                record(2, &[Point::delete(1), Point::put(3, 1)]),
                record(3, &[Point::delete(1), Point::put(3, 1), Point::put(4, 1)]),
            ],
        ),
        melds(
            "reason-reads-not-counted",
            "The keys read counted: 1, 2 and 3 are three, 4 is only read.",
            (2, 9),
            &[puts(0, &[1, 2]), record(1, &[Point::put(3, 1), Point::read(4)])],
        ),
    ]
}
