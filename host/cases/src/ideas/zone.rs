//! Positions, the zone and the order of the checks.

use reference::record::with_length;
use reference::table::record;
use reference::{Point, Record};

use super::{melds, pieces};
use crate::Case;

/// A record with nothing in it.
fn nothing(snapshot: u32) -> Record {
    record(snapshot, &[])
}

/// A record with nothing in it, of version 2.
fn malformed(snapshot: u32) -> Vec<u8> {
    let [a, b, c, d] = snapshot.to_be_bytes();
    with_length(&[2, a, b, c, d, 0, 0])
}

/// The cases.
pub fn all() -> Vec<Case> {
    let mut cases = vec![
        melds(
            "zone-longest",
            "The edge of the zone: at p = 2 and 3, p - s = Z = 2 passes and Z + 1 answers 2.",
            (1, 2),
            &[nothing(0), nothing(0), nothing(0), nothing(0), nothing(2)],
        ),
        melds(
            "zone-of-one",
            "Z = 1: only p and p - 1 pass.",
            (1, 1),
            &[nothing(0), nothing(0), nothing(0), nothing(2), nothing(4)],
        ),
        melds(
            "snapshot-at-p",
            "The upper edge of snapshots: s = p passes, p + 1 and 4,294,967,295 answer 5.",
            (1, 2),
            &[
                nothing(0),
                nothing(1),
                nothing(3),
                nothing(u32::MAX),
                nothing(4),
            ],
        ),
        melds(
            "zone-ends",
            "The ends of the zone: a write at s is outside, at s + 1 and at p inside.",
            (4, 9),
            &[
                record(0, &[Point::put(1, 1)]),
                record(1, &[Point::put(2, 2)]),
                record(2, &[Point::put(3, 3)]),
                record(1, &[Point::read(1)]),
                record(0, &[Point::read(1)]),
                record(2, &[Point::read(2)]),
                record(1, &[Point::read(2)]),
                record(2, &[Point::read(3)]),
            ],
        ),
        melds(
            "last-record-in-zone",
            "The zone ending before p: the write of the record just before is inside.",
            (2, 4),
            &[
                record(0, &[Point::put(7, 1)]),
                record(0, &[Point::put(7, 2)]),
                record(1, &[Point::put(7, 3)]),
            ],
        ),
        melds(
            "order-old-before-conflict",
            "1 before 2: the third record is too old and would conflict.",
            (2, 1),
            &[
                record(0, &[Point::put(7, 1)]),
                nothing(1),
                record(0, &[Point::read(7)]),
            ],
        ),
        melds(
            "order-conflict-before-room",
            "3 before 1: the second record conflicts and would find no room.",
            (1, 4),
            &[
                record(0, &[Point::put(7, 1)]),
                record(0, &[Point::read(7), Point::put(8, 1)]),
            ],
        ),
    ];
    cases.extend([
        pieces(
            "order-malformed-first",
            "5 or 2 before 4: the malformed records are ahead, then too old.",
            (1, 1),
            &[
                &malformed(9),
                &nothing(1).to_bytes(),
                &malformed(0),
                &nothing(3).to_bytes(),
            ],
        ),
        pieces(
            "every-record-takes-a-position",
            "Aborted or malformed records that take no position: after each, s = p passes only \
             if it was counted.",
            (1, 9),
            &[
                &record(0, &[Point::put(7, 1)]).to_bytes(),
                &record(0, &[Point::read(7)]).to_bytes(),
                &nothing(2).to_bytes(),
                &record(3, &[Point::put(8, 1)]).to_bytes(),
                &nothing(4).to_bytes(),
                &malformed(0),
                &nothing(6).to_bytes(),
                &nothing(99).to_bytes(),
                &nothing(8).to_bytes(),
                &nothing(9).to_bytes(),
                &nothing(0).to_bytes(),
                &nothing(11).to_bytes(),
            ],
        ),
    ]);
    cases
}
