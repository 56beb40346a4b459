//! No room (R26) and the drop of tombstones (R27).

use reference::table::record;
use reference::{Point, Record};

use super::melds;
use crate::Case;

fn put(snapshot: u32, key: u32) -> Record {
    record(snapshot, &[Point::put(key, 1)])
}

fn delete(snapshot: u32, key: u32) -> Record {
    record(snapshot, &[Point::delete(key)])
}

fn nothing(snapshot: u32) -> Record {
    record(snapshot, &[])
}

/// A scan over every key in use: its looks tell what is kept.
fn look(snapshot: u32) -> Record {
    reference::table::scanning(snapshot, &[], &[(0, 100)])
}

fn puts(snapshot: u32, keys: &[u32]) -> Record {
    let points: Vec<Point> = keys.iter().map(|&key| Point::put(key, 1)).collect();
    record(snapshot, &points)
}

/// The cases.
pub fn all() -> Vec<Case> {
    [keys(), tombstones(), drops()].concat()
}

fn keys() -> Vec<Case> {
    vec![
        melds(
            "room-for-n",
            "N keys refused, or N + 1 taken, in one record.",
            (3, 4),
            &[puts(0, &[1, 2, 3, 4]), puts(1, &[1, 2, 3]), put(2, 4)],
        ),
        melds(
            "room-key-by-key",
            "N keys refused, or N + 1 taken, a record at a time.",
            (2, 4),
            &[put(0, 1), put(1, 2), put(2, 3), put(3, 2), put(4, 1)],
        ),
        melds(
            "room-for-rewrites",
            "A kept key that is written again counted twice.",
            (2, 4),
            &[
                puts(0, &[1, 2]),
                puts(1, &[1, 2]),
                record(2, &[Point::delete(1), Point::put(2, 2)]),
            ],
        ),
        melds(
            "room-for-deletes",
            "A delete of an absent key thought to need room, or to keep its key: two of them, and a \
             put behind them, fit a pool for one.",
            (1, 4),
            &[delete(0, 1), delete(1, 2), put(2, 1)],
        ),
        melds(
            "room-not-for-reads",
            "The keys a record reads counted as if written.",
            (1, 4),
            &[
                put(0, 1),
                record(1, &[Point::put(1, 2), Point::read(2), Point::read(3)]),
            ],
        ),
        melds(
            "payload-0-is-live",
            "A put of payload 0 taken for a delete: it never goes.",
            (1, 1),
            &[
                record(0, &[Point::put(1, 0)]),
                nothing(1),
                nothing(2),
                put(3, 2),
            ],
        ),
    ]
}

fn tombstones() -> Vec<Case> {
    vec![
        melds(
            "tombstone-needs-room",
            "A deleted key making room at once, or never: with Z = 2 the tombstone of 2 counts \
             at 3 and not at 4.",
            (1, 2),
            &[put(0, 1), delete(1, 1), put(2, 2), put(3, 2)],
        ),
        melds(
            "tombstone-of-an-absent-key",
            "A tombstone kept for a delete of an absent key: there is none, and a put finds room \
             right behind it.",
            (1, 2),
            &[delete(0, 1), put(1, 2), put(2, 2)],
        ),
        melds(
            "put-over-a-tombstone",
            "A put over a tombstone counted twice, or dropped with it later: the key is live \
             again.",
            (1, 2),
            &[
                put(0, 1),
                delete(1, 1),
                put(2, 1),
                nothing(3),
                nothing(4),
                put(5, 2),
            ],
        ),
        melds(
            "delete-of-a-tombstone",
            "A second delete that renews the tombstone: it is as old as the first one, and counts \
             at 4 and not at 5.",
            (1, 3),
            &[
                put(0, 1),
                delete(1, 1),
                delete(2, 1),
                put(3, 2),
                put(4, 2),
                put(5, 2),
            ],
        ),
        melds(
            "tombstone-at-its-age-still-conflicts",
            "A tombstone dropped before the conflict check: at 4 it is at its age, yet a \
             snapshot of 1 has it in its zone.",
            (1, 2),
            &[
                put(0, 1),
                delete(1, 1),
                nothing(2),
                record(1, &[Point::read(1)]),
                record(2, &[Point::read(1)]),
            ],
        ),
    ]
}

fn drops() -> Vec<Case> {
    vec![
        melds(
            "drop-only-when-needed",
            "Old tombstones dropped although there is room: looks tell that 1 is kept at 5.",
            (3, 1),
            &[
                puts(0, &[1, 2]),
                delete(1, 1),
                nothing(2),
                put(3, 3),
                look(3),
            ],
        ),
        melds(
            "drop-not-at-n",
            "Old tombstones dropped when the keys are together exactly N.",
            (2, 1),
            &[
                puts(0, &[1, 2]),
                delete(1, 1),
                nothing(2),
                put(3, 2),
                look(3),
            ],
        ),
        melds(
            "drop-every-old-one",
            "Only as many tombstones dropped as needed: 1 and 2 go both, though one would do; \
             looks tell that 2 is not beside 3.",
            (3, 1),
            &[
                puts(0, &[1, 2, 8]),
                record(1, &[Point::delete(1), Point::delete(2)]),
                nothing(2),
                put(3, 3),
                look(3),
            ],
        ),
        melds(
            "drop-no-young-one",
            "Young tombstones dropped with the old: at 4 the tombstone of 1 goes and that of 2 \
             stays, so a read of 2 with it in its zone conflicts.",
            (3, 2),
            &[
                puts(0, &[1, 2, 3]),
                delete(1, 1),
                delete(2, 2),
                put(3, 4),
                record(2, &[Point::read(2)]),
            ],
        ),
        melds(
            "drop-not-on-refusal",
            "A refused record dropping tombstones: after 3 nothing is changed.",
            (2, 1),
            &[
                puts(0, &[1, 2]),
                delete(1, 1),
                nothing(2),
                puts(3, &[3, 4]),
                put(4, 2),
                look(4),
            ],
        ),
        melds(
            "drop-before-the-writes",
            "The tombstone of a key this record writes: 1 is at its age, put again, and 3 finds \
             room only without 2.",
            (2, 1),
            &[
                puts(0, &[1, 2]),
                record(1, &[Point::delete(1), Point::delete(2)]),
                nothing(2),
                puts(3, &[1, 3]),
                look(3),
            ],
        ),
        melds(
            "drop-makes-exactly-enough",
            "Tombstones kept for deletes of three absent keys: there are none, and three puts find \
             room right behind them. A fourth does not.",
            (3, 2),
            &[
                record(0, &[Point::delete(1), Point::delete(2), Point::delete(3)]),
                puts(1, &[4, 5, 6]),
                puts(2, &[4, 5, 6]),
                put(3, 7),
                look(2),
            ],
        ),
    ]
}
