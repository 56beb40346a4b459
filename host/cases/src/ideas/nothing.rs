//! Deletes of keys that are not live (R22): they write nothing. The eight rows of R55,
//! then a sentence each; last, what tombstones of keys that were live do.

use reference::table::{self, record, scanning};
use reference::{Point, Record};

use super::melds;
use crate::Case;

fn put(snapshot: u32, key: u32) -> Record {
    puts(snapshot, &[key])
}

fn puts(snapshot: u32, keys: &[u32]) -> Record {
    let points: Vec<Point> = keys.iter().map(|&key| Point::put(key, 1)).collect();
    record(snapshot, &points)
}

fn delete(snapshot: u32, key: u32) -> Record {
    deletes(snapshot, &[key])
}

fn deletes(snapshot: u32, keys: &[u32]) -> Record {
    let points: Vec<Point> = keys.iter().copied().map(Point::delete).collect();
    record(snapshot, &points)
}

fn read(snapshot: u32, key: u32) -> Record {
    record(snapshot, &[Point::read(key)])
}

fn scan(snapshot: u32, low: u32, high: u32) -> Record {
    scanning(snapshot, &[], &[(low, high)])
}

fn nothing(snapshot: u32) -> Record {
    record(snapshot, &[])
}

/// The cases.
pub fn all() -> Vec<Case> {
    [
        conflicts(),
        positions(),
        room(),
        own(),
        drops(),
        many(),
        absent(),
        tombstones(),
    ]
    .concat()
}

/// It makes no conflict for others.
fn conflicts() -> Vec<Case> {
    vec![
        melds(
            "nothing-eight-rows",
            "The eight rows of R55, whole: deletes of an absent key, of a live one, of one deleted since, in a full \
             pool, of a tombstone.",
            (table::N, table::Z),
            &table::records_of_nothing(),
        ),
        melds(
            "nothing-beats-no-scan",
            "A delete of an absent key that beats a later scan: 15 was never there, and deleting it at 2 wrote \
             nothing. A put does beat it.",
            (3, 9),
            &[put(0, 10), delete(1, 15), scan(1, 11, 19), put(1, 15), scan(1, 11, 19)],
        ),
        melds(
            "nothing-beats-no-point",
            "A delete of an absent key that beats a later read, delete or put of that key. The put at 5 writes it.",
            (3, 9),
            &[put(0, 10), delete(1, 15), read(1, 15), delete(1, 15), put(1, 15), read(1, 15)],
        ),
    ]
}

/// A tombstone keeps its position.
fn positions() -> Vec<Case> {
    vec![
        melds(
            "nothing-tombstone-keeps-its-position",
            "A delete of a young tombstone that renews it: a read with snapshot 2 has seen the delete at 2, and \
             that at 3 wrote nothing. Snapshot 1 has not seen it.",
            (3, 9),
            &[put(0, 7), delete(1, 7), delete(2, 7), read(2, 7), read(1, 7)],
        ),
        melds(
            "nothing-tombstone-dropped-at-its-first-age",
            "A tombstone kept longer for each delete of it: that of 2 counts at 5 and not at 6, though 1 is deleted at \
             3 and 4 too.",
            (1, 4),
            &[put(0, 1), delete(1, 1), delete(2, 1), delete(3, 1), put(4, 2), put(5, 2)],
        ),
        melds(
            "nothing-old-tombstone",
            "A delete of an old tombstone that renews it or takes it out: a scan with snapshot 3 passes it in one \
             look, and at 7 it is still a leaf.",
            (2, 1),
            &[
                puts(0, &[1, 8]),
                delete(1, 1),
                nothing(2),
                delete(3, 1),
                scan(3, 0, 100),
                put(5, 8),
                read(5, 9),
            ],
        ),
    ]
}

/// It needs no room.
fn room() -> Vec<Case> {
    vec![
        melds(
            "nothing-in-a-full-pool",
            "A delete of an absent key that finds no room: it needs none, nor do three of them. A put does.",
            (2, 9),
            &[puts(0, &[1, 2]), delete(1, 3), deletes(2, &[3, 4, 5]), put(3, 3)],
        ),
        melds(
            "nothing-beside-a-put",
            "The keys that a record deletes counted with those that it puts: 2 takes the last room, and 3 needs none. \
             Then there is none for 5.",
            (2, 9),
            &[
                put(0, 1),
                record(1, &[Point::put(2, 1), Point::delete(3)]),
                record(2, &[Point::delete(4), Point::put(5, 1)]),
            ],
        ),
        melds(
            "nothing-old-tombstone-needs-no-room",
            "A delete of an old tombstone counted: at 4 that of 1 goes, and 2 and 3 are two.",
            (2, 1),
            &[
                puts(0, &[1, 2]),
                delete(1, 1),
                nothing(2),
                record(3, &[Point::delete(1), Point::put(3, 1)]),
                read(3, 1),
            ],
        ),
    ]
}

/// The record itself names the key.
fn own() -> Vec<Case> {
    vec![
        melds(
            "nothing-when-it-was-written",
            "A delete that goes by what it saw: 7 was absent at its snapshot, and was put since. With snapshot 2 it \
             deletes a live key, which writes.",
            (3, 9),
            &[delete(0, 7), put(1, 7), delete(1, 7), delete(2, 7), read(3, 7)],
        ),
        melds(
            "nothing-still-conflicts",
            "A delete of a tombstone that commits because it would write nothing: 7 was deleted since its snapshot. \
             With snapshot 2 it commits, and a third with snapshot 1 does not.",
            (3, 9),
            &[put(0, 7), delete(1, 7), delete(1, 7), delete(2, 7), delete(1, 7)],
        ),
        melds(
            "nothing-has-its-looks",
            "A delete of an absent key not looked for: it goes down where a read of it would, 3, 3 and 1 looks.",
            (2, 9),
            &[puts(0, &[1, 2]), delete(0, 3), delete(0, 0), delete(0, 7)],
        ),
        melds(
            "nothing-takes-a-position",
            "A record that writes nothing passed over: it commits and takes its position, also in an empty pool.",
            (1, 9),
            &[delete(0, 1), delete(1, 1), put(2, 1), read(2, 1), delete(4, 2), nothing(5)],
        ),
        melds(
            "nothing-only-if-not-live",
            "A delete of a live key that writes nothing, or takes the key out: 7 was deleted before it was put, and is \
             deleted at 3. That beats a read and a scan, and its tombstone needs room.",
            (1, 9),
            &[delete(0, 7), put(1, 7), delete(2, 7), read(2, 7), scan(2, 0, 9), put(5, 8)],
        ),
    ]
}

/// It does not make the drop happen.
fn drops() -> Vec<Case> {
    vec![
        melds(
            "nothing-drops-nothing",
            "A delete of an absent key counted for the drop: with the old tombstone of 1 the pool is full at 4, and \
             nothing is dropped. Looks tell that 1 is kept at 6.",
            (2, 1),
            &[puts(0, &[1, 8]), delete(1, 1), nothing(2), delete(3, 5), put(4, 8), read(4, 9)],
        ),
        melds(
            "nothing-at-exactly-n",
            "A delete of an absent key counted for the drop beside a put: at 4 the keys are together exactly N, and 1 \
             is kept; at 6 they are one more, and it goes.",
            (3, 1),
            &[
                puts(0, &[1, 8]),
                delete(1, 1),
                nothing(2),
                record(3, &[Point::delete(5), Point::put(9, 1)]),
                read(3, 12),
                record(5, &[Point::delete(5), Point::put(10, 1)]),
                read(5, 12),
            ],
        ),
        melds(
            "nothing-after-a-drop",
            "A delete of a key whose tombstone was dropped: 1 is absent at 4, and needs no room in a full pool.",
            (1, 1),
            &[put(0, 1), delete(1, 1), put(2, 2), delete(3, 1), read(3, 1)],
        ),
    ]
}

/// Ranges of ports that were never leased.
fn many() -> Vec<Case> {
    let keys: Vec<u32> = (1..=1_024).collect();
    vec![
        melds(
            "nothing-64-keys",
            "A range given back of which nothing was leased: 64 deletes in a pool for two keys, and a scan of the range \
             right behind them.",
            (2, 9),
            &[put(0, 100), deletes(1, &keys[..64]), scan(1, 1, 64), put(3, 200), put(4, 300)],
        ),
        melds(
            "nothing-1024-keys",
            "1,024 deletes of absent keys in a record of version 2, in a pool for two keys: they need no room and beat no \
             scan.",
            (2, 9),
            &[put(0, 5_000), deletes(1, &keys), scan(1, 0, 2_000), put(3, 7), put(4, 8)],
        ),
        melds(
            "nothing-but-two-of-65-keys",
            "65 deletes all written, or none behind the 64th: 3 and 65 are live, and only they are written.",
            (4, 9),
            &[
                puts(0, &[3, 65, 200]),
                deletes(1, &keys[..65]),
                read(1, 64),
                read(1, 65),
                read(1, 3),
                puts(5, &[300, 301]),
                put(6, 300),
            ],
        ),
    ]
}

/// What else is not live.
fn absent() -> Vec<Case> {
    vec![
        melds(
            "nothing-of-a-refused-put",
            "A delete of a key whose put was refused: 2 found no room and 3 was in conflict, so neither is live.",
            (1, 9),
            &[
                put(0, 1),
                put(1, 2),
                record(0, &[Point::read(1), Point::put(3, 1)]),
                deletes(3, &[2, 3]),
                record(3, &[Point::read(2), Point::read(3)]),
            ],
        ),
        melds(
            "nothing-the-second-time",
            "A second delete in a row that beats a put with the first in its snapshot. Put again, the key is live, and a \
             delete writes.",
            (2, 9),
            &[put(0, 7), delete(1, 7), delete(2, 7), put(2, 7), delete(4, 7), read(4, 7)],
        ),
        melds(
            "nothing-of-keys-0-and-highest",
            "Keys 0 and 4,294,967,295 taken for live, or for each other: neither was there, and neither is written.",
            (1, 9),
            &[
                put(0, 5),
                deletes(1, &[0, u32::MAX]),
                record(1, &[Point::read(0), Point::read(u32::MAX)]),
                scanning(1, &[], &[(0, 4), (6, u32::MAX)]),
                put(4, 0),
            ],
        ),
    ]
}

/// Tombstones of keys that were live, where 50, 60, 61 and 189 have none any more.
fn tombstones() -> Vec<Case> {
    let keys: Vec<u32> = (1..=70).collect();
    vec![
        melds(
            "tombstones-make-exactly-enough",
            "Old tombstones counted although they go: at 4 three old ones make room for three, not at 3.",
            (3, 2),
            &[
                puts(0, &[1, 2, 3]),
                deletes(1, &[1, 2, 3]),
                puts(2, &[4, 5, 6]),
                puts(3, &[4, 5, 6]),
                put(4, 7),
                scan(3, 0, 100),
            ],
        ),
        melds(
            "tombstones-are-leaves",
            "Tombstones left out of the tree: they are leaves like others.",
            (4, 9),
            &[puts(0, &[1, 2]), delete(1, 2), read(0, 3), read(1, 2)],
        ),
        melds(
            "tombstones-dropped-with-their-node",
            "An inner node that stays after one of its two keys is dropped: at 5 the tree has 1, 5 and 9, and no node for \
             1 and 2.",
            (3, 1),
            &[puts(0, &[1, 2, 5]), delete(1, 2), nothing(2), puts(3, &[1, 9]), scan(3, 2, 3)],
        ),
        melds(
            "tombstones-behind-64-points",
            "Deletes not stored behind the 64th point: 70 is live, and the last of 70 points deletes it.",
            (100, 9),
            &[put(0, 70), deletes(1, &keys), read(1, 70), read(1, 69)],
        ),
    ]
}
