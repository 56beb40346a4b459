//! Two records as one (R56 to R58), in pairs: a log with two records one behind the other,
//! and the log with what joining makes of them. A joined record is one like any other, with
//! one position and one verdict.

use reference::joiner::joined;
use reference::table::{record, scanning};
use reference::{Point, Record};

use super::melds;
use crate::Case;

fn put(snapshot: u32, key: u32) -> Record {
    record(snapshot, &[Point::put(key, 1)])
}

fn delete(snapshot: u32, key: u32) -> Record {
    record(snapshot, &[Point::delete(key)])
}

fn read(snapshot: u32, key: u32) -> Record {
    record(snapshot, &[Point::read(key)])
}

fn nothing(snapshot: u32) -> Record {
    record(snapshot, &[])
}

/// Records, then some others behind them.
fn with(front: &[Record], middle: &[Record], behind: &[Record]) -> Vec<Record> {
    [front, middle, behind].concat()
}

/// The cases.
pub fn all() -> Vec<Case> {
    [scan_then_put(), tombstone_needed(), room_a_position_later()].concat()
}

/// b puts what a has read and scanned; their scans touch.
fn scan_then_put() -> Vec<Case> {
    let limits = (4, 9);
    let front = [record(0, &[Point::put(10, 100), Point::put(12, 120)])];
    let a = scanning(1, &[Point::read(10)], &[(11, 15)]);
    let b = scanning(1, &[Point::put(10, 101), Point::put(13, 130)], &[(16, 20)]);
    let j = joined(&a, &b);
    let behind = [
        read(1, 13),
        read(2, 13),
        read(1, 12),
        read(1, 10),
        scanning(2, &[], &[(0, 9), (11, 20)]),
    ];
    vec![
        melds(
            "one-by-one-scan-then-put",
            "What a record has read and scanned taken for written: the next one puts 10 and 13, with the same snapshot, \
             and commits at 3. 244 has the two as one.",
            limits,
            &with(&front, &[a, b], &behind),
        ),
        melds(
            "joined-scan-then-put",
            "A record refused that puts a key within its own scan, or has scans that touch: joining makes such records. \
             It writes at 2 what 243 writes at 3, so a read with snapshot 2 has seen it.",
            limits,
            &with(&front, &[j], &behind),
        ),
    ]
}

/// v − s = Z: a drops the tombstone at s, and b needs the one at s + 1.
fn tombstone_needed() -> Vec<Case> {
    let limits = (2, 4);
    let front = [
        record(0, &[Point::put(1, 1), Point::put(2, 1)]),
        delete(1, 1),
        delete(2, 2),
        nothing(3),
        nothing(4),
    ];
    let (a, b) = (put(2, 8), read(2, 2));
    let j = joined(&a, &b);
    let behind = [read(5, 8), put(5, 8), read(5, 1)];
    vec![
        melds(
            "one-by-one-tombstone-needed",
            "A tombstone dropped that is still needed: the put at 6 drops that of 1 at 2, and the read at 7 is in \
             conflict with that of 2 at 3. 246 has the two as one.",
            limits,
            &with(&front, &[a, b], &behind),
        ),
        melds(
            "joined-tombstone-needed",
            "A record that commits by halves: its put could be stored, as in 245, but its read is in conflict. So 8 is \
             not written at 6, and a put of it with snapshot 5 commits.",
            limits,
            &with(&front, &[j], &behind),
        ),
    ]
}

/// A tombstone that is too young at v and old enough at v + 1.
fn room_a_position_later() -> Vec<Case> {
    let limits = (2, 2);
    let front = [put(0, 1), delete(1, 1)];
    let (a, b) = (put(2, 2), put(2, 3));
    let j = joined(&a, &b);
    let behind = [read(3, 2), read(3, 3)];
    vec![
        melds(
            "one-by-one-room-a-position-later",
            "A tombstone counted a position too long: that of 1 leaves room for 2 at 3, and for 3 at 4. 248 has the two \
             as one.",
            limits,
            &with(&front, &[a, b], &behind),
        ),
        melds(
            "joined-room-a-position-later",
            "A tombstone dropped a position early: for both keys at once there is no room at 3, where 247 has room for \
             one, and neither is stored. The same record again at 4 finds it, and writes both there.",
            limits,
            &with(&front, &[j.clone(), j], &behind),
        ),
    ]
}
