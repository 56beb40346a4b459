//! The log to check by (R44), and the mistakes made most often.

use reference::table::{self, record, scanning};
use reference::{Point, Record};

use super::melds;
use crate::Case;

/// The rows of the log to check by up to one, then another record.
fn rows_then(rows: usize, next: Record) -> Vec<Record> {
    let mut records = table::records();
    records.truncate(rows);
    records.push(next);
    records
}

/// The cases.
pub fn all() -> Vec<Case> {
    let limits = (table::N, table::Z);
    vec![
        melds(
            "little-endian-snapshot",
            "The snapshot read little-endian: 1 becomes 16,777,216. Clamped to p it makes every \
             zone empty, so the third record commits; not clamped, all but the first answer 5.",
            limits,
            &[
                record(0, &[Point::put(10, 100)]),
                record(1, &[Point::put(20, 200)]),
                record(1, &[Point::read(20)]),
                record(1, &[Point::read(10)]),
            ],
        ),
        melds(
            "document",
            "The log to check by, whole: eleven records with every answer from 0 to 5.",
            limits,
            &table::records(),
        ),
        melds(
            "absent-read",
            "Reads of absent keys left out: the second record reads 30, which was not there at \
             its snapshot and was written since.",
            limits,
            &[
                record(0, &[Point::put(30, 300)]),
                record(0, &[Point::read(30)]),
                record(1, &[Point::read(30)]),
            ],
        ),
        melds(
            "aborted-writer",
            "An aborted record counted as a writer: the second aborts, so a read of 10 with \
             snapshot 1 passes.",
            limits,
            &rows_then(2, record(1, &[Point::read(10)])),
        ),
        melds(
            "tombstone-never-dropped",
            "A tombstone never dropped, or dropped a position late: at 9 the tombstone of 5 has \
             its age (5 + 4 = 9) and makes room.",
            limits,
            &rows_then(8, record(8, &[Point::put(40, 400)])),
        ),
        melds(
            "tombstone-dropped-early",
            "A tombstone dropped a position early: at 8 the tombstone of 5 still counts.",
            limits,
            &rows_then(7, record(7, &[Point::put(40, 400)])),
        ),
        melds(
            "two-byte-strings",
            "The records of rows 4 and 3 of the log to check by, byte by byte, in another log: both commit.",
            limits,
            &[
                record(0, &[Point::put(10, 100)]),
                record(1, &[Point::read(30)]),
                scanning(1, &[Point::put(30, 300)], &[(11, 19)]),
            ],
        ),
    ]
}
