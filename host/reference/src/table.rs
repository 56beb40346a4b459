//! The log to check by, R44: its eleven records, and two of them byte by byte; and the
//! eight of R55, which delete nothing.

use crate::program::join;
use crate::record::{Point, Record, Scan};

/// N of both logs.
pub const N: u32 = 3;
/// Z of both logs.
pub const Z: u32 = 4;

/// The answers and looks of the eleven rows.
pub const VERDICTS: [(u8, u32); 11] = [
    (0, 0),
    (1, 2),
    (0, 1),
    (1, 5),
    (0, 1),
    (3, 1),
    (1, 4),
    (2, 0),
    (0, 1),
    (5, 0),
    (0, 1),
];

/// The answers and looks of the eight rows.
pub const VERDICTS_OF_NOTHING: [(u8, u32); 8] = [
    (0, 0),
    (0, 1),
    (0, 1),
    (0, 1),
    (1, 4),
    (0, 1),
    (0, 1),
    (0, 1),
];

/// Snapshot 1, read 30.
pub const READ_30: [u8; 14] = [
    0x00, 0x0C, 0x01, 0x00, 0x00, 0x00, 0x01, 0x01, 0x00, 0x01, 0x00, 0x00, 0x00, 0x1E,
];

/// Snapshot 1, put 30 = 300, scan 11 to 19.
pub const PUT_30_SCAN: [u8; 30] = [
    0x00, 0x1C, 0x01, 0x00, 0x00, 0x00, 0x01, 0x01, 0x01, 0x02, 0x00, 0x00, 0x00, 0x1E, 0x00, 0x00,
    0x00, 0x00, 0x00, 0x00, 0x01, 0x2C, 0x00, 0x00, 0x00, 0x0B, 0x00, 0x00, 0x00, 0x13,
];

/// A record of points only.
pub fn record(snapshot: u32, points: &[Point]) -> Record {
    scanning(snapshot, points, &[])
}

/// A record of points and scans.
pub fn scanning(snapshot: u32, points: &[Point], scans: &[(u32, u32)]) -> Record {
    let scans = scans.iter().map(|&(low, high)| Scan { low, high });
    Record {
        snapshot,
        points: points.to_vec(),
        scans: scans.collect(),
    }
}

/// The eleven records of the log to check by.
pub fn records() -> Vec<Record> {
    vec![
        record(0, &[Point::put(10, 100), Point::put(20, 200)]),
        record(0, &[Point::put(10, 5), Point::read(30)]),
        scanning(1, &[Point::put(30, 300)], &[(11, 19)]),
        record(1, &[Point::read(30)]),
        record(3, &[Point::delete(20)]),
        record(5, &[Point::put(40, 400)]),
        record(2, &[Point::read(20)]),
        record(2, &[Point::read(20)]),
        record(8, &[Point::put(40, 400)]),
        record(12, &[Point::read(10)]),
        record(10, &[]),
    ]
}

/// The eight records of R55.
pub fn records_of_nothing() -> Vec<Record> {
    vec![
        record(0, &[Point::put(10, 100), Point::put(20, 200)]),
        record(1, &[Point::delete(15)]),
        scanning(1, &[], &[(11, 19)]),
        record(3, &[Point::delete(20), Point::put(30, 300)]),
        record(3, &[Point::delete(20)]),
        record(5, &[Point::delete(25)]),
        record(6, &[Point::delete(20)]),
        record(7, &[Point::put(40, 400)]),
    ]
}

/// The bytes of records back to back, whether or not they keep the rules.
pub fn log(records: &[Record]) -> Vec<u8> {
    records.iter().flat_map(Record::to_bytes).collect()
}

/// The log to check by as the program reads it.
pub fn input() -> Vec<u8> {
    input_of(records())
}

/// The log of R55 as the program reads it.
pub fn input_of_nothing() -> Vec<u8> {
    input_of(records_of_nothing())
}

/// Rows with the limits of both logs.
fn input_of(rows: Vec<Record>) -> Vec<u8> {
    let written = |record: Record| record.written().expect("the rows keep the rules");
    let log: Vec<u8> = rows.into_iter().flat_map(written).collect();
    join(N, Z, &log)
}
