//! The eleven rows of R44, and the eight of R55.

use emuparasol::{
    check, in_force, pool_bytes, Error, Found, Limits, Point, Pool, Record, RecordBuffer, Records,
    Scan, Verdict,
};
use reference::program::split;
use reference::table::{self, PUT_30_SCAN, READ_30, VERDICTS, VERDICTS_OF_NOTHING};

/// A new pool with the limits of both logs.
fn fresh() -> Pool<[u8; pool_bytes(table::N)]> {
    let (n, z) = (table::N, table::Z);
    Pool::create([0xEE; pool_bytes(table::N)], Limits { n, z }).expect("good limits")
}

#[test]
fn the_eleven_rows() {
    let input = table::input();
    let (_, log) = split(&input).expect("good limits");
    let mut pool = fresh();
    let mut records = Records::new(log);
    let mut place = 0;
    for (number, looks) in VERDICTS {
        assert_eq!(records.place(), place);
        let record = records.next().expect("a record").expect("a whole one");
        let melded = pool.meld(record).expect("a position");
        assert_eq!((melded.verdict.number(), melded.looks), (number, looks));
        place += record.len();
    }
    assert_eq!(records.next(), None);
    assert_eq!(records.place(), log.len());
    let found = |found: Found| (found.payload, found.position);
    let kept = [10, 20, 30, 40].map(|key| pool.lookup(key).expect("a fit pool").map(found));
    assert_eq!(kept, [Some((100, 1)), None, Some((300, 3)), Some((400, 9))]);
}

#[test]
fn the_eight_rows() {
    let mut pool = fresh();
    for (record, wanted) in table::records_of_nothing().iter().zip(VERDICTS_OF_NOTHING) {
        let melded = pool.meld(&record.to_bytes()).expect("a position");
        assert_eq!((melded.verdict.number(), melded.looks), wanted);
    }
    let found = |found: Found| (found.payload, found.position);
    let kept = [10, 15, 20, 25, 30, 40].map(|key| pool.lookup(key).expect("a fit pool").map(found));
    let (ten, thirty, forty) = (Some((100, 1)), Some((300, 4)), Some((400, 8)));
    assert_eq!(kept, [ten, None, None, None, thirty, forty]);
    let status = pool.status().expect("a fit pool");
    assert_eq!((status.kept, status.tombstones), (3, 0));
}

#[test]
fn the_two_byte_strings() {
    let mut buffer = RecordBuffer::new();
    let put = Record {
        snapshot: 1,
        points: &[Point::put(30, 300)],
        scans: &[Scan { low: 11, high: 19 }],
    };
    let read = Record {
        snapshot: 1,
        points: &[Point::read(30)],
        scans: &[],
    };
    for (bytes, record) in [(&PUT_30_SCAN[..], put), (&READ_30[..], read)] {
        assert_eq!(check(bytes), Ok(()));
        assert_eq!(buffer.read(bytes), Ok(record));
        assert_eq!(record.write(&mut [0; 40]), Ok(bytes));
    }
}

#[test]
fn a_record_that_waited() {
    let mut pool = fresh();
    let (mut one, mut other) = ([0; 14], [0; 14]);
    let refreshed = pool.refresh(&READ_30, &mut one);
    assert_eq!(refreshed, Err(Error::Ahead));
    assert_eq!(in_force(refreshed, &READ_30), Some(&READ_30[..]));
    for record in &table::records()[..2] {
        assert!(pool.meld(&record.to_bytes()).is_ok());
    }
    let refreshed = pool.refresh(&READ_30, &mut one);
    let bytes = in_force(refreshed, &READ_30).expect("a record to append");
    assert_eq!(refreshed, Ok(bytes));
    assert_eq!(bytes[..6], READ_30[..6]);
    assert_eq!(bytes[6], 2);
    assert_eq!(bytes[7..], READ_30[7..]);
    let melded = pool.meld(&table::records()[2].to_bytes());
    assert_eq!(melded.expect("a position").verdict, Verdict::Committed);
    let refreshed = pool.refresh(&READ_30, &mut other);
    assert_eq!(refreshed, Err(Error::Conflict));
    assert_eq!(in_force(refreshed, &READ_30), None);
}
