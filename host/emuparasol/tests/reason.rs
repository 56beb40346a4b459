//! The reason of an answer (R50), against the reference and by hand.

mod common;

use common::{explain, explain_both, fresh, meld_both, seeded};
use emuparasol::{Error, Pool, Reason, Touch, Verdict};
use reference::random::Random;
use reference::table::{self, record};
use reference::{Limits, Point, Record, Scan, State};

/// No reason.
const NONE: [u64; 6] = [0; 6];

/// The limits of R44.
fn limits() -> Limits {
    Limits::new(table::N, table::Z).expect("good limits")
}

/// Puts of these keys at position 1, in a pool for 3 keys.
fn put(keys: &[u32]) -> (Vec<u8>, State) {
    let (mut pool, mut state) = (fresh(limits()), State::new(limits()));
    let points: Vec<Point> = keys.iter().map(|&key| Point::put(key, 7)).collect();
    let record = record(0, &points).to_bytes();
    assert_eq!(meld_both(&mut pool, &mut state, &record).number(), 0);
    (pool, state)
}

#[test]
fn the_eleven_rows() {
    let (mut pool, mut state) = (fresh(limits()), State::new(limits()));
    // Key, position, point, scan, lag and keys of each.
    let reasons = [
        NONE,
        [10, 1, 1, 0, 0, 0],
        NONE,
        [30, 3, 1, 0, 0, 0],
        NONE,
        [0, 0, 0, 0, 0, 4],
        [20, 5, 1, 0, 0, 0],
        [0, 0, 0, 0, 5, 0],
        NONE,
        NONE,
        NONE,
    ];
    for (record, reason) in table::records().iter().zip(reasons) {
        let bytes = record.to_bytes();
        assert_eq!(explain_both(&pool, &state, &bytes), reason);
        meld_both(&mut pool, &mut state, &bytes);
    }
}

#[test]
fn the_eight_rows() {
    let (mut pool, mut state) = (fresh(limits()), State::new(limits()));
    for (index, record) in table::records_of_nothing().iter().enumerate() {
        let bytes = record.to_bytes();
        let reason = match index {
            4 => [20, 4, 1, 0, 0, 0],
            _ => NONE,
        };
        assert_eq!(explain_both(&pool, &state, &bytes), reason);
        meld_both(&mut pool, &mut state, &bytes);
    }
}

#[test]
fn logs_from_seeds() {
    let (mut points, mut scans, mut old, mut full) = (0, 0, 0, 0);
    for seed in 0..260 {
        let Some((limits, records)) = seeded(seed) else {
            continue;
        };
        let mut random = Random::new(seed);
        let (mut pool, mut state) = (fresh(limits), State::new(limits));
        for record in records.iter().take(400) {
            let other = &records[random.below(records.len())];
            for asked in [record, other] {
                let [_, _, point, scan, lag, keys] = explain_both(&pool, &state, asked);
                points += u32::from(point > 0);
                scans += u32::from(scan > 0);
                old += u32::from(lag > 0);
                full += u32::from(keys > 0);
            }
            meld_both(&mut pool, &mut state, record);
        }
    }
    let told = [points, scans, old, full];
    assert!(told.iter().all(|&count| count > 100), "{told:?}");
}

#[test]
fn the_point_comes_before_the_scan_and_the_smallest_key_before_both() {
    let (pool, state) = put(&[0, 20, u32::MAX]);
    let asked = |points: &[u32], scans: &[(u32, u32)]| {
        let record = Record {
            snapshot: 0,
            points: points.iter().map(|&key| Point::read(key)).collect(),
            scans: scans
                .iter()
                .map(|&(low, high)| Scan { low, high })
                .collect(),
        };
        explain_both(&pool, &state, &record.to_bytes())
    };
    let all = (0, u32::MAX);
    assert_eq!(asked(&[0], &[all]), [0, 1, 1, 0, 0, 0]);
    assert_eq!(asked(&[5, 20], &[all]), [0, 1, 0, 1, 0, 0]);
    assert_eq!(asked(&[5, 20], &[(7, 25)]), [20, 1, 2, 0, 0, 0]);
    assert_eq!(asked(&[5, 25], &[(7, 9), (20, 20)]), [20, 1, 0, 2, 0, 0]);
    assert_eq!(
        asked(&[u32::MAX], &[(1, 19)]),
        [u64::from(u32::MAX), 1, 1, 0, 0, 0]
    );
    assert_eq!(asked(&[1, 21], &[(2, 19), (22, u32::MAX - 1)]), NONE);
}

#[test]
fn the_last_position_has_no_reason() {
    let (mut pool, _) = put(&[1]);
    let read = record(0, &[Point::read(1)]).to_bytes();
    assert_eq!(explain(&pool, &read), (1, 1, [1, 1, 1, 0, 0, 0]));
    pool[12..16].copy_from_slice(&u32::MAX.to_be_bytes());
    assert_eq!(explain(&pool, &read), (6, 0, NONE));
    pool[12..16].copy_from_slice(&(u32::MAX - 1).to_be_bytes());
    let lag = u64::from(u32::MAX - 1);
    assert_eq!(explain(&pool, &read), (2, 0, [0, 0, 0, 0, lag, 0]));
}

#[test]
fn in_words() {
    let (pool, _) = put(&[10, 20, 30]);
    let pool = Pool::from_bytes(pool);
    let says = |snapshot, points: &[Point]| {
        let explained = pool.explain(&record(snapshot, points).to_bytes());
        explained.map(|explained| explained.to_string())
    };
    let said = |words: &str| Ok::<_, Error>(words.to_string());
    let beaten =
        "conflict: record 1 wrote key 20 after this record's snapshot, and point 2 names it";
    assert_eq!(says(0, &[Point::read(5), Point::delete(20)]), said(beaten));
    let full = "no room: 4 keys would have to be kept, more than N";
    assert_eq!(says(1, &[Point::put(40, 1)]), said(full));
    assert_eq!(says(1, &[Point::read(10)]), said("committed"));
    assert_eq!(says(2, &[Point::read(10)]), said("ahead"));
    let reason = Reason::TooOld { lag: 5 };
    assert_eq!(
        reason.to_string(),
        "its snapshot is 5 positions back, more than Z"
    );
    assert_eq!(
        format!("{} {}", Touch::Point(3), Touch::Scan(8)),
        "point 3 scan 8"
    );
    let explained = pool.explain(b"no record").expect("fit");
    assert_eq!(
        (explained.verdict, explained.reason),
        (Verdict::Malformed, None)
    );
    assert_eq!(format!("{explained:>12}"), "   malformed");
}
