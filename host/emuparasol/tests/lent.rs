//! Pools in bytes of every kind: owned, lent, static, of a wrong size, and of a kind
//! that hands out other bytes at each call.

mod common;

use std::cell::Cell;
use std::sync::Mutex;

use common::means;
use emuparasol::{in_force, pool_bytes, Error, Limits, Point, Pool, Record, Verdict, MOST_RECORD};
use reference::State;

const LIMITS: Limits = Limits { n: 3, z: 4 };
const SIZE: usize = pool_bytes(LIMITS.n);

/// The limits as the reference has them.
fn limits() -> reference::Limits {
    reference::Limits::new(LIMITS.n, LIMITS.z).expect("good limits")
}

/// The bytes of a record of points.
fn record(snapshot: u32, points: &[Point]) -> Vec<u8> {
    let scans = &[];
    let record = Record {
        snapshot,
        points,
        scans,
    };
    let mut output = [0; MOST_RECORD];
    record.write(&mut output).expect("a good record").to_vec()
}

/// Two puts, a conflict, a delete.
fn some_records() -> [Vec<u8>; 3] {
    [
        record(0, &[Point::put(10, 100), Point::put(20, 200)]),
        record(0, &[Point::read(20)]),
        record(2, &[Point::delete(10)]),
    ]
}

/// Melds some records, looks at what is said and kept, and gives the pool's bytes.
fn used<B: AsRef<[u8]> + AsMut<[u8]>>(pool: &mut Pool<B>) -> Vec<u8> {
    let mut state = State::new(limits());
    means(pool.as_bytes(), &state);
    for (record, verdict) in
        some_records()
            .iter()
            .zip([Verdict::Committed, Verdict::Conflict, Verdict::Committed])
    {
        let expected = state.meld(record);
        let melded = pool.meld(record).expect("a position");
        assert_eq!(melded.verdict, verdict);
        assert_eq!(melded.looks, expected.looks);
        means(pool.as_bytes(), &state);
    }
    assert_eq!(pool.lookup(10), Ok(None));
    let found = pool.lookup(20).expect("fit").expect("kept");
    assert_eq!((found.payload, found.position), (200, 1));
    pool.as_bytes().to_vec()
}

static STATIC: Mutex<Pool<[u8; SIZE]>> = Mutex::new(Pool::from_bytes([0; SIZE]));

#[test]
fn any_bytes_will_do_and_become_the_same() {
    let mut array = Pool::create([0xEE; SIZE], LIMITS).expect("good limits");
    let expected = used(&mut array);
    assert_eq!(array.as_ref(), expected);
    assert_eq!(array.into_bytes()[..], expected);

    let mut bytes = [0x11; SIZE];
    let mut lent = Pool::create(&mut bytes[..], LIMITS).expect("good limits");
    assert_eq!(used(&mut lent), expected);
    assert_eq!(bytes[..], expected);

    let boxed = vec![0x22; SIZE].into_boxed_slice();
    let mut boxed = Pool::create(boxed, LIMITS).expect("good limits");
    assert_eq!(used(&mut boxed), expected);

    let mut fixed = STATIC.lock().expect("one thread");
    assert_eq!(fixed.lookup(1), Err(Error::UnfitPool));
    assert_eq!(fixed.recreate(LIMITS), Ok(()));
    assert_eq!(used(&mut fixed), expected);

    // Bytes that are only shown can be asked.
    let shown = Pool::from_bytes(&expected[..]);
    assert_eq!(shown.status().map(|it| it.position), Ok(3));
    assert_eq!(shown.lookup(10), Ok(None));
    let waited = record(3, &[Point::read(20)]);
    assert_eq!(shown.refresh(&waited, &mut [0; 14]), Ok(&waited[..]));
    let explained = shown.explain(&waited).expect("fit");
    assert_eq!(explained.verdict, Verdict::Committed);

    // Bytes taken over are the pool that they were.
    let mut taken = Pool::from_bytes(expected.clone());
    assert_eq!(taken.lookup(10), Ok(None));
    assert!(matches!(taken.lookup(20), Ok(Some(found)) if found.payload == 200));
    assert_eq!(taken.as_bytes(), expected);
    assert_eq!(taken.recreate(LIMITS), Ok(()));
    means(taken.as_bytes(), &State::new(limits()));
    assert_eq!(used(&mut taken), expected);
}

#[test]
fn n_and_z_are_not_exchanged() {
    let z = 7;
    for (n, size) in [(1, 128), (7, 512), (8, 576)] {
        let limits = Limits { n, z };
        assert_eq!(pool_bytes(n), size);
        let pool = Pool::create(vec![0; size], limits).expect("good limits");
        let good = reference::Limits::new(n, z).expect("good limits");
        means(pool.as_bytes(), &State::new(good));
        assert_eq!(pool.status().expect("fit").limits, limits);
    }
    let refused = Pool::create(vec![0; pool_bytes(7)], Limits { n: 1, z: 7 });
    assert_eq!(refused.err(), Some(Error::BadLimits));
}

#[test]
fn the_size_for_any_number_of_keys() {
    for n in [
        0,
        1,
        2,
        1_000,
        65_535,
        65_536,
        1 << 26,
        u32::MAX - 1,
        u32::MAX,
    ] {
        assert_eq!(pool_bytes(n) as u64, 64 + 64 * u64::from(n));
    }
}

#[test]
fn a_pool_of_a_wrong_size_is_refused_and_left_alone() {
    for size in [0, 1, 63, 64, SIZE - 64, SIZE - 1, SIZE + 1, SIZE + 64] {
        let mut bytes = vec![0xEE; size];
        let refused = Pool::create(&mut bytes[..], LIMITS);
        assert_eq!(refused.err(), Some(Error::BadLimits));
        let mut pool = Pool::from_bytes(&mut bytes[..]);
        assert_eq!(pool.recreate(LIMITS), Err(Error::BadLimits));
        let record = &some_records()[0];
        assert_eq!(pool.status(), Err(Error::UnfitPool));
        assert_eq!(pool.lookup(10), Err(Error::UnfitPool));
        assert_eq!(pool.meld(record), Err(Error::UnfitPool));
        assert_eq!(pool.explain(record), Err(Error::UnfitPool));
        let mut output = [0xC3; 60];
        let refreshed = pool.refresh(record, &mut output);
        assert_eq!(refreshed, Err(Error::UnfitPool));
        assert_eq!(in_force(refreshed, record), None);
        assert_eq!(output, [0xC3; 60]);
        assert_eq!(bytes, vec![0xEE; size]);
    }
}

#[test]
fn verdicts_take_a_position_and_errors_do_not() {
    let mut pool = Pool::create([0; SIZE], LIMITS).expect("good limits");
    let position = |pool: &Pool<[u8; SIZE]>| pool.status().expect("fit").position;
    let puts: Vec<Point> = (1..=4).map(|key| Point::put(key, 1)).collect();
    let rows = [
        (record(0, &puts[..3]), Verdict::Committed, 0),
        (record(0, &puts[..1]), Verdict::Conflict, 2),
        (record(2, &puts[3..]), Verdict::NoRoom, 1),
        (record(9, &puts[..1]), Verdict::Ahead, 0),
        (b"neither".to_vec(), Verdict::Malformed, 0),
        (record(0, &puts[..1]), Verdict::TooOld, 0),
    ];
    for (taken, (record, verdict, looks)) in rows.iter().enumerate() {
        assert_eq!(position(&pool) as usize, taken);
        let explained = pool.explain(record).expect("a position");
        assert_eq!((explained.verdict, explained.looks), (*verdict, *looks));
        let melded = pool.meld(record).expect("a position");
        assert_eq!((melded.verdict, melded.looks), (*verdict, *looks));
        assert_eq!(verdict.committed().is_ok(), taken == 0);
    }
    assert_eq!(position(&pool), 6);

    let mut bytes = *Pool::create([0; SIZE], LIMITS)
        .expect("good limits")
        .as_bytes()
        .first_chunk::<SIZE>()
        .expect("all");
    bytes[12..16].copy_from_slice(&u32::MAX.to_be_bytes());
    let mut pool = Pool::from_bytes(bytes);
    assert_eq!(pool.meld(&rows[0].0), Err(Error::PositionsUsedUp));
    assert_eq!(pool.explain(&rows[0].0), Err(Error::PositionsUsedUp));
    assert_eq!(pool.as_bytes(), bytes);
    bytes[0] ^= 1;
    let mut pool = Pool::from_bytes(bytes);
    assert_eq!(pool.meld(&rows[0].0), Err(Error::UnfitPool));
    assert_eq!(pool.into_bytes(), bytes);
}

/// Bytes that are others at each call, and shorter ones: what no kind should do.
struct Fickle {
    bytes: [u8; SIZE],
    calls: Cell<usize>,
}

impl Fickle {
    fn length(&self) -> usize {
        self.calls.set(self.calls.get() + 1);
        match self.calls.get() % 3 {
            0 => SIZE,
            1 => SIZE / 2,
            _ => 0,
        }
    }
}

impl AsRef<[u8]> for Fickle {
    fn as_ref(&self) -> &[u8] {
        &self.bytes[..self.length()]
    }
}

impl AsMut<[u8]> for Fickle {
    fn as_mut(&mut self) -> &mut [u8] {
        let length = self.length();
        &mut self.bytes[..length]
    }
}

#[test]
fn fickle_bytes_are_answered() {
    let (bytes, calls) = ([0; SIZE], Cell::new(2));
    let mut pool = Pool::create(Fickle { bytes, calls }, LIMITS).expect("the whole bytes");
    let records = some_records();
    let mut output = [0; 60];
    let mut said = [0; 12];
    for turn in 0..60 {
        let number = match turn % 5 {
            0 if turn % 3 == 0 => common::number(&pool.explain(&records[0])),
            0 if turn % 2 == 0 => common::number(&pool.status()),
            0 => common::number(&pool.lookup(10)),
            1 => match pool.meld(&records[turn % 3]) {
                Ok(melded) => melded.verdict.number(),
                Err(error) => error.number(),
            },
            2 => common::number(&pool.refresh(&records[0], &mut output)),
            3 => u8::from(format!("{pool:?}").is_empty()),
            _ => common::number(&pool.recreate(LIMITS)),
        };
        said[usize::from(number)] += 1;
    }
    assert!(said[0] > 5 && said[7] > 5 && said[9] > 5, "{said:?}");
}

#[test]
fn a_pool_is_printed_by_its_length() {
    let pool = Pool::from_bytes([7; 100]);
    assert_eq!(format!("{pool:?}"), "Pool { length: 100 }");
}

#[test]
fn in_force_by_answer() {
    let original = record(3, &[Point::read(1)]);
    let refreshed = record(5, &[Point::read(1)]);
    let behind = [&refreshed[..], &[1, 2, 3]].concat();
    assert_eq!(in_force(Ok(&behind), &original), Some(&refreshed[..]));
    // No record stands there: the end, a torn log, an impossible length.
    assert_eq!(in_force(Ok(&[]), &original), None);
    for end in 1..refreshed.len() {
        assert_eq!(in_force(Ok(&refreshed[..end]), &original), None);
    }
    for length in [0, 6, 13_834, u16::MAX] {
        let mut wrong = vec![0; 2 + usize::from(length)];
        wrong[..2].copy_from_slice(&length.to_be_bytes());
        assert_eq!(in_force(Ok(&wrong), &original), None, "{length}");
        assert_eq!(in_force(Ok(&wrong[..2]), &original), None, "{length}");
    }
    for number in 1..=255 {
        let error = Error::from_number(number).expect("a refusal");
        let expected = (error == Error::Ahead).then_some(&original[..]);
        assert_eq!(in_force(Err(error), &original), expected, "{error}");
    }
}
