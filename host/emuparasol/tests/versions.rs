//! The two versions of a record (R53): which one the counts give, where the one ends and
//! the other begins, and records of version 2 written, read, melded, explained and
//! refreshed.

mod common;

use common::raw::{self, Lists};
use common::{
    check, explain_both, fresh, full_buffer, lookup_both, meld, meld_both, refresh_both,
    same_record,
};
use emuparasol::{Error, Pool, RecordBuffer, Records, Verdict};
use emuparasol::{LEAST_RECORD, MOST_POINTS, MOST_RECORD, MOST_SCANS};
use reference::random::Random;
use reference::record::with_length;
use reference::{Answer, Kind, Limits, Point, Record, Scan, State};

/// Numbers of points and scans on both sides of every limit, and the version that they
/// give; 0 where no record has so many.
const COUNTS: [(u32, u32, u8); 18] = [
    (0, 0, 1),
    (1, 0, 1),
    (64, 0, 1),
    (0, 8, 1),
    (64, 8, 1),
    (65, 0, 2),
    (65, 8, 2),
    (0, 9, 2),
    (64, 9, 2),
    (255, 0, 2),
    (256, 63, 2),
    (1_024, 0, 2),
    (0, 64, 2),
    (1_024, 64, 2),
    (1_025, 0, 0),
    (0, 65, 0),
    (1_024, 65, 0),
    (1_025, 64, 0),
];

/// So many points and scans: reads, puts and deletes in turn, and no number is 0.
fn record(points: u32, scans: u32) -> Record {
    let point = |key| match key % 3 {
        0 => Point::read(key),
        1 => Point::put(key, u64::MAX - u64::from(key)),
        _ => Point::delete(key),
    };
    let scan = |low| Scan { low, high: low + 1 };
    Record {
        snapshot: 0x0102_0304,
        points: (1..=points).map(|at| point(7 * at)).collect(),
        scans: (1..=scans).map(|at| scan(1_000_000 * at)).collect(),
    }
}

/// The bytes of R4 in a version, whether or not it is the right one.
fn in_version(version: u8, record: &Record) -> Vec<u8> {
    let counts = [record.points.len(), record.scans.len()].map(|count| count as u16);
    let mut body = vec![version];
    body.extend(record.snapshot.to_be_bytes());
    for count in counts.map(u16::to_be_bytes) {
        body.extend(if version == 1 { &count[1..] } else { &count });
    }
    for point in &record.points {
        let (kind, payload) = match point.kind {
            Kind::Read => (1, None),
            Kind::Put(payload) => (2, Some(payload)),
            Kind::Delete => (3, None),
        };
        body.push(kind);
        body.extend(point.key.to_be_bytes());
        body.extend(payload.into_iter().flat_map(u64::to_be_bytes));
    }
    for scan in &record.scans {
        body.extend(scan.low.to_be_bytes());
        body.extend(scan.high.to_be_bytes());
    }
    with_length(&body)
}

/// The crate's points and scans of a record.
fn typed(record: &Record) -> (Vec<emuparasol::Point>, Vec<emuparasol::Scan>) {
    (
        record.points.iter().map(common::point).collect(),
        record.scans.iter().map(common::scan).collect(),
    )
}

/// Writes it by the types into so much room: the answer and the output.
fn written(record: &Record, room: usize) -> (u8, Vec<u8>) {
    let (points, scans) = typed(record);
    let record = emuparasol::Record {
        snapshot: record.snapshot,
        points: &points,
        scans: &scans,
    };
    common::write(&record, room)
}

/// The lists of R10 that name a record.
fn lists(record: &Record) -> Lists {
    let mut lists = Lists {
        kinds: Vec::new(),
        keys: Vec::new(),
        payloads: Vec::new(),
        lows: record.scans.iter().map(|scan| scan.low).collect(),
        highs: record.scans.iter().map(|scan| scan.high).collect(),
    };
    for point in &record.points {
        let (kind, payload) = match point.kind {
            Kind::Read => (1, 0),
            Kind::Put(payload) => (2, payload),
            Kind::Delete => (3, 0),
        };
        lists.kinds.push(kind);
        lists.keys.push(point.key);
        lists.payloads.push(payload);
    }
    lists
}

/// Lists of this length to be read into.
fn room(points: usize, scans: usize) -> Lists {
    Lists {
        kinds: vec![9; points],
        keys: vec![9; points],
        payloads: vec![9; points],
        lows: vec![9; scans],
        highs: vec![9; scans],
    }
}

#[test]
fn the_counts_decide_the_version() {
    for (points, scans, version) in COUNTS {
        let record = record(points, scans);
        let mut output = vec![0xC3; MOST_RECORD];
        let (answer, size) = raw::write(record.snapshot, &lists(&record), &mut output);
        if version == 0 {
            assert_eq!((answer, size), (4, 0), "{points} {scans}");
            assert_eq!(output, vec![0xC3; MOST_RECORD]);
            for room in [0, 100, MOST_RECORD, 20_000] {
                assert_eq!(written(&record, room).0, 4, "{points} {scans}");
            }
            continue;
        }
        let bytes = in_version(version, &record);
        assert_eq!((answer, &output[..size]), (0, &bytes[..]));
        assert_eq!(written(&record, size), (0, bytes.clone()));
        assert_eq!(written(&record, size - 1).0, 8);
        assert_eq!(check(&bytes), 0);
        // There and back, by the lists and by the types.
        let mut read = room(record.points.len(), record.scans.len());
        let told = raw::read(&bytes, &mut read);
        let counts = (record.points.len(), record.scans.len());
        assert_eq!(told, (0, record.snapshot, counts.0, counts.1));
        assert_eq!(read, lists(&record));
        let mut buffer = full_buffer();
        assert!(buffer
            .read(&bytes)
            .is_ok_and(|found| same_record(&found, &record)));
        assert!(same_record(&buffer.record(), &record));
    }
}

#[test]
fn the_shortest_and_the_longest() {
    let puts = |points: u32, scans: u32| {
        let mut record = record(0, scans);
        record.points = (0..points).map(|key| Point::put(key, 1)).collect();
        written(&record, MOST_RECORD + 1)
    };
    let size = |(answer, output): (u8, Vec<u8>)| {
        assert_eq!(answer, 0);
        2 + usize::from(u16::from_be_bytes([output[0], output[1]]))
    };
    assert_eq!(size(puts(0, 0)), LEAST_RECORD);
    assert_eq!(size(puts(64, 8)), 905);
    assert_eq!(size(puts(0, 9)), 83);
    assert_eq!(size(puts(65, 0)), 11 + 65 * 13);
    assert_eq!(size(puts(1_024, 64)), MOST_RECORD);
    assert_eq!(MOST_RECORD, 2 + 9 + 1_024 * 13 + 64 * 8);
}

#[test]
fn the_other_version_is_malformed() {
    for (points, scans, version) in COUNTS {
        let record = record(points, scans);
        for other in [0, 1, 2, 3, 255] {
            // A version 1 has a byte for each count: 65 can be said there, 256 not.
            let said = other != 1 || points < 256;
            if other == version || !said {
                continue;
            }
            let bytes = in_version(other, &record);
            assert_eq!(check(&bytes), 4, "{points} {scans} in {other}");
            let mut lists = room(2_000, 100);
            assert_eq!(raw::read(&bytes, &mut lists), (4, 0, 0, 0));
            assert_eq!(lists, room(2_000, 100));
            let mut buffer = full_buffer();
            assert_eq!(buffer.read(&bytes), Err(Error::Malformed));
            assert_eq!(buffer.record(), full_buffer().record());
            let mut small = RecordBuffer::<3, 1>::with_room();
            assert_eq!(small.read(&bytes), Err(Error::Malformed));
        }
    }
}

#[test]
fn every_bit_of_the_head_flipped() {
    for (points, scans) in [(65, 0), (0, 9), (64, 9), (300, 20), (1_024, 64)] {
        let bytes = in_version(2, &record(points, scans));
        for bit in 0..8 * 20 {
            let mut flipped = bytes.clone();
            flipped[bit / 8] ^= 1 << (bit % 8);
            let valid = Record::parse(&flipped);
            assert_eq!(check(&flipped), if valid.is_ok() { 0 } else { 4 });
            let mut buffer = full_buffer();
            match (buffer.read(&flipped), valid) {
                (Ok(found), Ok(valid)) => assert!(same_record(&found, &valid)),
                (found, valid) => assert!(found.is_err() && valid.is_err()),
            }
        }
        for less in [1, 2, 8, 13, bytes.len() - 12, bytes.len() - 9] {
            assert_eq!(check(&bytes[..bytes.len() - less]), 4);
            assert_eq!(check(&with_length(&bytes[2..bytes.len() - less])), 4);
        }
        assert_eq!(check(&with_length(&[&bytes[2..], &[0]].concat())), 4);
    }
}

#[test]
fn a_long_record_of_version_1_is_cut_out_and_malformed() {
    let limits = Limits::new(3, 4).expect("good limits");
    for length in [904, 905, 1_000, 13_832, 13_833] {
        let mut body = vec![0; length];
        body[0] = 1;
        let bytes = with_length(&body);
        let log = [&bytes[..], &in_version(1, &record(0, 0))].concat();
        let parts: Vec<_> = Records::new(&log).collect();
        assert_eq!(parts.len(), 2, "{length}");
        assert_eq!(parts[0], Ok(&bytes[..]));
        assert_eq!(check(&bytes), 4);
        let mut pool = fresh(limits);
        assert_eq!(meld(&mut pool, &bytes), (4, 0));
        assert_eq!(common::status(&pool).1[2], 1);
    }
}

#[test]
fn random_records_of_version_2_there_and_back() {
    let mut random = Random::new(31);
    let mut buffer = full_buffer();
    for _ in 0..300 {
        let record = some_record(&mut random, 1 << 20, 0);
        let bytes = record.written().expect("it keeps the rules");
        assert_eq!(written(&record, bytes.len()), (0, bytes.clone()));
        assert!(buffer
            .read(&bytes)
            .is_ok_and(|found| same_record(&found, &record)));
        let again = buffer.record();
        let mut output = vec![0; bytes.len()];
        assert_eq!(again.write(&mut output), Ok(&bytes[..]));
    }
}

/// A record of either version over so many keys, more often of version 2.
fn some_record(random: &mut Random, keys: usize, snapshot: u32) -> Record {
    let points = random.pick(&[0, 3, 64, 65, 100, 300, 1_024]);
    let scans = random.pick(&[0, 0, 1, 8, 9, 30, 64]);
    let spread = |count: usize, random: &mut Random| {
        let mut some: Vec<u32> = (0..count).map(|_| random.below(keys) as u32).collect();
        some.sort_unstable();
        some.dedup();
        some
    };
    let writes = random.pick(&[5, 50, 100]);
    let points = spread(points, random)
        .into_iter()
        .map(|key| match random.percent(writes) {
            false => Point::read(key),
            true if random.percent(80) => Point::put(key, random.bits()),
            true => Point::delete(key),
        })
        .collect();
    let scans = spread(scans, random)
        .into_iter()
        .map(|low| Scan { low, high: low })
        .collect();
    Record {
        snapshot,
        points,
        scans,
    }
}

#[test]
fn a_buffer_has_room_for_what_it_says() {
    fn tried<const POINTS: usize, const SCANS: usize>() {
        let mut buffer = Box::new(RecordBuffer::<POINTS, SCANS>::with_room());
        assert_eq!(buffer.record(), emuparasol::Record::default());
        for (points, scans, version) in COUNTS {
            if version == 0 {
                continue;
            }
            let record = record(points, scans);
            let before = format!("{buffer:?}");
            let fits = record.points.len() <= POINTS && record.scans.len() <= SCANS;
            match buffer.read(&in_version(version, &record)) {
                Ok(found) => assert!(fits && same_record(&found, &record)),
                Err(error) => {
                    assert_eq!((fits, error), (false, Error::OutputShort));
                    assert_eq!(format!("{buffer:?}"), before);
                }
            }
        }
    }
    tried::<0, 0>();
    tried::<1, 0>();
    tried::<63, 7>();
    tried::<64, 8>();
    tried::<65, 8>();
    tried::<64, 9>();
    tried::<1_024, 0>();
    tried::<0, 64>();
    tried::<1_023, 63>();
    tried::<MOST_POINTS, MOST_SCANS>();
    tried::<2_000, 100>();
}

#[test]
fn short_lists_do_for_short_records() {
    for (points, scans, version) in COUNTS {
        if version == 0 {
            continue;
        }
        let mut lists = room(64, 8);
        let answer = raw::read(&in_version(version, &record(points, scans)), &mut lists).0;
        assert_eq!(answer, if version == 1 { 0 } else { 8 }, "{points} {scans}");
    }
}

#[test]
fn melded_explained_and_refreshed() {
    let mut random = Random::new(32);
    let (mut answers, mut refreshed) = ([0; 12], [0; 12]);
    for (n, z, keys) in [
        (1_200, 8, 2_500),
        (3_000, 200, 1_500),
        (65_536, 4_096, 40_000),
    ] {
        let limits = Limits::new(n, z).expect("good limits");
        let (mut pool, mut state) = (fresh(limits), State::new(limits));
        for position in 0..40_u32 {
            let back = random.pick(&[0, 0, 0, 1, 3, 12]);
            let snapshot = position.saturating_sub(back) + random.pick(&[0, 0, 0, 0, 0, 0, 0, 1]);
            let record = some_record(&mut random, keys, snapshot);
            let bytes = record.to_bytes();
            for room in [bytes.len(), bytes.len() - 1, MOST_RECORD] {
                let answer = refresh_both(&pool, &state, &bytes, room);
                refreshed[usize::from(answer.number())] += 1;
            }
            let mut output = vec![0; MOST_RECORD];
            if let Ok(refreshed) = Pool::from_bytes(&pool[..]).refresh(&bytes, &mut output) {
                // Its version and all else but the snapshot are as they were.
                let expected = Record {
                    snapshot: position,
                    ..record.clone()
                };
                assert_eq!(refreshed, expected.to_bytes());
                assert_eq!(refreshed[2], bytes[2]);
            }
            explain_both(&pool, &state, &bytes);
            let looks = common::explain(&pool, &bytes).1 as usize;
            assert!(looks <= 65 + 64 * (record.points.len() + 2 * record.scans.len()));
            let answer = meld_both(&mut pool, &mut state, &bytes);
            answers[usize::from(answer.number())] += 1;
            for key in record.points.iter().step_by(40).map(|point| point.key) {
                lookup_both(&pool, &state, key);
            }
        }
    }
    assert!(
        [0, 1, 2, 3, 5].iter().all(|&it| answers[it] > 1),
        "{answers:?}"
    );
    assert!(
        [0, 1, 2, 5, 8].iter().all(|&it| refreshed[it] > 1),
        "{refreshed:?}"
    );
}

#[test]
fn the_fullest_record_commits() {
    let limits = Limits::new(1_024, 1).expect("good limits");
    let (mut pool, mut state) = (fresh(limits), State::new(limits));
    let mut record = record(0, 64);
    record.snapshot = 0;
    record.points = (0..1_024).map(|key| Point::put(3 * key, 5)).collect();
    let bytes = record.to_bytes();
    assert_eq!(bytes.len(), MOST_RECORD);
    let answer = meld_both(&mut pool, &mut state, &bytes);
    assert_eq!(answer, Answer::Committed);
    // Again, with a snapshot that has seen it; and without: the first key is in conflict.
    record.snapshot = 1;
    let answer = meld_both(&mut pool, &mut state, &record.to_bytes());
    assert_eq!(answer, Answer::Committed);
    let told = explain_both(&pool, &state, &record.to_bytes());
    assert_eq!(told, [0, 2, 1, 0, 0, 0]);
    // A key more than there is room for.
    record.snapshot = 2;
    record.points[1_023].key += 1;
    let explained = Pool::from_bytes(&pool[..]).explain(&record.to_bytes());
    assert!(explained.is_ok_and(|it| it.verdict == Verdict::NoRoom));
    let told = explain_both(&pool, &state, &record.to_bytes());
    assert_eq!(told, [0, 0, 0, 0, 0, 1_025]);
}
