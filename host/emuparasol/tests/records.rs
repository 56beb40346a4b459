//! Records: check, read, write and cut against the reference, on records of
//! every length, valid and damaged; by the calls with their lists, and by the types.
//! What version 2 adds, and where one version ends and the other begins, is in
//! `versions.rs`.

mod common;

use common::raw::{read, write, Lists};
use common::{check, cut, full_buffer, same_record};
use emuparasol::{Error, MOST_POINTS, MOST_RECORD, MOST_SCANS};
use reference::lists::{self, ListsOut};
use reference::random::Random;
use reference::record::with_length;
use reference::{Answer, LogReader, Point, Record, Scan, Step};

/// Lists with something in them, for so many points and scans.
fn room(points: usize, scans: usize) -> Lists {
    Lists {
        kinds: vec![9; points],
        keys: vec![0xAAAA; points],
        payloads: vec![0xBBBB; points],
        lows: vec![0xCCCC; scans],
        highs: vec![0xDDDD; scans],
    }
}

/// Checks and reads the bytes in both, and compares.
fn read_both(bytes: &[u8], points: usize, scans: usize) -> u8 {
    let valid = Record::parse(bytes).is_ok();
    assert_eq!(check(bytes), if valid { 0 } else { 4 });
    let mut lists = room(points, scans);
    let mut expected = lists.clone();
    let mut pairs: Vec<(u32, u32)> = vec![(0xCCCC, 0xDDDD); scans];
    let (answer, snapshot, read_points, read_scans) = lists::read(
        bytes,
        &mut ListsOut {
            kinds: &mut expected.kinds,
            keys: &mut expected.keys,
            payloads: &mut expected.payloads,
            scans: &mut pairs,
        },
    );
    (expected.lows, expected.highs) = pairs.into_iter().unzip();
    let found = read(bytes, &mut lists);
    assert_eq!(found, (answer.number(), snapshot, read_points, read_scans));
    assert_eq!(lists, expected);
    read_typed(bytes);
    answer.number()
}

/// Reads the bytes into a buffer that was full before, and compares.
fn read_typed(bytes: &[u8]) {
    let (mut buffer, before) = (full_buffer(), full_buffer());
    let mut lent = common::bytes(bytes);
    match (buffer.read(lent.lent()), Record::parse(bytes)) {
        (Ok(found), Ok(expected)) => {
            assert!(same_record(&found, &expected), "{found:?}");
            assert_eq!(buffer.record().points.len(), expected.points.len());
            assert!(same_record(&buffer.record(), &expected));
        }
        (Err(error), Err(_)) => {
            assert_eq!(error, Error::Malformed);
            assert_eq!(buffer.record(), before.record());
        }
        (found, expected) => panic!("{found:?} {expected:?}"),
    }
    lent.same(bytes);
}

/// Cuts at a place in both, and compares.
fn cut_both(log: &[u8], place: usize) {
    let mut reader = LogReader::at(log, place);
    let answer = match reader.step() {
        Step::Torn => Answer::TornLog,
        Step::Impossible => Answer::ImpossibleLength,
        Step::Part(_) | Step::End => Answer::Committed,
    };
    assert_eq!(cut(log, place), (answer.number(), reader.place()));
}

/// A well-formed record of version 1 of so many bytes, if there is one.
fn of_length(length: usize, random: &mut Random) -> Option<Record> {
    let mut shapes = Vec::new();
    for scans in 0..=8_usize {
        for puts in 0..=64_usize {
            let rest = length.checked_sub(9 + 8 * scans + 13 * puts);
            let reads = rest.filter(|rest| rest % 5 == 0).map(|rest| rest / 5);
            if let Some(reads) = reads.filter(|reads| reads + puts <= 64) {
                shapes.push((reads, puts, scans));
            }
        }
    }
    if shapes.is_empty() {
        return None;
    }
    let (reads, puts, scans) = random.pick(&shapes);
    let mut key = random.between(0, 1_000);
    let mut points = Vec::new();
    for index in 0..reads + puts {
        points.push(match index < puts {
            true => Point::put(key, random.bits()),
            false if random.percent(50) => Point::read(key),
            false => Point::delete(key),
        });
        key += 1 + random.between(0, 1_000_000);
    }
    let mut low = random.between(0, 1_000);
    let mut ranges = Vec::new();
    for _ in 0..scans {
        let high = low + random.between(0, 1_000_000);
        ranges.push(Scan { low, high });
        low = high + 1 + random.between(0, 1_000);
    }
    Some(Record {
        snapshot: random.word(),
        points,
        scans: ranges,
    })
}

#[test]
fn records_of_every_length_from_0_to_1000() {
    let mut random = Random::new(1);
    let mut valid = 0;
    for length in 0..=1_000 {
        let any: Vec<u8> = (0..length).map(|_| random.word() as u8).collect();
        read_both(&any, 64, 8);
        read_both(&any, MOST_POINTS, MOST_SCANS);
        cut_both(&any, 0);
        if length >= 2 {
            let mut headed = with_length(&any[2..]);
            cut_both(&headed, 0);
            for (place, byte) in [
                (2, 1),
                (7, random.below(70) as u8),
                (8, random.below(10) as u8),
            ] {
                if place < length {
                    headed[place] = byte;
                }
            }
            read_both(&headed, 64, 8);
            for (place, byte) in [
                (2, 2),
                (7, random.below(5) as u8),
                (8, random.word() as u8),
                (9, 0),
                (10, random.below(70) as u8),
            ] {
                if place < length {
                    headed[place] = byte;
                }
            }
            read_both(&headed, MOST_POINTS, MOST_SCANS);
        }
        let Some(record) = of_length(length, &mut random) else {
            continue;
        };
        valid += 1;
        let bytes = record.written().expect("it keeps the rules");
        assert_eq!(bytes.len(), length);
        assert_eq!(
            read_both(&bytes, record.points.len(), record.scans.len()),
            0
        );
        assert_eq!(read_both(&bytes, 64, 8), 0);
        // A byte more, a byte less, and a byte more that the length field knows of.
        read_both(&bytes[..length - 1], 64, 8);
        read_both(&[&bytes[..], &[0]].concat(), 64, 8);
        read_both(&with_length(&[&bytes[2..], &[0]].concat()), 64, 8);
        for _ in 0..4 {
            let mut flipped = bytes.clone();
            flipped[random.below(length)] ^= 1 << random.below(8);
            read_both(&flipped, 64, 8);
            cut_both(&flipped, 0);
        }
    }
    assert!(valid > 800, "{valid}");
}

#[test]
fn every_bit_of_a_record_flipped() {
    let mut random = Random::new(2);
    for length in [9, 14, 30, 61, 120] {
        let record = of_length(length, &mut random).expect("there is one");
        let bytes = record.to_bytes();
        for bit in 0..8 * length {
            let mut flipped = bytes.clone();
            flipped[bit / 8] ^= 1 << (bit % 8);
            read_both(&flipped, 64, 8);
        }
    }
}

#[test]
fn lists_too_short_by_one_are_left_alone() {
    let mut random = Random::new(3);
    for _ in 0..60 {
        let length = 9 + random.below(897);
        let Some(record) = of_length(length, &mut random) else {
            continue;
        };
        let bytes = record.to_bytes();
        let (points, scans) = (record.points.len(), record.scans.len());
        for short in 0..5 {
            let mut lists = room(points, scans);
            let gone = match short {
                0 => lists.kinds.pop().is_some(),
                1 => lists.keys.pop().is_some(),
                2 => lists.payloads.pop().is_some(),
                3 => lists.lows.pop().is_some(),
                _ => lists.highs.pop().is_some(),
            };
            let before = lists.clone();
            if gone {
                assert_eq!(read(&bytes, &mut lists), (8, 0, 0, 0));
                assert_eq!(lists, before);
            }
        }
    }
}

/// The lists that name a record.
fn lists_of(record: &Record) -> Lists {
    let mut lists = room(record.points.len(), record.scans.len());
    let (answer, ..) = read(&record.to_bytes(), &mut lists);
    assert_eq!(answer, 0);
    lists
}

/// Writes from the lists in both, into so much room, and compares.
fn write_both(snapshot: u32, lists: &Lists, room: usize) -> u8 {
    let (mut output, mut expected) = (vec![0xC3; room], vec![0xC3; room]);
    let scans: Vec<(u32, u32)> = lists
        .lows
        .iter()
        .copied()
        .zip(lists.highs.iter().copied())
        .collect();
    let (answer, size) = lists::write(
        lists::Lists {
            snapshot,
            kinds: &lists.kinds,
            keys: &lists.keys,
            payloads: &lists.payloads,
            scans: &scans,
        },
        &mut expected,
    );
    assert_eq!(write(snapshot, lists, &mut output), (answer.number(), size));
    assert_eq!(output, expected);
    if let Some((points, scans)) = typed(lists) {
        let record = emuparasol::Record {
            snapshot,
            points: &points,
            scans: &scans,
        };
        assert_eq!(common::write(&record, room), (answer.number(), expected));
    }
    answer.number()
}

/// The lists as points and scans; none if they cannot be said so.
fn typed(lists: &Lists) -> Option<(Vec<emuparasol::Point>, Vec<emuparasol::Scan>)> {
    let Lists { kinds, keys, .. } = lists;
    let mut points = Vec::new();
    for ((kind, &key), &payload) in kinds.iter().zip(keys).zip(&lists.payloads) {
        points.push(match (kind, payload) {
            (1, 0) => emuparasol::Point::read(key),
            (2, payload) => emuparasol::Point::put(key, payload),
            (3, 0) => emuparasol::Point::delete(key),
            _ => return None,
        });
    }
    let ends = lists.lows.iter().zip(&lists.highs);
    let scans = ends.map(|(&low, &high)| emuparasol::Scan { low, high });
    Some((points, scans.collect()))
}

#[test]
fn lists_written_valid_and_damaged() {
    let mut random = Random::new(4);
    let mut counts = [0; 12];
    for round in 0..600 {
        let length = 9 + random.below(897);
        let Some(record) = of_length(length, &mut random) else {
            continue;
        };
        let snapshot = random.word();
        let mut lists = lists_of(&record);
        for room in [length, length - 1, length + 5, 0] {
            counts[usize::from(write_both(snapshot, &lists, room))] += 1;
        }
        let (points, scans) = (lists.kinds.len(), lists.lows.len());
        if points > 0 {
            let at = random.below(points);
            match round % 6 {
                0 => lists.kinds[at] = random.pick(&[0, 1, 2, 3, 4, 255]),
                1 => lists.keys[at] = random.word(),
                2 => lists.payloads[at] = random.pick(&[0, 1, u64::MAX]),
                3 if scans > 0 => {
                    let at = random.below(scans);
                    lists.lows[at] = random.word();
                }
                4 if scans > 0 => {
                    let at = random.below(scans);
                    lists.highs[at] = lists.lows[at].wrapping_sub(random.between(0, 1));
                }
                _ => {
                    let many = MOST_POINTS + 1;
                    lists.kinds.resize(many, 1);
                    lists.payloads.resize(many, 0);
                    lists.keys = (0..many as u32).collect();
                }
            }
            counts[usize::from(write_both(snapshot, &lists, MOST_RECORD + 100))] += 1;
        }
    }
    assert!(
        counts[0] > 500 && counts[4] > 100 && counts[8] > 500,
        "{counts:?}"
    );
}

#[test]
fn records_written_are_read_back() {
    let mut random = Random::new(6);
    let mut buffer = full_buffer();
    let mut count = 0;
    for length in (9..=905).rev() {
        let Some(record) = of_length(length, &mut random) else {
            continue;
        };
        count += 1;
        let points: Vec<_> = record.points.iter().map(common::point).collect();
        let scans: Vec<_> = record.scans.iter().map(common::scan).collect();
        let typed = emuparasol::Record {
            snapshot: record.snapshot,
            points: &points,
            scans: &scans,
        };
        // The longer record that was read before leaves nothing behind.
        assert_eq!(common::write(&typed, length), (0, record.to_bytes()));
        assert_eq!(common::write(&typed, length - 1).0, 8);
        assert_eq!(buffer.read(&record.to_bytes()), Ok(typed));
        assert_eq!(buffer.record(), typed);
    }
    assert!(count > 800, "{count}");
}

#[test]
fn points_and_scans_that_break_a_rule_are_malformed() {
    use emuparasol::{Point, Record, Scan};
    let rising: Vec<Point> = (0..1_025).map(Point::read).collect();
    let apart: Vec<Scan> = (0..65).map(|low| Scan { low, high: low }).collect();
    let scan = |low, high| Scan { low, high };
    let written = |points: &[Point], scans: &[Scan]| {
        let snapshot = 5;
        let record = Record {
            snapshot,
            points,
            scans,
        };
        // Malformed comes before output short.
        assert_eq!(
            common::write(&record, 0).0 == 4,
            common::write(&record, MOST_RECORD).0 == 4
        );
        common::write(&record, MOST_RECORD).0
    };
    assert_eq!(written(&rising[..64], &apart[..8]), 0);
    assert_eq!(written(&rising[..1_024], &apart[..64]), 0);
    assert_eq!(written(&rising, &[]), 4);
    assert_eq!(written(&[], &apart), 4);
    let many = vec![Point::read(1); 1_000];
    assert_eq!(written(&many, &[]), 4);
    assert_eq!(written(&vec![Point::read(1); 100_000], &[]), 4);
    assert_eq!(written(&[], &vec![scan(1, 1); 50]), 4);
    assert_eq!(written(&[], &vec![scan(1, 1); 1_000]), 4);
    // Out of order far behind: the last two of the most.
    let mut swapped = rising[..1_024].to_vec();
    swapped.swap(1_022, 1_023);
    assert_eq!(written(&swapped, &[]), 4);
    let mut swapped = apart[..64].to_vec();
    swapped.swap(62, 63);
    assert_eq!(written(&[], &swapped), 4);
    // Not in order, and the same key twice, whatever is done with it.
    assert_eq!(written(&[Point::read(2), Point::read(1)], &[]), 4);
    assert_eq!(written(&[Point::put(3, 1), Point::delete(3)], &[]), 4);
    assert_eq!(written(&[Point::read(u32::MAX), Point::read(0)], &[]), 4);
    // Ends exchanged, a key in common, not in order; touching is no flaw.
    assert_eq!(written(&[], &[scan(2, 1)]), 4);
    assert_eq!(written(&[], &[scan(1, 5), scan(5, 9)]), 4);
    assert_eq!(written(&[], &[scan(6, 9), scan(1, 5)]), 4);
    assert_eq!(written(&[], &[scan(1, 5), scan(6, 9)]), 0);
    // Points and scans may share keys.
    assert_eq!(written(&[Point::put(3, 1)], &[scan(1, 5)]), 0);
}

#[test]
fn points_say_what_they_are() {
    use emuparasol::Point;
    let points = [Point::read(4), Point::put(5, 6), Point::delete(7)];
    assert_eq!(points.map(Point::key), [4, 5, 7]);
    assert_eq!(points.map(Point::payload), [None, Some(6), None]);
    assert_eq!(points[0], Point::Read { key: 4 });
    let (key, payload) = (5, 6);
    assert_eq!(points[1], Point::Put { key, payload });
    assert_eq!(points[2], Point::Delete { key: 7 });
}

#[test]
fn the_limits_of_a_record_are_the_headers() {
    let header = include_str!("../../../include/emuparasol.h");
    for (name, number) in [
        ("LEAST_RECORD", emuparasol::LEAST_RECORD),
        ("MOST_RECORD", emuparasol::MOST_RECORD),
        ("MOST_POINTS", emuparasol::MOST_POINTS),
        ("MOST_SCANS", emuparasol::MOST_SCANS),
    ] {
        let line = format!("#define EMUPARASOL_{name} {number}\n");
        assert!(header.contains(&line), "{line}");
    }
}

#[test]
fn lists_of_unequal_lengths_are_refused() {
    let lists = Lists {
        kinds: vec![1, 2],
        keys: vec![5, 6],
        payloads: vec![0, 7],
        lows: vec![1, 9],
        highs: vec![2, 10],
    };
    let mut output = vec![0xC3; 100];
    assert_eq!(write(3, &lists, &mut output).0, 0);
    let mut output = vec![0xC3; 100];
    for short in 0..5 {
        let mut lists = lists.clone();
        match short {
            0 => drop(lists.kinds.pop()),
            1 => drop(lists.keys.pop()),
            2 => drop(lists.payloads.pop()),
            3 => drop(lists.lows.pop()),
            _ => drop(lists.highs.pop()),
        }
        assert_eq!(write(3, &lists, &mut output), (4, 0), "list {short}");
    }
    let many: Vec<u32> = (0..65).collect();
    let lists = Lists {
        lows: many.clone(),
        highs: many,
        ..lists
    };
    assert_eq!(write(3, &lists, &mut output), (4, 0));
    assert_eq!(output, vec![0xC3; 100]);
}

#[test]
fn logs_cut_at_every_place() {
    for seed in 0..40 {
        let mut log = compare::generate::input(seed);
        log.truncate(400);
        for place in 0..=log.len() + 3 {
            cut_both(&log, place);
        }
        for place in [usize::MAX, usize::MAX - 1, 1 << 63, 1 << 32] {
            cut_both(&log, place);
        }
    }
}
