//! The record and the lists: round trips, refusals.

use reference::lists::{read, write, Lists, ListsOut};
use reference::random::Random;
use reference::record::{with_length, MOST_LENGTH, MOST_POINTS, MOST_SCANS};
use reference::table::{record, scanning};
use reference::{Answer, Flaw, Kind, Point, Record, Scan, Version};

/// A well-formed record with any numbers of points and scans, most often those of
/// version 1.
fn random_record(random: &mut Random) -> Record {
    let points = random.pick(&[65, 65, 65, MOST_POINTS + 1]);
    let scans = random.pick(&[9, 9, 9, MOST_SCANS + 1]);
    let mut keys: Vec<u32> = (0..random.below(points)).map(|_| random.word()).collect();
    let mut ends: Vec<u32> = (0..2 * random.below(scans))
        .map(|_| random.word())
        .collect();
    keys.sort_unstable();
    keys.dedup();
    ends.sort_unstable();
    ends.dedup();
    let kinds = |random: &mut Random| match random.below(3) {
        0 => Kind::Read,
        1 => Kind::Put(random.bits()),
        _ => Kind::Delete,
    };
    let points = keys.into_iter().map(|key| Point {
        key,
        kind: kinds(random),
    });
    let points = points.collect();
    let scans = ends.chunks_exact(2).map(|two| Scan {
        low: two[0],
        high: two[1],
    });
    Record {
        snapshot: random.word(),
        points,
        scans: scans.collect(),
    }
}

#[test]
fn written_records_parse_to_the_same() {
    let mut random = Random::new(1);
    for _ in 0..2_000 {
        let record = random_record(&mut random);
        let bytes = record.written().unwrap();
        assert_eq!(Record::parse(&bytes), Ok(record));
    }
}

#[test]
fn parsed_bytes_write_to_the_same() {
    let mut random = Random::new(2);
    let mut parsed = 0;
    for _ in 0..20_000 {
        let mut bytes = random_record(&mut random).to_bytes();
        let place = random.below(bytes.len().min(60));
        bytes[place] ^= 1 << random.below(8);
        if let Ok(record) = Record::parse(&bytes) {
            assert_eq!(record.written().unwrap(), bytes);
            parsed += 1;
        }
    }
    assert!(parsed > 1_000);
}

#[test]
fn the_shortest_and_the_longest() {
    assert_eq!(record(0, &[]).to_bytes().len(), 9);
    let points: Vec<Point> = (0..64).map(|key| Point::put(key, 1)).collect();
    let scans: Vec<(u32, u32)> = (0..8).map(|low| (low, low)).collect();
    let longest = scanning(0, &points, &scans).written().unwrap();
    assert_eq!((longest.len(), longest[2]), (905, 1));
    assert!(Record::parse(&longest).is_ok());
    let points: Vec<Point> = (0..1_024).map(|key| Point::put(key, 1)).collect();
    let scans: Vec<(u32, u32)> = (0..64).map(|low| (low, low)).collect();
    let longest = scanning(0, &points, &scans).written().unwrap();
    assert_eq!((longest.len(), longest[2]), (13_835, 2));
    assert_eq!(longest.len(), MOST_LENGTH + 2);
    assert!(Record::parse(&longest).is_ok());
    let shortest_of_two = scanning(0, &[], &scans[..9]).written().unwrap();
    assert_eq!((shortest_of_two.len(), shortest_of_two[2]), (83, 2));
}

/// Reads of so many keys, and so many scans.
fn of_counts(points: usize, scans: usize) -> Record {
    let points: Vec<Point> = (0..points as u32).map(Point::read).collect();
    let scans: Vec<(u32, u32)> = (0..scans as u32).map(|low| (low, low)).collect();
    scanning(3, &points, &scans)
}

/// R53: at every edge of both counts, one version is well formed and the other is not.
#[test]
fn the_counts_decide_the_version() {
    for points in [0, 1, 63, 64, 65, 66, 255, 256, 257, 1_023, 1_024] {
        for scans in [0, 1, 7, 8, 9, 10, 63, 64] {
            let record = of_counts(points, scans);
            let (right, wrong) = match points <= 64 && scans <= 8 {
                true => (Version::One, Version::Two),
                false => (Version::Two, Version::One),
            };
            let bytes = record.written().unwrap();
            assert_eq!(bytes, record.to_bytes_in(right));
            assert_eq!(bytes[2], if right == Version::One { 1 } else { 2 });
            let front = if right == Version::One { 7 } else { 9 };
            assert_eq!(bytes.len(), 2 + front + 5 * points + 8 * scans);
            assert_eq!(Record::parse(&bytes), Ok(record.clone()));
            let other = Record::parse(&record.to_bytes_in(wrong));
            assert!(other.is_err(), "{points} points, {scans} scans");
        }
    }
}

/// Counts of two bytes, most significant first, at the places of R4.
#[test]
fn the_front_of_version_2_byte_by_byte() {
    let bytes = of_counts(256, 9).written().unwrap();
    let length = (9_u16 + 256 * 5 + 9 * 8).to_be_bytes();
    assert_eq!(bytes[..2], length);
    assert_eq!(bytes[2..11], [2, 0, 0, 0, 3, 1, 0, 0, 9]);
    assert_eq!(bytes[11..16], [1, 0, 0, 0, 0]);
    let bytes = of_counts(65, 0).written().unwrap();
    assert_eq!(bytes[2..11], [2, 0, 0, 0, 3, 0, 65, 0, 0]);
}

#[test]
fn too_many_points_or_scans_are_refused() {
    for (points, scans, flaw) in [
        (1_025, 0, Flaw::PointCount),
        (1_025, 65, Flaw::PointCount),
        (0, 65, Flaw::ScanCount),
        (1_024, 65, Flaw::ScanCount),
    ] {
        let record = of_counts(points, scans);
        assert_eq!(record.written(), Err(flaw));
        assert_eq!(Record::parse(&record.to_bytes()), Err(flaw));
    }
}

#[test]
fn every_flaw_is_found() {
    let body = |bytes: &[u8]| Record::parse(&with_length(bytes));
    let reads = |keys: &[u32]| keys.iter().map(|&k| Point::read(k)).collect::<Vec<_>>();
    let parse = |record: Record| Record::parse(&record.to_bytes());
    let parse_in = |version, record: Record| Record::parse(&record.to_bytes_in(version));
    assert_eq!(Record::parse(&[]), Err(Flaw::Length));
    assert_eq!(Record::parse(&[0]), Err(Flaw::Length));
    assert_eq!(
        Record::parse(&[0, 7, 1, 0, 0, 0, 0, 0, 0, 0]),
        Err(Flaw::Length)
    );
    assert_eq!(
        Record::parse(&[0, 8, 1, 0, 0, 0, 0, 0, 0]),
        Err(Flaw::Length)
    );
    assert_eq!(body(&[0, 0, 0, 0, 0, 0, 0]), Err(Flaw::Version));
    for version in [0, 3, 255] {
        let mut bytes = of_counts(65, 0).to_bytes();
        bytes[2] = version;
        assert_eq!(Record::parse(&bytes), Err(Flaw::Version));
    }
    assert_eq!(body(&[2, 0, 0, 0, 0, 0, 0]), Err(Flaw::BytesMissing));
    assert_eq!(body(&[2, 0, 0, 0, 0, 0, 0, 0, 0]), Err(Flaw::OtherVersion));
    for (points, scans) in [(65, 0), (0, 9), (64, 9), (255, 64)] {
        let found = parse_in(Version::One, of_counts(points, scans));
        assert_eq!(found, Err(Flaw::OtherVersion));
    }
    let found = parse_in(Version::Two, of_counts(64, 8));
    assert_eq!(found, Err(Flaw::OtherVersion));
    assert_eq!(parse(of_counts(1_025, 0)), Err(Flaw::PointCount));
    assert_eq!(parse(of_counts(0, 65)), Err(Flaw::ScanCount));
    for kind in [0, 4, 255] {
        let bytes = [1, 0, 0, 0, 0, 1, 0, kind, 0, 0, 0, 9];
        assert_eq!(body(&bytes), Err(Flaw::Kind));
    }
    assert_eq!(parse(record(0, &reads(&[5, 5]))), Err(Flaw::KeyOrder));
    assert_eq!(parse(record(0, &reads(&[5, 4]))), Err(Flaw::KeyOrder));
    assert_eq!(parse(scanning(0, &[], &[(5, 4)])), Err(Flaw::ScanEnds));
    assert_eq!(
        parse(scanning(0, &[], &[(1, 5), (5, 6)])),
        Err(Flaw::ScanOrder)
    );
    assert_eq!(
        body(&[1, 0, 0, 0, 0, 1, 0, 1, 0, 0, 0]),
        Err(Flaw::BytesMissing)
    );
    assert_eq!(body(&[1, 0, 0, 0, 0, 0, 1]), Err(Flaw::BytesMissing));
    assert_eq!(body(&[1, 0, 0, 0, 0, 0, 0, 0]), Err(Flaw::BytesLeft));
}

#[test]
fn lists_round_trip_and_touch_only_the_front() {
    let mut random = Random::new(3);
    for _ in 0..500 {
        let bytes = random_record(&mut random).to_bytes();
        let (mut kinds, mut keys, mut payloads) = ([9; 1_026], [9; 1_026], [9; 1_026]);
        let mut scans = [(9, 9); 66];
        let mut out = ListsOut {
            kinds: &mut kinds,
            keys: &mut keys,
            payloads: &mut payloads,
            scans: &mut scans,
        };
        let (answer, snapshot, points, ranges) = read(&bytes, &mut out);
        assert_eq!(answer, Answer::Committed);
        assert!(kinds[points..].iter().all(|&kind| kind == 9));
        assert!(scans[ranges..].iter().all(|&scan| scan == (9, 9)));
        let lists = Lists {
            snapshot,
            kinds: &kinds[..points],
            keys: &keys[..points],
            payloads: &payloads[..points],
            scans: &scans[..ranges],
        };
        let mut room = vec![7; bytes.len() + 3];
        assert_eq!(write(lists, &mut room), (Answer::Committed, bytes.len()));
        assert_eq!(room, [&bytes[..], &[7; 3]].concat());
        let mut short = vec![7; bytes.len() - 1];
        assert_eq!(write(lists, &mut short), (Answer::OutputShort, 0));
        assert!(short.iter().all(|&byte| byte == 7));
    }
}

#[test]
fn the_writer_refuses_with_4_before_8() {
    let good = Lists {
        snapshot: 1,
        kinds: &[1, 2],
        keys: &[3, 4],
        payloads: &[0, 5],
        scans: &[(1, 1)],
    };
    let bad = [
        Lists {
            kinds: &[1],
            ..good
        },
        Lists { keys: &[3], ..good },
        Lists {
            payloads: &[0],
            ..good
        },
        Lists {
            kinds: &[1, 4],
            ..good
        },
        Lists {
            payloads: &[1, 5],
            ..good
        },
        Lists {
            kinds: &[1, 3],
            ..good
        },
        Lists {
            keys: &[4, 4],
            ..good
        },
        Lists {
            scans: &[(2, 1)],
            ..good
        },
        Lists {
            scans: &[(1, 2), (2, 3)],
            ..good
        },
    ];
    for lists in bad {
        assert_eq!(write(lists, &mut []), (Answer::Malformed, 0));
    }
    assert_eq!(write(good, &mut []), (Answer::OutputShort, 0));
}

/// R10 at the edges of both counts: the version, the size, and 4 where there are too many.
#[test]
fn the_writer_takes_the_version_from_the_counts() {
    let (kinds, payloads) = (vec![2; 1_025], vec![5; 1_025]);
    let keys: Vec<u32> = (0..1_025).collect();
    let ranges: Vec<(u32, u32)> = (0..65).map(|low| (low, low)).collect();
    for points in [0, 63, 64, 65, 256, 1_023, 1_024, 1_025] {
        for scans in [0, 7, 8, 9, 63, 64, 65] {
            let lists = Lists {
                snapshot: 1,
                kinds: &kinds[..points],
                keys: &keys[..points],
                payloads: &payloads[..points],
                scans: &ranges[..scans],
            };
            let mut out = vec![7; 14_000];
            let found = write(lists, &mut out);
            if points > 1_024 || scans > 64 {
                assert_eq!(found, (Answer::Malformed, 0));
                assert!(out.iter().all(|&byte| byte == 7));
                continue;
            }
            let small = points <= 64 && scans <= 8;
            let (version, front) = if small { (1, 7) } else { (2, 9) };
            let size = 2 + front + 13 * points + 8 * scans;
            assert_eq!(found, (Answer::Committed, size));
            assert_eq!(out[2], version);
            assert!(Record::parse(&out[..size]).is_ok());
            assert!(out[size..].iter().all(|&byte| byte == 7));
            let short = write(lists, &mut out[..size - 1]);
            assert_eq!(short, (Answer::OutputShort, 0));
        }
    }
}

#[test]
fn the_reader_refuses_with_4_before_8() {
    let bytes = scanning(1, &[Point::read(2)], &[(3, 4)]).to_bytes();
    for (points, scans) in [(0, 1), (1, 0)] {
        let (kinds, keys, payloads) = (&mut vec![0; points], &mut [0], &mut [0]);
        let scans = &mut vec![(0, 0); scans];
        let mut out = ListsOut {
            kinds,
            keys,
            payloads,
            scans,
        };
        assert_eq!(read(&bytes, &mut out), (Answer::OutputShort, 0, 0, 0));
        let refused = read(&bytes[..bytes.len() - 1], &mut out);
        assert_eq!(refused, (Answer::Malformed, 0, 0, 0));
    }
}
