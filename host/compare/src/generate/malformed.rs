//! Records spoiled in one way each. The length field still tells the number of
//! bytes, so that the log goes on behind them (bit flips apart).

use reference::random::Random;
use reference::record::{with_length, MOST_LENGTH, MOST_POINTS, MOST_SCANS};
use reference::version::{MOST_POINTS_OF_ONE, MOST_SCANS_OF_ONE};
use reference::{Point, Record, Scan, Version};

/// The record with something wrong. Now and then it is well formed all the
/// same, with other contents.
pub fn spoil(record: &Record, random: &mut Random) -> Vec<u8> {
    let mut changed = record.clone();
    match random.below(20) {
        0 => return flip(record.to_bytes(), 2, random),
        1 => return flip(record.to_bytes(), 0, random),
        2 => return with_byte(record, 0, random.pick(&[0, 1, 2, 3, 255]), random),
        3 | 4 => return with_count(record, random),
        5 => return with_byte(record, kinds(record), random.pick(&[0, 4, 255]), random),
        6 => return longer_or_shorter(record, random),
        7 | 18 => spoil_keys(&mut changed, random),
        8 => spoil_scan_ends(&mut changed, random),
        9 | 19 => spoil_scan_order(&mut changed, random),
        10 | 11 => return with_counts_beyond(record, random),
        12 => changed.snapshot = changed.snapshot.swap_bytes(),
        13 | 14 => return record.to_bytes_in(other(record.version())),
        15 => return with_widths_exchanged(record),
        16 => return with_version_2(record, random),
        _ => return random_body(random),
    }
    changed.to_bytes()
}

/// The version that it is not.
fn other(version: Version) -> Version {
    match version {
        Version::One => Version::Two,
        Version::Two => Version::One,
    }
}

/// The place of the first kind in the body.
fn kinds(record: &Record) -> usize {
    match record.version() {
        Version::One => 7,
        Version::Two => 9,
    }
}

/// One point or scan more than the version has: most often than version 1, since
/// that is short.
fn with_counts_beyond(record: &Record, random: &mut Random) -> Vec<u8> {
    let mut changed = record.clone();
    let version = match random.below(12) {
        0 => Version::Two,
        _ => Version::One,
    };
    let (points, scans) = match version {
        Version::One => (MOST_POINTS_OF_ONE, MOST_SCANS_OF_ONE),
        Version::Two => (MOST_POINTS, MOST_SCANS),
    };
    match random.percent(50) {
        true => changed.points = reads(points + 1),
        false => changed.scans = scans_of_one(scans + 1),
    }
    changed.to_bytes_in(version)
}

/// The right version, but the counts as wide as those of the other one.
fn with_widths_exchanged(record: &Record) -> Vec<u8> {
    let mut bytes = record.to_bytes_in(other(record.version()));
    bytes[2] = record.version().number();
    bytes
}

/// Version 2 at its edges: nothing in it, what version 1 has at the most, a count with
/// its bytes exchanged, or another version's number.
fn with_version_2(record: &Record, random: &mut Random) -> Vec<u8> {
    let flaw = random.below(4);
    let (points, scans) = match flaw {
        0 => (0, 0),
        1 => (MOST_POINTS_OF_ONE, MOST_SCANS_OF_ONE),
        2 => (random.pick(&[MOST_POINTS_OF_ONE + 1, 256]), 1),
        _ => (MOST_POINTS_OF_ONE + random.below(2), MOST_SCANS_OF_ONE + 1),
    };
    let record = Record {
        snapshot: record.snapshot,
        points: reads(points),
        scans: scans_of_one(scans),
    };
    let mut bytes = record.to_bytes_in(Version::Two);
    match flaw {
        2 => bytes.swap(7, 8),
        3 => bytes[2] = random.pick(&[0, 3, 3, 255]),
        _ => {}
    }
    bytes
}

/// So many reads.
fn reads(count: usize) -> Vec<Point> {
    (0..count as u32).map(|key| Point::read(key * 3)).collect()
}

/// So many scans, each of one key.
fn scans_of_one(count: usize) -> Vec<Scan> {
    (0..count as u32)
        .map(|low| scan(low * 2, low * 2))
        .collect()
}

/// One bit other, at `from` or behind it.
fn flip(mut bytes: Vec<u8>, from: usize, random: &mut Random) -> Vec<u8> {
    let place = match from {
        0 => random.below(2),
        _ => from + random.below(bytes.len() - from),
    };
    bytes[place] ^= 1 << random.below(8);
    bytes
}

/// The byte at a place of the body set, or any other if the body ends before it.
fn with_byte(record: &Record, place: usize, byte: u8, random: &mut Random) -> Vec<u8> {
    let mut bytes = record.to_bytes();
    match bytes.get_mut(place + 2) {
        Some(there) => *there = byte,
        None => bytes = flip(bytes, 2, random),
    }
    bytes
}

/// A byte of a count one more, one less, or much more.
fn with_count(record: &Record, random: &mut Random) -> Vec<u8> {
    let mut bytes = record.to_bytes();
    let place = 7 + random.below(kinds(record) - 5);
    let count = bytes[place];
    bytes[place] = match random.below(4) {
        0 => count.wrapping_add(1),
        1 => count.wrapping_sub(1),
        2 => count.wrapping_add(64),
        _ => 255,
    };
    bytes
}

/// Bytes added or taken away at the end, and the length to match.
fn longer_or_shorter(record: &Record, random: &mut Random) -> Vec<u8> {
    let mut body = record.to_bytes()[2..].to_vec();
    if random.percent(50) && body.len() + 13 <= MOST_LENGTH {
        body.extend(vec![random.bits() as u8; 1 + random.below(13)]);
    } else {
        let least = 7.min(body.len());
        body.truncate(least + random.below(body.len() - least + 1));
    }
    with_length(&body)
}

/// Equal or falling keys, often the last two.
fn spoil_keys(record: &mut Record, random: &mut Random) {
    if record.points.len() < 2 {
        let key = random.word();
        record.points = vec![Point::read(key), Point::delete(key)];
        return;
    }
    let last = record.points.len() - 2;
    let place = match random.percent(30) {
        true => last,
        false => random.below(last + 1),
    };
    match random.percent(50) {
        true => record.points.swap(place, place + 1),
        false => record.points[place].key = record.points[place + 1].key,
    }
}

/// A scan from high to low.
fn spoil_scan_ends(record: &mut Record, random: &mut Random) {
    let low = random.between(1, u32::MAX);
    match record.scans.last_mut() {
        Some(last) if last.low > 0 => last.high = last.low - 1,
        _ => record.scans = vec![scan(low, low - 1)],
    }
}

/// Scans that touch, overlap or fall.
fn spoil_scan_order(record: &mut Record, random: &mut Random) {
    let last = record.scans.pop().unwrap_or(scan(5, 9));
    let next = match random.below(3) {
        0 => scan(last.high, last.high),
        1 => scan(last.low, u32::MAX),
        _ => scan(0, last.low),
    };
    record.scans.truncate(MOST_SCANS - 2);
    record.scans.extend([last, next]);
}

/// A body of random bytes of a length that a log reader takes.
fn random_body(random: &mut Random) -> Vec<u8> {
    let length = match random.below(12) {
        0..=3 => 7,
        4..=5 => 903,
        6..=7 => 904,
        8 => random.pick(&[9, 905, 906, MOST_LENGTH]),
        _ => 7 + random.below(60),
    };
    let mut body: Vec<u8> = (0..length).map(|_| random.bits() as u8).collect();
    if random.percent(60) {
        body[0] = random.pick(&[1, 1, 2]);
    }
    with_length(&body)
}

/// A scan, right or not.
fn scan(low: u32, high: u32) -> Scan {
    Scan { low, high }
}
