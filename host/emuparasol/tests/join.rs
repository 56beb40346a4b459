//! Two records as one (R56, R57): every refusal, keys named by both, scans that share a key,
//! touch or make a chain, the edges of both versions. `joined` has pairs from seeds, and R58.

mod common;

use common::join;
use emuparasol::MOST_RECORD;
use reference::record::with_length;
use reference::table::scanning;
use reference::Point;

fn read(key: u32) -> Point {
    Point::read(key)
}

fn put(key: u32, payload: u64) -> Point {
    Point::put(key, payload)
}

fn delete(key: u32) -> Point {
    Point::delete(key)
}

/// The bytes of a record with snapshot 5.
fn made(points: &[Point], scans: &[(u32, u32)]) -> Vec<u8> {
    let record = scanning(5, points, scans);
    record.written().expect("it keeps the rules")
}

/// The two are joined to these points and scans: in just so much room, and in more, behind
/// which nothing is written; and with a byte less nothing is.
fn joins(a: &[u8], b: &[u8], points: &[Point], scans: &[(u32, u32)]) -> Vec<u8> {
    let expected = made(points, scans);
    let size = expected.len();
    assert_eq!(join(a, b, size), (0, expected.clone()));
    assert_eq!(join(a, b, size - 1), (8, vec![0xC3; size - 1]));
    assert_eq!(join(a, b, 0), (8, vec![]));
    let (answer, output) = join(a, b, size + 100);
    assert_eq!((answer, &output[..size]), (0, &expected[..]));
    assert_eq!(output[size..], [0xC3; 100]);
    assert!(size <= a.len() + b.len());
    expected
}

/// The two cannot be joined, also where there is no room.
fn refused(a: &[u8], b: &[u8]) {
    for room in [0, 1, a.len() + b.len(), MOST_RECORD] {
        assert_eq!(join(a, b, room), (12, vec![0xC3; room]));
    }
}

#[test]
fn two_leases_as_one() {
    let a = made(&[read(1), put(10, 100)], &[(8, 12)]);
    let b = made(&[read(2), delete(20), put(30, 300)], &[(18, 22)]);
    let points = [read(1), read(2), put(10, 100), delete(20), put(30, 300)];
    let scans = [(8, 12), (18, 22)];
    let joined = joins(&a, &b, &points, &scans);
    assert_eq!(joined.len(), 9 + 3 * 5 + 2 * 13 + 2 * 8);
    assert_eq!(joined[2], 1);
    // The other way round it is the same: neither writes what the other touches.
    joins(&b, &a, &points, &scans);
}

#[test]
fn with_nothing_it_is_the_record_itself() {
    let nothing = made(&[], &[]);
    joins(&nothing, &nothing, &[], &[]);
    let points = [read(0), put(7, u64::MAX), delete(u32::MAX)];
    let scans = [(0, 0), (1, u32::MAX)];
    let some = made(&points, &scans);
    assert_eq!(joins(&some, &nothing, &points, &scans), some);
    assert_eq!(joins(&nothing, &some, &points, &scans), some);
    // So it is with itself, if it writes nothing.
    let looked = made(&[read(0), read(7)], &scans);
    assert_eq!(joins(&looked, &looked, &[read(0), read(7)], &scans), looked);
    refused(&some, &some);
}

#[test]
fn a_key_that_both_name() {
    let looked = made(&[read(7)], &[]);
    let (stored, deleted) = (made(&[put(7, 70)], &[]), made(&[delete(7)], &[]));
    joins(&looked, &looked, &[read(7)], &[]);
    joins(&looked, &stored, &[put(7, 70)], &[]);
    joins(&looked, &deleted, &[delete(7)], &[]);
    // What the first writes the second may not name, whatever it does with it.
    for first in [&stored, &deleted] {
        for second in [&looked, &stored, &deleted] {
            refused(first, second);
        }
    }
    // Each of several by itself, and the first, the last and one in the middle.
    let a = made(&[read(1), read(3), put(4, 4), read(5), read(9)], &[]);
    let b = made(&[delete(1), put(3, 3), read(5), put(9, 9)], &[]);
    let points = [delete(1), put(3, 3), put(4, 4), read(5), put(9, 9)];
    joins(&a, &b, &points, &[]);
    refused(&b, &a);
}

#[test]
fn what_the_first_writes_the_second_may_not_scan() {
    for write in [put(10, 1), delete(10)] {
        let a = made(&[read(3), write, read(30)], &[]);
        for (low, high) in [(10, 10), (0, 10), (10, u32::MAX), (5, 15), (0, u32::MAX)] {
            refused(&a, &made(&[], &[(low, high)]));
            // Behind another scan, and before one.
            refused(&a, &made(&[read(2)], &[(0, 3), (low.max(4), high)]));
            refused(&a, &made(&[], &[(low, high.min(90)), (95, 99)]));
        }
        // Beside it, and over what is only read.
        let points = [read(3), write, read(30)];
        let scans = [(0, 9), (11, u32::MAX)];
        joins(&a, &made(&[], &scans), &points, &scans);
        // The first may scan what the second writes.
        joins(&made(&[], &[(0, u32::MAX)]), &a, &points, &[(0, u32::MAX)]);
    }
    // At both ends of the keys.
    refused(&made(&[delete(0)], &[]), &made(&[], &[(0, 0)]));
    let (top, below) = (u32::MAX, u32::MAX - 1);
    refused(
        &made(&[delete(top)], &[]),
        &made(&[], &[(5, 6), (top, top)]),
    );
    let a = made(&[delete(top)], &[]);
    joins(&a, &made(&[], &[(0, below)]), &[delete(top)], &[(0, below)]);
}

#[test]
fn scans_that_share_a_key_become_one() {
    let scans = |a: &[(u32, u32)], b: &[(u32, u32)], both: &[(u32, u32)]| {
        joins(&made(&[], a), &made(&[], b), &[], both);
        joins(&made(&[], b), &made(&[], a), &[], both);
    };
    scans(&[(9, 12)], &[(9, 12)], &[(9, 12)]);
    scans(&[(9, 20)], &[(12, 15)], &[(9, 20)]);
    scans(&[(9, 20)], &[(9, 15)], &[(9, 20)]);
    scans(&[(9, 20)], &[(15, 20)], &[(9, 20)]);
    scans(&[(9, 15)], &[(12, 20)], &[(9, 20)]);
    // One key in common, and none: what only touches stays two.
    scans(&[(9, 12)], &[(12, 20)], &[(9, 20)]);
    scans(&[(9, 12)], &[(13, 20)], &[(9, 12), (13, 20)]);
    scans(
        &[(9, 12), (21, 30)],
        &[(13, 20)],
        &[(9, 12), (13, 20), (21, 30)],
    );
    scans(&[(9, 12)], &[(14, 20)], &[(9, 12), (14, 20)]);
    // A chain of three, and of five.
    scans(&[(9, 12), (15, 20)], &[(12, 15)], &[(9, 20)]);
    scans(&[(9, 12), (15, 20)], &[(0, 30)], &[(0, 30)]);
    scans(
        &[(1, 3), (5, 7), (9, 11), (20, 21)],
        &[(3, 5), (7, 9)],
        &[(1, 11), (20, 21)],
    );
    // A chain that a touching one ends.
    scans(
        &[(1, 3), (5, 7), (10, 11)],
        &[(3, 5), (8, 9)],
        &[(1, 7), (8, 9), (10, 11)],
    );
    // Both ends of the keys.
    let top = u32::MAX;
    scans(&[(0, 0), (top, top)], &[(0, top)], &[(0, top)]);
    scans(&[(0, top - 1)], &[(top, top)], &[(0, top - 1), (top, top)]);
}

/// So many reads from a key on.
fn reads(first: u32, count: u32) -> Vec<Point> {
    (first..first + count).map(read).collect()
}

/// So many scans of two keys each, three apart, from a key on.
fn apart(first: u32, count: u32) -> Vec<(u32, u32)> {
    (0..count)
        .map(|i| (first + 3 * i, first + 3 * i + 1))
        .collect()
}

/// One list behind the other.
fn behind<T: Clone>(one: &[T], other: &[T]) -> Vec<T> {
    [one, other].concat()
}

#[test]
fn the_counts_decide_the_version() {
    let points = |a: &[Point], b: &[Point], both: &[Point], version| {
        let joined = joins(&made(a, &[]), &made(b, &[]), both, &[]);
        assert_eq!(joined[2], version);
    };
    let (a, b) = (reads(0, 64), reads(100, 64));
    points(&a, &b, &behind(&a, &b), 2);
    points(&a, &a, &a, 1);
    points(&a[1..], &a[..63], &a, 1);
    points(&a, &b[..1], &behind(&a, &b[..1]), 2);
    points(&b[..1], &a, &behind(&a, &b[..1]), 2);
    points(&a[..32], &b[..32], &behind(&a[..32], &b[..32]), 1);
    // Two of version 2, and one of each.
    let (c, d) = (reads(0, 512), reads(512, 512));
    points(&c, &d, &reads(0, 1_024), 2);
    points(&d, &c, &reads(0, 1_024), 2);
    points(&c, &b[..1], &c, 2);
    let scans = |a: &[(u32, u32)], b: &[(u32, u32)], both: &[(u32, u32)], version| {
        let joined = joins(&made(&[], a), &made(&[], b), &[], both);
        assert_eq!(joined[2], version);
    };
    let (a, b) = (apart(0, 8), apart(100, 8));
    scans(&a, &b, &behind(&a, &b), 2);
    scans(&a, &a, &a, 1);
    scans(&a, &b[..1], &behind(&a, &b[..1]), 2);
    // Nine of version 2 that become one.
    scans(&apart(0, 9), &[(0, 100)], &[(0, 100)], 1);
    scans(&apart(0, 64), &[(1, 300)], &[(0, 300)], 1);
}

#[test]
fn a_joined_record_keeps_the_limits() {
    let most = reads(0, 1_024);
    let full = made(&most, &[]);
    refused(&full, &made(&reads(1_024, 1), &[]));
    refused(&made(&reads(1_024, 1), &[]), &full);
    refused(&full, &made(&reads(1, 1_024), &[]));
    joins(&full, &made(&reads(1_023, 1), &[]), &most, &[]);
    joins(&full, &full, &most, &[]);
    let half = made(&most[..513], &[]);
    refused(&half, &made(&reads(513, 512), &[]));
    joins(&half, &made(&most[512..], &[]), &most, &[]);

    let apart = apart(0, 65);
    let full = made(&[], &apart[..64]);
    refused(&full, &made(&[], &apart[64..]));
    refused(&made(&[], &apart[64..]), &full);
    joins(&full, &made(&[], &apart[63..64]), &[], &apart[..64]);
    // 128 scans, of which each shares a key with another.
    let (mut one, mut other) = (vec![], vec![]);
    for &(low, high) in &apart[..64] {
        one.push((low, low));
        other.push((low, high));
    }
    joins(&made(&[], &one), &made(&[], &other), &[], &apart[..64]);
    // The most of both, all puts: the longest record.
    let puts: Vec<Point> = (0..1_024).map(|key| put(10_000 + key, 7)).collect();
    let a = made(&puts[..512], &apart[..32]);
    let b = made(&puts[512..], &apart[32..64]);
    let joined = joins(&a, &b, &puts, &apart[..64]);
    assert_eq!(joined.len(), MOST_RECORD);
}

#[test]
fn snapshots_must_be_the_same() {
    for (a, b) in [(5, 6), (0, u32::MAX), (1, 1 << 24), (256, 0)] {
        let [a, b] = [a, b].map(|snapshot| scanning(snapshot, &[read(1)], &[]).to_bytes());
        refused(&a, &b);
        refused(&b, &a);
    }
    for snapshot in [0, 1, u32::MAX] {
        let record = scanning(snapshot, &[read(1)], &[]).to_bytes();
        assert_eq!(join(&record, &record, record.len()), (0, record.clone()));
    }
}

#[test]
fn what_is_malformed_cannot_be_joined() {
    let good = made(&[read(1), put(7, 70)], &[(20, 30), (40, 50)]);
    let other = made(&[read(2)], &[(60, 70)]);
    assert_eq!(join(&good, &other, 200).0, 0);
    let both_ways = |bytes: &[u8]| {
        refused(bytes, &other);
        refused(&other, bytes);
        refused(bytes, bytes);
    };
    both_ways(&[]);
    for end in 0..good.len() {
        both_ways(&good[..end]);
        // The length says what is there, and it is too little all the same.
        if end >= 2 {
            both_ways(&with_length(&good[2..end]));
        }
    }
    both_ways(&[&good[..], &[0]].concat());
    both_ways(&with_length(&[&good[2..], &[0; 8]].concat()));
    // Another version, kind, order or end.
    for (place, byte) in [
        (2, 2),
        (2, 0),
        (7, 1),
        (7, 3),
        (8, 1),
        (8, 3),
        (9, 4),
        (9, 0),
    ] {
        let mut bytes = good.clone();
        bytes[place] = byte;
        both_ways(&bytes);
    }
    let swapped = |points: &[Point], scans: &[(u32, u32)]| {
        both_ways(&scanning(5, points, scans).to_bytes());
    };
    swapped(&[read(7), read(7)], &[]);
    swapped(&[read(8), read(7)], &[]);
    swapped(&[], &[(9, 8)]);
    swapped(&[], &[(9, 12), (12, 20)]);
    swapped(&[], &[(13, 20), (9, 12)]);
    swapped(&reads(0, 1_025), &[]);
    swapped(&[], &apart(0, 65));
}
