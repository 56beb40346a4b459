//! Two records as one: each sentence of R56 and R57, and of R58 what it says, what it leaves
//! open and that its conditions are needed.

use std::collections::BTreeMap;

use reference::joiner::{join, joined};
use reference::state::Kept;
use reference::table::{record, scanning};
use reference::{Answer, Limits, Point, Record, State};

/// What is said, and the output, which was all 9 before and has so many bytes.
fn joined_into(room: usize, a: &Record, b: &Record) -> (Answer, usize, Vec<u8>) {
    let mut out = vec![9; room];
    let (answer, size) = join(&a.to_bytes(), &b.to_bytes(), &mut out);
    (answer, size, out)
}

/// Joining says 0, and the front of the output is this record; the rest is as it was.
fn is(a: &Record, b: &Record, wanted: &Record) {
    let bytes = wanted.written().expect("what is joined is well formed");
    let (answer, size, out) = joined_into(13_835, a, b);
    assert_eq!(answer, Answer::Committed);
    assert_eq!(Record::parse(&out[..size]).as_ref(), Ok(wanted));
    assert_eq!(out[..size], bytes);
    assert!(out[size..].iter().all(|&byte| byte == 9));
    assert_eq!(joined(a, b), *wanted);
    let (answer, size, out) = joined_into(bytes.len(), a, b);
    assert_eq!(
        (answer, size, out),
        (Answer::Committed, bytes.len(), bytes.clone())
    );
    let short = vec![9; bytes.len() - 1];
    let said = (Answer::OutputShort, 0, short);
    assert_eq!(joined_into(bytes.len() - 1, a, b), said);
}

/// Joining says 12 and changes nothing, whatever the output.
fn cannot(a: &[u8], b: &[u8]) {
    for room in [0, 8, 20, 13_835, 20_000] {
        let mut out = vec![9; room];
        assert_eq!(join(a, b, &mut out), (Answer::CannotJoin, 0));
        assert!(out.iter().all(|&byte| byte == 9));
    }
}

fn cannot_join(a: &Record, b: &Record) {
    cannot(&a.to_bytes(), &b.to_bytes());
}

/// So many points of a kind, from a key on.
fn points(count: u32, from: u32, point: impl Fn(u32) -> Point) -> Vec<Point> {
    (from..from + count).map(point).collect()
}

/// Scans of one key each, every second one from a key on.
fn single(count: u32, from: u32) -> Vec<(u32, u32)> {
    let low = |index: u32| from + 2 * index;
    (0..count).map(|index| (low(index), low(index))).collect()
}

/// Records with these scans and nothing else, joined.
fn scans_of(a: &[(u32, u32)], b: &[(u32, u32)], wanted: &[(u32, u32)]) {
    let of = |scans: &[(u32, u32)]| scanning(7, &[], scans);
    is(&of(a), &of(b), &of(wanted));
    is(&of(b), &of(a), &of(wanted));
}

#[test]
fn nothing_and_something() {
    let nothing = record(3, &[]);
    let some = scanning(3, &[Point::put(4, 40), Point::read(5)], &[(1, 2)]);
    is(&nothing, &nothing, &nothing);
    is(&nothing, &some, &some);
    is(&some, &nothing, &some);
}

#[test]
fn malformed_is_12_and_not_4() {
    let good = record(0, &[Point::read(1)]).to_bytes();
    let twice = record(0, &[Point::read(1), Point::read(1)]).to_bytes();
    let longer = [&good[..], &[0]].concat();
    for bad in [&twice[..], &good[1..], &good[..9], &longer, &[]] {
        cannot(bad, &good);
        cannot(&good, bad);
        cannot(bad, bad);
    }
}

#[test]
fn other_snapshots_are_12() {
    for snapshot in [0, 2, 256, u32::MAX] {
        cannot_join(&record(1, &[]), &record(snapshot, &[]));
        is(
            &record(snapshot, &[]),
            &record(snapshot, &[]),
            &record(snapshot, &[]),
        );
    }
}

/// b names or scans a key that a puts or deletes; not one that a reads or scans.
#[test]
fn what_a_writes_b_may_not_touch() {
    for key in [0, 10, u32::MAX] {
        let (below, above) = (key.saturating_sub(1), key.saturating_add(1));
        for written in [Point::put(key, 0), Point::delete(key)] {
            let a = record(0, &[written]);
            for named in [Point::read(key), Point::put(key, 0), Point::delete(key)] {
                cannot_join(&a, &record(0, &[named]));
            }
            for scan in [
                (key, key),
                (below, key),
                (key, above),
                (below, above),
                (0, u32::MAX),
            ] {
                cannot_join(&a, &scanning(0, &[], &[scan]));
            }
        }
    }
    let a = record(0, &[Point::delete(5), Point::put(9, 1)]);
    let b = scanning(0, &[Point::put(8, 2)], &[(0, 4), (6, 8), (10, 99)]);
    let both = [Point::delete(5), Point::put(8, 2), Point::put(9, 1)];
    is(&a, &b, &scanning(0, &both, &[(0, 4), (6, 8), (10, 99)]));
}

/// a may name or scan what b writes: the entry is b's, and what a scans stays scanned.
#[test]
fn what_b_writes_a_may_touch() {
    let a = scanning(
        2,
        &[Point::read(1), Point::read(2), Point::read(3)],
        &[(4, 8)],
    );
    let b = record(
        2,
        &[
            Point::put(1, 11),
            Point::delete(2),
            Point::read(3),
            Point::put(5, 55),
            Point::delete(6),
        ],
    );
    is(&a, &b, &scanning(2, &b.points, &[(4, 8)]));
    cannot_join(&b, &a);
}

#[test]
fn what_only_one_names_is_as_it_was() {
    let a = record(
        1,
        &[
            Point::read(1),
            Point::put(4, 5),
            Point::delete(7),
            Point::read(9),
        ],
    );
    let b = record(
        1,
        &[
            Point::delete(0),
            Point::read(2),
            Point::put(9, 6),
            Point::read(u32::MAX),
        ],
    );
    let both = [
        Point::delete(0),
        Point::read(1),
        Point::read(2),
        Point::put(4, 5),
        Point::delete(7),
        Point::put(9, 6),
        Point::read(u32::MAX),
    ];
    is(&a, &b, &record(1, &both));
}

#[test]
fn scans_that_share_a_key_become_one() {
    // Equal, inside, over each other, at one key only.
    scans_of(&[(3, 9)], &[(3, 9)], &[(3, 9)]);
    scans_of(&[(3, 9)], &[(5, 6)], &[(3, 9)]);
    scans_of(&[(3, 9)], &[(3, 6)], &[(3, 9)]);
    scans_of(&[(3, 9)], &[(6, 9)], &[(3, 9)]);
    scans_of(&[(3, 9)], &[(7, 12)], &[(3, 12)]);
    scans_of(&[(3, 9)], &[(9, 12)], &[(3, 12)]);
    scans_of(&[(3, 9)], &[(9, 9)], &[(3, 9)]);
    scans_of(&[(5, 5)], &[(5, 5)], &[(5, 5)]);
}

#[test]
fn and_so_on_until_none_do() {
    scans_of(&[(1, 4), (8, 11)], &[(4, 8)], &[(1, 11)]);
    scans_of(
        &[(1, 4), (8, 11), (20, 21)],
        &[(3, 9), (11, 20)],
        &[(1, 21)],
    );
    scans_of(
        &[(0, 2), (4, 6), (8, 10), (30, 40)],
        &[(0, 20)],
        &[(0, 20), (30, 40)],
    );
    scans_of(
        &[(1, 1), (3, 3), (5, 5)],
        &[(1, 3), (5, 6)],
        &[(1, 3), (5, 6)],
    );
    let (even, odd): (Vec<_>, Vec<_>) = (0..128)
        .map(|index| (10 * index, 10 * index + 10))
        .partition(|scan| scan.0 % 20 == 0);
    scans_of(&even, &odd, &[(0, 1_280)]);
}

#[test]
fn scans_that_only_touch_stay_two() {
    scans_of(&[(9, 12)], &[(13, 20)], &[(9, 12), (13, 20)]);
    scans_of(
        &[(9, 12), (21, 30)],
        &[(13, 20)],
        &[(9, 12), (13, 20), (21, 30)],
    );
    scans_of(&[(9, 12), (13, 20)], &[(12, 12)], &[(9, 12), (13, 20)]);
    scans_of(&[(9, 12), (13, 20)], &[(12, 13)], &[(9, 20)]);
    let last = u32::MAX;
    scans_of(
        &[(0, last - 1)],
        &[(last, last)],
        &[(0, last - 1), (last, last)],
    );
    scans_of(&[(0, 0)], &[(1, last)], &[(0, 0), (1, last)]);
    scans_of(&[(0, 7), (9, last)], &[(7, 9)], &[(0, last)]);
}

/// R53 by the counts of the joined record alone.
#[test]
fn the_version_is_its_own() {
    let version = |a: &Record, b: &Record| joined_into(13_835, a, b).2[2];
    let reads = |count, from| record(0, &points(count, from, Point::read));
    let scans = |scans: &[(u32, u32)]| scanning(0, &[], scans);
    assert_eq!(version(&reads(64, 0), &reads(64, 0)), 1);
    assert_eq!(version(&reads(64, 0), &reads(1, 63)), 1);
    assert_eq!(version(&reads(64, 0), &reads(1, 64)), 2);
    assert_eq!(version(&reads(64, 0), &reads(64, 64)), 2);
    assert_eq!(version(&reads(32, 0), &reads(32, 40)), 1);
    assert_eq!(version(&reads(65, 0), &reads(0, 0)), 2);
    assert_eq!(version(&scans(&single(8, 0)), &scans(&single(1, 16))), 2);
    assert_eq!(version(&scans(&single(8, 0)), &scans(&single(1, 4))), 1);
    assert_eq!(version(&scans(&single(9, 0)), &scans(&single(9, 0))), 2);
    assert_eq!(version(&scans(&single(9, 0)), &scans(&[(0, 99)])), 1);
    // Both of version 2, and joined of version 1.
    let twos: Vec<(u32, u32)> = (0..9).map(|at| (2 * at, 2 * at + 1)).collect();
    let shifted: Vec<(u32, u32)> = (0..9).map(|at| (2 * at + 1, 2 * at + 2)).collect();
    assert_eq!(version(&scans(&twos), &scans(&shifted)), 1);
}

#[test]
fn the_limits_are_those_of_the_joined_record() {
    let reads = |count, from| record(0, &points(count, from, Point::read));
    is(&reads(1_024, 0), &reads(1_024, 0), &reads(1_024, 0));
    is(&reads(1_024, 0), &reads(1, 1_023), &reads(1_024, 0));
    cannot_join(&reads(1_024, 0), &reads(1, 1_024));
    cannot_join(&reads(1, 0), &reads(1_024, 1));
    is(&reads(512, 0), &reads(512, 512), &reads(1_024, 0));
    cannot_join(&reads(512, 0), &reads(513, 512));
    let scans = |scans: &[(u32, u32)]| scanning(0, &[], scans);
    is(
        &scans(&single(64, 0)),
        &scans(&single(64, 0)),
        &scans(&single(64, 0)),
    );
    is(
        &scans(&single(63, 0)),
        &scans(&single(1, 126)),
        &scans(&single(64, 0)),
    );
    cannot_join(&scans(&single(64, 0)), &scans(&single(1, 128)));
    cannot_join(&scans(&single(64, 0)), &scans(&single(64, 1)));
    let longest = |from| points(512, from, |key| Point::put(key, 1));
    let a = scanning(0, &longest(0), &single(32, 2_000));
    let b = scanning(0, &longest(512), &single(32, 2_064));
    assert_eq!(joined_into(13_835, &a, &b).1, 13_835);
    assert_eq!(joined_into(13_834, &a, &b).0, Answer::OutputShort);
}

#[test]
fn twelve_is_said_before_eight() {
    let a = record(0, &[Point::put(1, 1)]).to_bytes();
    let b = record(0, &[Point::read(1)]).to_bytes();
    assert_eq!(join(&a, &b, &mut []), (Answer::CannotJoin, 0));
    assert_eq!(join(&a, &a[1..], &mut []), (Answer::CannotJoin, 0));
    assert_eq!(join(&b, &b, &mut []), (Answer::OutputShort, 0));
}

/// A state with N, Z and p, and what it keeps: key, position and payload.
fn state(n: u32, z: u32, p: u32, kept: &[(u32, u32, Option<u64>)]) -> State {
    let entry = |&(key, position, payload): &(u32, u32, Option<u64>)| {
        let kept = Kept { position, payload };
        (key, kept)
    };
    let kept: BTreeMap<u32, Kept> = kept.iter().map(entry).collect();
    State::of_kept(Limits::new(n, z).unwrap(), p, kept)
}

/// The answers to j, to a and to b behind a, and the states afterwards.
fn both_ways(state: &State, a: &Record, b: &Record) -> ([u8; 3], State, State) {
    let (answer, size, out) = joined_into(13_835, a, b);
    assert_eq!(answer, Answer::Committed);
    let (mut at_once, mut in_turn) = (state.clone(), state.clone());
    let j = at_once.meld(&out[..size]).answer.number();
    let one = in_turn.meld(&a.to_bytes()).answer.number();
    let other = in_turn.meld(&b.to_bytes()).answer.number();
    ([j, one, other], at_once, in_turn)
}

/// What b wrote stands at v after j, and at v + 1 after a and b.
#[test]
fn a_commit_has_the_same_payloads() {
    let before = state(4, 3, 5, &[(1, 2, Some(10)), (2, 3, Some(20))]);
    let a = record(5, &[Point::read(1), Point::delete(2)]);
    let b = record(5, &[Point::put(1, 11), Point::put(3, 33)]);
    let (answers, at_once, in_turn) = both_ways(&before, &a, &b);
    assert_eq!(answers, [0, 0, 0]);
    let looked_up = |state: &State| [1, 2, 3].map(|key| state.lookup(key));
    assert_eq!(looked_up(&at_once), [Some((11, 6)), None, Some((33, 6))]);
    assert_eq!(looked_up(&in_turn), [Some((11, 7)), None, Some((33, 7))]);
}

#[test]
fn a_conflict_is_one_of_either() {
    let before = state(4, 3, 5, &[(1, 5, Some(10)), (2, 3, None)]);
    let [reads_1, reads_2] = [1, 2].map(|key| record(4, &[Point::read(key), Point::read(9)]));
    assert_eq!(both_ways(&before, &reads_1, &reads_2).0, [1, 1, 0]);
    assert_eq!(both_ways(&before, &reads_2, &reads_1).0, [1, 0, 1]);
    assert_eq!(both_ways(&before, &reads_1, &reads_1).0, [1, 1, 1]);
}

/// v − s = Z: the tombstone at s + 1 that b needs is the youngest that a may not drop.
#[test]
fn a_does_not_drop_the_tombstone_that_b_needs() {
    let before = state(2, 4, 7, &[(1, 4, None), (2, 5, None)]);
    let a = record(4, &[Point::put(8, 1)]);
    let b = record(4, &[Point::read(2)]);
    let (answers, _, in_turn) = both_ways(&before, &a, &b);
    assert_eq!(answers, [1, 0, 1]);
    let kept: Vec<u32> = in_turn.kept().keys().copied().collect();
    assert_eq!(kept, [2, 8]);
}

/// Without v − s ≤ Z, b is too old behind a; without v + 1, it has no position.
#[test]
fn the_conditions_are_needed() {
    let nothing = record(2, &[]);
    let before = state(2, 4, 6, &[]);
    assert_eq!(both_ways(&before, &nothing, &nothing).0, [0, 0, 2]);
    let before = state(2, 4, 5, &[]);
    assert_eq!(both_ways(&before, &nothing, &nothing).0, [0, 0, 0]);
    for (p, answers) in [(u32::MAX - 2, [0, 0, 0]), (u32::MAX - 1, [0, 0, 6])] {
        let nothing = record(p, &[]);
        assert_eq!(
            both_ways(&state(2, 4, p, &[]), &nothing, &nothing).0,
            answers
        );
    }
}

/// A tombstone that is too young at v and old enough at v + 1: there is no room for both
/// at once, and there is one by one.
#[test]
fn no_room_for_both_at_once_says_nothing() {
    let before = state(2, 2, 5, &[(1, 5, None)]);
    let a = record(5, &[Point::put(2, 1)]);
    let b = record(5, &[Point::put(3, 1)]);
    assert_eq!(both_ways(&before, &a, &b).0, [3, 0, 0]);
    let before = state(2, 3, 5, &[(1, 5, None)]);
    assert_eq!(both_ways(&before, &a, &b).0, [3, 0, 3]);
}
