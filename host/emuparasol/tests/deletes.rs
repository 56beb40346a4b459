//! A delete of a key that is not live writes nothing: R22 sentence by sentence, and the
//! eight rows of R55.

mod common;

use common::{explain, fresh, lookup, meld, status};
use reference::table::{record, records_of_nothing, scanning};
use reference::{Limits, Point, Record};

/// A card's pool, for N = 3 and Z = 4 as in R55.
struct Card {
    pool: Vec<u8>,
}

impl Card {
    fn new() -> Card {
        let limits = Limits::new(3, 4).expect("good limits");
        Card {
            pool: fresh(limits),
        }
    }

    /// Puts of these keys at position 1.
    fn with(keys: &[u32]) -> Card {
        let mut card = Card::new();
        let points: Vec<Point> = keys.iter().map(|&key| Point::put(key, 7)).collect();
        card.commits(0, &points);
        card
    }

    fn position(&self) -> u32 {
        status(&self.pool).1[2]
    }

    /// How many keys are kept, and how many of them have a tombstone.
    fn counts(&self) -> (u32, u32) {
        let (_, [_, _, _, kept, tombstones]) = status(&self.pool);
        (kept, tombstones)
    }

    /// The position of a key's last write, 0 if it is absent.
    fn written(&self, key: u32) -> u32 {
        lookup(&self.pool, key).2
    }

    fn says(&mut self, record: &Record) -> u8 {
        meld(&mut self.pool, &record.to_bytes()).0
    }

    /// A record of points that has to commit.
    fn commits(&mut self, snapshot: u32, points: &[Point]) {
        let said = self.says(&record(snapshot, points));
        assert_eq!(said, 0, "{points:?}");
    }

    /// The same, and nothing but the position may change.
    fn writes_nothing(&mut self, snapshot: u32, points: &[Point]) {
        let (mut before, position) = (self.pool.clone(), self.position());
        self.commits(snapshot, points);
        before[12..16].copy_from_slice(&(position + 1).to_be_bytes());
        assert!(self.pool == before, "{points:?} wrote");
    }
}

/// Would a record with this snapshot that reads the key commit now?
fn read_commits(card: &Card, snapshot: u32, key: u32) -> bool {
    let read = record(snapshot, &[Point::read(key)]).to_bytes();
    explain(&card.pool, &read).0 == 0
}

#[test]
fn puts_and_deletes_of_live_keys_are_written_and_no_others() {
    let mut card = Card::with(&[10, 20]);
    let points = [
        Point::read(10),
        Point::delete(15),
        Point::delete(20),
        Point::put(30, 300),
        Point::delete(40),
    ];
    card.commits(1, &points);
    // 10 as it was, 20 a tombstone, 30 new; 15 and 40 are not kept.
    assert_eq!(card.counts(), (3, 1));
    assert_eq!([10, 20, 30].map(|key| card.written(key)), [1, 0, 2]);
    for (key, commits) in [(10, true), (15, true), (20, false), (30, false), (40, true)] {
        assert_eq!(read_commits(&card, 1, key), commits, "{key}");
    }
}

#[test]
fn a_key_that_is_absent_makes_no_conflict_for_others() {
    let mut card = Card::with(&[10, 20]);
    card.writes_nothing(1, &[Point::delete(15)]);
    for snapshot in [1, 2] {
        assert!(read_commits(&card, snapshot, 15));
    }
    assert_eq!(card.says(&scanning(1, &[], &[(11, 19)])), 0);
    card.commits(1, &[Point::put(15, 1)]);
    // That was a write.
    assert!(!read_commits(&card, 3, 15));
}

#[test]
fn a_tombstone_keeps_its_position() {
    let mut card = Card::with(&[10, 20]);
    card.commits(1, &[Point::delete(20)]);
    assert_eq!(card.counts(), (2, 1));
    for _ in 0..2 {
        let position = card.position();
        card.writes_nothing(position, &[Point::delete(20)]);
    }
    // It was written at 2 and at no later position.
    assert!(!read_commits(&card, 1, 20));
    assert!(read_commits(&card, 2, 20));
    assert!(read_commits(&card, 3, 20));
    // So it is old at 6, which is 2 and 4, and goes when a fourth key comes.
    card.commits(4, &[Point::put(30, 300)]);
    assert_eq!(card.counts(), (3, 1));
    card.commits(5, &[Point::put(40, 400)]);
    assert_eq!(card.counts(), (3, 0));
}

#[test]
fn no_room_is_needed_for_what_is_not_written() {
    let mut card = Card::with(&[10, 20, 30]);
    let absent: Vec<Point> = (100..164).map(Point::delete).collect();
    card.writes_nothing(1, &absent);
    let absent: Vec<Point> = (1_000..2_024).map(Point::delete).collect();
    card.writes_nothing(2, &absent);
    // Beside a put of a kept key, and a delete of a live one.
    card.commits(
        3,
        &[Point::put(10, 1), Point::delete(20), Point::delete(40)],
    );
    assert_eq!(card.counts(), (3, 1));
    // Beside a put of a new key there is no room, for that key alone: four, not five.
    let too_many = record(4, &[Point::put(40, 1), Point::delete(50)]);
    assert_eq!(
        explain(&card.pool, &too_many.to_bytes()).2,
        [0, 0, 0, 0, 0, 4]
    );
    assert_eq!(card.says(&too_many), 3);
}

#[test]
fn nothing_is_dropped_for_what_is_not_written() {
    let mut card = Card::with(&[10, 20, 30]);
    card.commits(1, &[Point::delete(20)]);
    for position in 2..8 {
        card.writes_nothing(position, &[]);
    }
    // The tombstone is old, the pool full: three kept keys and none that is written.
    card.writes_nothing(
        8,
        &[Point::delete(15), Point::delete(20), Point::delete(40)],
    );
    assert_eq!(card.counts(), (3, 1));
    // One that is written: it goes.
    card.commits(9, &[Point::put(40, 400)]);
    assert_eq!(card.counts(), (3, 0));
}

#[test]
fn what_is_live_is_asked_before_the_drop() {
    let mut card = Card::with(&[10, 20, 30]);
    card.commits(1, &[Point::delete(20)]);
    for position in 2..8 {
        card.writes_nothing(position, &[]);
    }
    // 20 has an old tombstone, which goes for 40. Its delete writes nothing: were it a
    // write, four keys would have to be kept.
    card.commits(8, &[Point::delete(20), Point::put(40, 400)]);
    assert_eq!(card.counts(), (3, 0));
    assert_eq!([10, 20, 30, 40].map(|key| card.written(key)), [1, 0, 1, 9]);
    // And a live key that is deleted beside a drop is written.
    let mut card = Card::with(&[10, 20, 30]);
    card.commits(1, &[Point::delete(20)]);
    for position in 2..8 {
        card.writes_nothing(position, &[]);
    }
    card.commits(8, &[Point::delete(10), Point::put(40, 400)]);
    assert_eq!(card.counts(), (3, 1));
}

#[test]
fn a_put_of_a_tombstone_is_written() {
    let mut card = Card::with(&[10, 20, 30]);
    card.commits(1, &[Point::delete(20)]);
    card.commits(2, &[Point::put(20, 5)]);
    assert_eq!((card.counts(), card.written(20)), ((3, 0), 3));
    // It is live again, and a delete of it writes again.
    card.commits(3, &[Point::delete(20)]);
    assert_eq!(card.counts(), (3, 1));
    assert!(!read_commits(&card, 3, 20));
}

#[test]
fn the_record_still_names_the_key() {
    // Live, deleted and absent keys, and every snapshot that is not too old: a delete is
    // in conflict where a read is, with the same looks and the same reason.
    let mut card = Card::with(&[10, 20, 30]);
    card.commits(1, &[Point::delete(20)]);
    card.commits(2, &[Point::put(10, 1)]);
    let mut conflicts = 0;
    for key in [9, 10, 11, 20, 25, 30, u32::MAX] {
        for snapshot in 0..=3 {
            let asked = |point| explain(&card.pool, &record(snapshot, &[point]).to_bytes());
            let said = asked(Point::delete(key));
            assert_eq!(said, asked(Point::read(key)), "{key} at {snapshot}");
            conflicts += u32::from(said.0 == 1);
        }
    }
    // 10 and 20 with snapshots before their writes at 3 and 2, 30 with 0.
    assert_eq!(conflicts, 3 + 2 + 1);
}

#[test]
fn a_record_that_writes_nothing_commits_and_only_the_position_moves() {
    let mut card = Card::new();
    card.writes_nothing(0, &[Point::delete(0), Point::delete(u32::MAX)]);
    card.writes_nothing(1, &[Point::read(5), Point::delete(6)]);
    card.writes_nothing(2, &[]);
    assert_eq!((card.counts(), card.position()), ((0, 0), 3));
}

/// The bytes, the answer and the looks of each row of R55.
const ROWS: [(&str, u8, u32); 8] = [
    (
        "00 21 01 00 00 00 00 02 00 02 00 00 00 0A 00 00 00 00 00 00 00 64 02 00 00 00 14 00 00 00 00 00 00 00 C8",
        0,
        0,
    ),
    ("00 0C 01 00 00 00 01 01 00 03 00 00 00 0F", 0, 1),
    ("00 0F 01 00 00 00 01 00 01 00 00 00 0B 00 00 00 13", 0, 1),
    (
        "00 19 01 00 00 00 03 02 00 03 00 00 00 14 02 00 00 00 1E 00 00 00 00 00 00 01 2C",
        0,
        1,
    ),
    ("00 0C 01 00 00 00 03 01 00 03 00 00 00 14", 1, 4),
    ("00 0C 01 00 00 00 05 01 00 03 00 00 00 19", 0, 1),
    ("00 0C 01 00 00 00 06 01 00 03 00 00 00 14", 0, 1),
    (
        "00 14 01 00 00 00 07 01 00 02 00 00 00 28 00 00 00 00 00 00 01 90",
        0,
        1,
    ),
];

#[test]
fn the_eight_rows() {
    let records = records_of_nothing();
    // Kept keys and tombstones after each.
    let counts = [
        (2, 0),
        (2, 0),
        (2, 0),
        (3, 1),
        (3, 1),
        (3, 1),
        (3, 1),
        (3, 0),
    ];
    let mut card = Card::new();
    for ((record, (bytes, answer, looks)), counts) in records.iter().zip(ROWS).zip(counts) {
        let bytes = bytes
            .split(' ')
            .map(|byte| u8::from_str_radix(byte, 16).expect("a byte"));
        let bytes: Vec<u8> = bytes.collect();
        assert_eq!(record.to_bytes(), bytes);
        assert_eq!(meld(&mut card.pool, &bytes), (answer, looks));
        assert_eq!(card.counts(), counts);
    }
    assert_eq!([10, 20, 30, 40].map(|key| card.written(key)), [1, 0, 4, 8]);
}
