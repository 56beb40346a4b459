//! What a delete writes (R22), sentence by sentence, with what R26, R27, R28, R50 and R51 make of it.

use reference::state::Kept;
use reference::table::{record, scanning};
use reference::{explain, Answer, Limits, Point, Reason, Record, State, Touch};

/// A state of N and Z into which records are melded, with the answer each must get.
struct Card(State);

impl Card {
    fn new(n: u32, z: u32) -> Card {
        Card(State::new(Limits::new(n, z).unwrap()))
    }

    /// Melds a record; this must be its answer.
    fn meld(&mut self, record: &Record, answer: Answer) {
        let v = self.0.position() + 1;
        assert_eq!(self.0.meld(&record.to_bytes()).answer, answer, "at {v}");
    }

    /// Melds a record with snapshot p, which must commit.
    fn commit(&mut self, points: &[Point]) {
        self.meld(&record(self.0.position(), points), Answer::Committed);
    }

    /// The kept keys with their positions; a tombstone's is told as below 0.
    fn kept(&self) -> Vec<(u32, i64)> {
        let told = |kept: &Kept| match kept.payload {
            Some(_) => i64::from(kept.position),
            None => -i64::from(kept.position),
        };
        let kept = self.0.kept().iter();
        kept.map(|(&key, kept)| (key, told(kept))).collect()
    }
}

fn put(key: u32) -> Point {
    Point::put(key, 1)
}

#[test]
fn a_delete_of_a_live_key_writes() {
    let mut card = Card::new(2, 9);
    card.commit(&[put(7)]);
    card.commit(&[Point::delete(7)]);
    assert_eq!(card.kept(), [(7, -2)]);
    card.meld(&record(1, &[Point::read(7)]), Answer::Conflict);
    card.meld(&scanning(1, &[], &[(0, 9)]), Answer::Conflict);
}

#[test]
fn a_delete_of_a_key_that_is_not_kept_writes_nothing() {
    for key in [0, 7, u32::MAX] {
        let mut card = Card::new(2, 9);
        card.commit(&[put(20)]);
        card.commit(&[Point::delete(key)]);
        assert_eq!(card.kept(), [(20, 1)]);
        // It makes no conflict for others, by whatever they touch the key.
        card.meld(&record(1, &[Point::read(key)]), Answer::Committed);
        card.meld(&scanning(1, &[], &[(key, key)]), Answer::Committed);
        card.meld(&record(1, &[Point::delete(key)]), Answer::Committed);
        card.meld(&record(1, &[put(key)]), Answer::Committed);
    }
}

#[test]
fn a_delete_of_a_tombstone_leaves_it_where_it_is() {
    let mut card = Card::new(1, 3);
    card.commit(&[put(7)]);
    card.commit(&[Point::delete(7)]);
    card.commit(&[Point::delete(7)]);
    assert_eq!(card.kept(), [(7, -2)]);
    card.meld(&record(2, &[Point::read(7)]), Answer::Committed);
    // 2 + 3 ≤ 5: what is put finds room, and it goes at its first age.
    card.commit(&[put(8)]);
    assert_eq!(card.kept(), [(8, 5)]);
}

#[test]
fn a_delete_of_an_old_tombstone_leaves_it_too() {
    let mut card = Card::new(2, 1);
    card.commit(&[put(7)]);
    card.commit(&[Point::delete(7)]);
    card.commit(&[]);
    card.commit(&[Point::delete(7)]);
    assert_eq!(card.kept(), [(7, -2)]);
    card.commit(&[put(8), put(9)]);
    assert_eq!(card.kept(), [(8, 5), (9, 5)]);
    // Dropped, it is a key that is not kept.
    card.commit(&[Point::delete(7)]);
    assert_eq!(card.kept(), [(8, 5), (9, 5)]);
}

#[test]
fn it_needs_no_room() {
    let mut card = Card::new(2, 9);
    card.commit(&[put(1)]);
    card.commit(&[Point::delete(2), put(3), Point::delete(4), Point::read(5)]);
    assert_eq!(card.kept(), [(1, 1), (3, 2)]);
    card.commit(&[Point::delete(2)]);
    let many: Vec<Point> = (100..1_124).map(Point::delete).collect();
    card.commit(&many);
    assert_eq!(card.kept(), [(1, 1), (3, 2)]);
    // A put needs it all the same.
    card.meld(&record(4, &[Point::delete(2), put(5)]), Answer::NoRoom);
}

#[test]
fn an_old_tombstone_that_is_deleted_is_not_counted() {
    let mut card = Card::new(2, 1);
    card.commit(&[put(1), put(2)]);
    card.commit(&[Point::delete(1)]);
    card.commit(&[]);
    card.commit(&[Point::delete(1), put(3)]);
    assert_eq!(card.kept(), [(2, 1), (3, 4)]);
}

#[test]
fn it_does_not_make_the_drop_happen() {
    let mut card = Card::new(3, 1);
    card.commit(&[put(1), put(2)]);
    card.commit(&[Point::delete(1)]);
    card.commit(&[]);
    // Kept and written are 1, 2 and 3: exactly N.
    card.commit(&[put(3), Point::delete(4), Point::delete(5)]);
    assert_eq!(card.kept(), [(1, -2), (2, 1), (3, 4)]);
    card.commit(&[Point::delete(4)]);
    assert_eq!(card.kept(), [(1, -2), (2, 1), (3, 4)]);
    // 4 is one more.
    card.commit(&[put(4), Point::delete(5)]);
    assert_eq!(card.kept(), [(2, 1), (3, 4), (4, 6)]);
}

/// Where the record is refused the key stays as it was, live or not.
#[test]
fn live_is_asked_of_the_state_at_p() {
    let mut card = Card::new(1, 9);
    card.commit(&[put(1)]);
    // Refused: no room, then a conflict. 2 was never live.
    card.meld(&record(1, &[put(2)]), Answer::NoRoom);
    card.meld(&record(0, &[put(1)]), Answer::Conflict);
    card.commit(&[Point::delete(2)]);
    assert_eq!(card.kept(), [(1, 1)]);
    card.commit(&[Point::delete(1)]);
    card.commit(&[put(1)]);
    card.commit(&[Point::delete(1)]);
    assert_eq!(card.kept(), [(1, -7)]);
}

#[test]
fn the_record_still_names_the_key() {
    let mut card = Card::new(3, 9);
    card.commit(&[put(7)]);
    card.commit(&[Point::delete(7)]);
    // A tombstone now, but written since.
    card.meld(&record(0, &[Point::delete(7)]), Answer::Conflict);
    card.meld(&record(1, &[Point::delete(7)]), Answer::Conflict);
    card.meld(&record(2, &[Point::delete(7)]), Answer::Committed);
    // Its looks are those of a read.
    card.commit(&[put(4), put(6)]);
    for key in 0..9 {
        for snapshot in 0..7 {
            let of = |point| card.0.verdict(&record(snapshot, &[point]).to_bytes());
            assert_eq!(of(Point::delete(key)), of(Point::read(key)), "{key}");
        }
    }
}

#[test]
fn a_record_that_writes_nothing_takes_its_position() {
    let mut card = Card::new(1, 1);
    card.commit(&[Point::delete(1)]);
    card.commit(&[Point::delete(1)]);
    assert_eq!((card.0.position(), card.kept()), (2, vec![]));
    // With no key kept there is nothing to look at.
    let verdict = card.0.verdict(&record(2, &[Point::delete(1)]).to_bytes());
    assert_eq!((verdict.answer, verdict.looks), (Answer::Committed, 0));
}

/// R50 and R51: the second delete of a key is no writer, and is not counted.
#[test]
fn the_reasons_know_it() {
    let mut card = Card::new(2, 9);
    card.commit(&[put(7), put(9)]);
    card.commit(&[Point::delete(7)]);
    card.commit(&[Point::delete(7), Point::delete(8)]);
    let late = scanning(1, &[], &[(5, 8)]).to_bytes();
    let told = Reason::Conflict {
        key: 7,
        position: 2,
        touch: Touch::Scan(1),
    };
    assert_eq!(explain(&card.0, &late).reason, told);
    let full = record(3, &[put(1), Point::delete(2), Point::delete(7)]).to_bytes();
    let explained = explain(&card.0, &full);
    assert_eq!(explained.verdict.answer, Answer::NoRoom);
    assert_eq!(explained.reason, Reason::NoRoom { keys: 3 });
}
