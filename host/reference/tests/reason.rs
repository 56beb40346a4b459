//! The reason of an answer (R50), case by case.

use reference::program::join;
use reference::reason::{lines, lines_unread, run};
use reference::table::{self, record, scanning};
use reference::{explain, Answer, Explained, Limits, Point, Reason, Record, State, Touch};

/// The state after these records.
fn state(n: u32, z: u32, records: &[Record]) -> State {
    let mut state = State::new(Limits::new(n, z).unwrap());
    for record in records {
        state.meld(&record.to_bytes());
    }
    state
}

/// The reason of a record, whose answer must be this one.
fn reason(state: &State, record: &Record, answer: Answer) -> Reason {
    let explained = explain(state, &record.to_bytes());
    assert_eq!(explained.verdict.answer, answer);
    explained.reason
}

/// A key, where it was written and what touched it.
fn conflict(key: u32, position: u32, touch: Touch) -> Reason {
    Reason::Conflict {
        key,
        position,
        touch,
    }
}

#[test]
fn the_eleven_rows() {
    let expected = "1 0 0 0 0 0 0 0 0\n2 1 2 10 1 1 0 0 0\n3 0 1 0 0 0 0 0 0\n\
                    4 1 5 30 3 1 0 0 0\n5 0 1 0 0 0 0 0 0\n6 3 1 0 0 0 0 0 4\n\
                    7 1 4 20 5 1 0 0 0\n8 2 0 0 0 0 0 5 0\n9 0 1 0 0 0 0 0 0\n\
                    10 5 0 0 0 0 0 0 0\n11 0 1 0 0 0 0 0 0\nend\n";
    assert_eq!(lines(&table::input()), expected);
}

#[test]
fn the_smallest_key_wherever_it_stands_and_whenever_it_was_written() {
    let writes = [5, 1, 3, 9].map(|key| record(0, &[Point::put(key, 1)]));
    let state = state(9, 9, &writes);
    let answer = Answer::Conflict;
    let points = record(0, &[Point::read(3), Point::read(5), Point::read(9)]);
    assert_eq!(
        reason(&state, &points, answer),
        conflict(3, 3, Touch::Point(1))
    );
    let scans = scanning(0, &[Point::read(5)], &[(0, 0), (2, 3), (4, 9)]);
    assert_eq!(
        reason(&state, &scans, answer),
        conflict(3, 3, Touch::Scan(2))
    );
    // 1 and 5 were written at the snapshot or before it.
    let later = scanning(2, &[Point::read(1), Point::read(9)], &[(0, 9)]);
    assert_eq!(
        reason(&state, &later, answer),
        conflict(3, 3, Touch::Scan(1))
    );
    let last = scanning(3, &[Point::read(1), Point::read(9)], &[(0, 9)]);
    assert_eq!(
        reason(&state, &last, answer),
        conflict(9, 4, Touch::Point(2))
    );
}

#[test]
fn a_point_before_a_scan_and_numbers_from_1_on() {
    let puts = [0, 64, u32::MAX].map(|key| Point::put(key, 1));
    let state = state(9, 9, &[record(0, &[]), record(1, &puts)]);
    let answer = Answer::Conflict;
    let reads: Vec<Point> = (1..=64).map(Point::read).collect();
    for scans in [&[][..], &[(64, 64)], &[(1, 100)]] {
        let found = reason(&state, &scanning(1, &reads, scans), answer);
        assert_eq!(found, conflict(64, 2, Touch::Point(64)));
    }
    let eight: Vec<(u32, u32)> = (1..=8).map(|index| (index * 8, index * 8)).collect();
    let found = reason(&state, &scanning(1, &reads[..63], &eight), answer);
    assert_eq!(found, conflict(64, 2, Touch::Scan(8)));
    let lowest = scanning(1, &[Point::delete(u32::MAX)], &[(0, u32::MAX)]);
    let found = reason(&state, &lowest, answer);
    assert_eq!(found, conflict(0, 2, Touch::Scan(1)));
    let highest = scanning(1, &[Point::delete(u32::MAX)], &[(65, u32::MAX)]);
    let found = reason(&state, &highest, answer);
    assert_eq!(found, conflict(u32::MAX, 2, Touch::Point(1)));
}

#[test]
fn the_last_committed_write_a_delete_too() {
    let records = [
        record(0, &[Point::put(7, 1)]),
        record(1, &[Point::put(7, 2)]),
        record(2, &[Point::delete(7)]),
        // Refused, and so no writer.
        record(0, &[Point::put(7, 3)]),
        record(9, &[Point::put(7, 3)]),
        record(5, &[Point::read(7)]),
    ];
    let state = state(1, 9, &records);
    for snapshot in 0..3 {
        let found = reason(
            &state,
            &record(snapshot, &[Point::put(7, 4)]),
            Answer::Conflict,
        );
        assert_eq!(found, conflict(7, 3, Touch::Point(1)));
    }
    let found = reason(&state, &record(3, &[Point::put(7, 4)]), Answer::Committed);
    assert_eq!(found, Reason::Nothing);
}

#[test]
fn the_lag_is_that_of_the_snapshot() {
    let limits = Limits::new(1, 4).unwrap();
    for position in [5, 6, 100, u32::MAX - 1] {
        let state = State::empty_at(limits, position);
        let found = reason(&state, &record(0, &[Point::put(1, 1)]), Answer::TooOld);
        assert_eq!(found, Reason::TooOld { lag: position });
        let found = reason(&state, &record(position - 5, &[]), Answer::TooOld);
        assert_eq!(found, Reason::TooOld { lag: 5 });
    }
}

#[test]
fn too_old_tells_nothing_of_a_conflict() {
    let state = state(1, 1, &[record(0, &[Point::put(1, 1)]), record(1, &[])]);
    let found = reason(&state, &record(0, &[Point::read(1)]), Answer::TooOld);
    assert_eq!(found, Reason::TooOld { lag: 2 });
}

/// Live 1 and 2, a tombstone of 3 at 2 and one of 4 at 3, with N = 4 and Z = 3.
#[test]
fn the_keys_that_have_to_find_room_each_once() {
    let puts: Vec<Point> = (1..=4).map(|key| Point::put(key, 1)).collect();
    let mut state = state(
        4,
        3,
        &[
            record(0, &puts),
            record(1, &[Point::delete(3)]),
            record(2, &[Point::delete(4)]),
        ],
    );
    let five = record(3, &[Point::put(5, 1)]);
    let mixed = record(
        3,
        &[
            Point::put(1, 2),
            Point::read(2),
            Point::put(4, 2),
            // Not live, and so not counted.
            Point::delete(6),
            Point::put(7, 1),
            Point::put(8, 1),
        ],
    );
    let old_one = record(3, &[Point::put(3, 2), Point::put(5, 1), Point::put(6, 1)]);
    let keys = |state: &State, record: &Record| {
        let found = reason(state, record, Answer::NoRoom);
        let Reason::NoRoom { keys } = found else {
            panic!("{found:?}");
        };
        keys
    };
    assert_eq!(
        [&five, &mixed, &old_one].map(|record| keys(&state, record)),
        [5, 6, 6]
    );
    // At 5 the tombstone of 3 has its age, at 6 that of 4.
    state.meld(&record(3, &[]).to_bytes());
    assert_eq!(
        [&mixed, &old_one].map(|record| keys(&state, record)),
        [5, 6]
    );
    state.meld(&record(4, &[]).to_bytes());
    assert_eq!(
        [&mixed, &old_one].map(|record| keys(&state, record)),
        [5, 5]
    );
    assert_eq!(reason(&state, &five, Answer::Committed), Reason::Nothing);
}

#[test]
fn other_answers_have_no_reason() {
    let state = state(1, 1, &[record(0, &[Point::put(1, 1)])]);
    let good = record(1, &[Point::put(1, 1)]).to_bytes();
    let nothing = |state: &State, bytes: &[u8], answer: Answer| {
        let Explained { verdict, reason } = explain(state, bytes);
        assert_eq!((verdict.answer, reason), (answer, Reason::Nothing));
    };
    nothing(&state, &good, Answer::Committed);
    nothing(&state, &good[1..], Answer::Malformed);
    nothing(&state, &[], Answer::Malformed);
    nothing(&state, &record(2, &[]).to_bytes(), Answer::Ahead);
    let last = State::empty_at(Limits::new(1, 1).unwrap(), u32::MAX);
    nothing(&last, &good, Answer::PositionsUsedUp);
    nothing(&last, &[], Answer::PositionsUsedUp);
}

#[test]
fn the_lines_end_as_those_of_the_program_at_full_size() {
    let one = record(0, &[]).to_bytes();
    let line = "1 0 0 0 0 0 0 0 0\n";
    assert_eq!(lines(&join(65_536, 4_096, &one)), format!("{line}end\n"));
    assert_eq!(lines(&join(1, 1, &one[..8])), "10\n");
    assert_eq!(
        lines(&join(1, 1, &[&one[..], &[0]].concat())),
        format!("{line}10\n")
    );
    assert_eq!(lines(&join(65_537, 1, &one)), "9\n");
    assert_eq!(lines(&join(1, 0, &one)), "9\n");
    assert_eq!(lines(&one[..7]), "9\n");
    assert_eq!(lines_unread(&join(1, 1, &[&one[..], &[0]].concat())), line);
    assert_eq!(
        lines_unread(&join(1, 1, &[&one[..], &[0, 0]].concat())),
        format!("{line}11\n")
    );
    for length in [0_u16, 6, 13_834, u16::MAX] {
        for behind in [&[][..], &[1], &one] {
            let log = [&one[..], &length.to_be_bytes(), behind].concat();
            assert_eq!(lines(&join(1, 1, &log)), format!("{line}11\n"));
        }
    }
    for length in [7_u16, 903, 904, 13_833] {
        let log = [&one[..], &length.to_be_bytes(), &[1; 6]].concat();
        assert_eq!(lines(&join(1, 1, &log)), format!("{line}10\n"));
    }
    assert_eq!(lines_unread(&one[..7]), "");
    assert_eq!(lines_unread(&join(0, 1, &one)), "9\n");
}

#[test]
fn explaining_changes_nothing() {
    let run = run(&table::input()).unwrap();
    let melded = reference::program::run(&table::input()).unwrap();
    assert_eq!(run.state, melded.state);
    let verdicts: Vec<_> = run.verdicts.iter().map(|told| told.verdict).collect();
    assert_eq!(verdicts, melded.verdicts);
}
