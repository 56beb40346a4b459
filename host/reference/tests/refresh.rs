//! Refresh and the record in force, case by case.

use reference::refresh::{in_force, refresh};
use reference::table::{record, scanning};
use reference::{Answer, Limits, Point, State};

/// N = 3, Z = 2, after put 10 at position 1 and two empty records.
fn state() -> State {
    let mut state = State::new(Limits::new(3, 2).unwrap());
    state.meld(&record(0, &[Point::put(10, 1)]).to_bytes());
    state.meld(&record(1, &[]).to_bytes());
    state.meld(&record(2, &[]).to_bytes());
    state
}

#[test]
fn a_passing_record_gets_the_snapshot_p() {
    let old = record(1, &[Point::read(10), Point::put(20, 7)]).to_bytes();
    let new = record(3, &[Point::read(10), Point::put(20, 7)]).to_bytes();
    let mut out = vec![9; old.len() + 2];
    assert_eq!(refresh(&state(), &old, &mut out), Answer::Committed);
    assert_eq!(out, [&new[..], &[9, 9]].concat());
    assert_eq!(in_force(Answer::Committed, &old, &out), new);
}

/// R38: every byte but the snapshot's as before, the version among them; 13,835 bytes are
/// enough for the longest record there is, and one fewer are not.
#[test]
fn a_record_of_version_2_stays_one() {
    let reads: Vec<Point> = (20..85).map(Point::read).collect();
    let puts: Vec<Point> = (20..1_044).map(|key| Point::put(key, 7)).collect();
    let scans: Vec<(u32, u32)> = (0..64).map(|low| (20 + low, 20 + low)).collect();
    for old in [
        record(1, &reads),
        scanning(1, &[], &scans[..9]),
        scanning(1, &puts, &scans),
    ] {
        let old = old.to_bytes();
        let mut new = old.clone();
        new[6] = 3;
        let mut out = vec![9; 13_835];
        assert_eq!(refresh(&state(), &old, &mut out), Answer::Committed);
        assert_eq!((&out[..old.len()], old[2]), (&new[..], 2));
        assert!(out[old.len()..].iter().all(|&byte| byte == 9));
        assert_eq!(in_force(Answer::Committed, &old, &out), new);
        let mut short = vec![9; old.len() - 1];
        assert_eq!(refresh(&state(), &old, &mut short), Answer::OutputShort);
        assert!(short.iter().all(|&byte| byte == 9));
    }
}

#[test]
fn refusals_leave_the_output_untouched() {
    let mut conflicting = state();
    conflicting.meld(&record(3, &[Point::put(10, 2)]).to_bytes());
    let old = |s| record(s, &[Point::read(10)]).to_bytes();
    let malformed = &old(3)[..5];
    let rows = [
        (malformed, Answer::Malformed),
        (&old(5)[..], Answer::Ahead),
        (&old(1)[..], Answer::TooOld),
        (&old(3)[..], Answer::Conflict),
    ];
    for (bytes, answer) in rows {
        for room in [0, 20] {
            let mut out = vec![9; room];
            assert_eq!(refresh(&conflicting, bytes, &mut out), answer);
            assert_eq!(out, vec![9; room]);
            let expected = if answer == Answer::Ahead { bytes } else { &[] };
            assert_eq!(in_force(answer, bytes, &out), expected);
        }
    }
    let mut short = vec![9; old(4).len() - 1];
    assert_eq!(
        refresh(&conflicting, &old(4), &mut short),
        Answer::OutputShort
    );
    assert!(short.iter().all(|&byte| byte == 9));
}

#[test]
fn refresh_does_not_ask_for_room() {
    let crowded = record(3, &(20..24).map(|k| Point::put(k, 1)).collect::<Vec<_>>()).to_bytes();
    let mut out = vec![0; crowded.len()];
    assert_eq!(refresh(&state(), &crowded, &mut out), Answer::Committed);
    assert_eq!(state().meld(&out).answer, Answer::NoRoom);
}

#[test]
fn the_last_position_does_not_stop_a_refresh() {
    let state = State::empty_at(Limits::new(1, 1).unwrap(), u32::MAX);
    let old = record(u32::MAX - 1, &[]).to_bytes();
    let mut out = [0; 9];
    assert_eq!(refresh(&state, &old, &mut out), Answer::Committed);
    assert_eq!(out[..], record(u32::MAX, &[]).to_bytes());
}

#[test]
fn in_force_is_empty_when_the_log_rule_finds_nothing() {
    let original = record(1, &[]).to_bytes();
    let (torn, one, impossible) = (&original[..8], &original[..1], [0, 6, 1, 0, 0, 0, 0, 0]);
    for refreshed in [
        torn,
        one,
        &[],
        &impossible,
        &[0, 6],
        &[3, 0x88],
        &[0x36, 0x0A],
    ] {
        for answer in Answer::ALL {
            let part = in_force(answer, &original, refreshed);
            let wanted = match answer {
                Answer::Ahead => &original[..],
                _ => &[],
            };
            assert_eq!(part, wanted);
            assert_eq!(part.as_ptr(), original.as_ptr());
        }
    }
}
