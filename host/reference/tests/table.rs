//! The eleven rows of R44 and the eight of R55, their byte strings, edges and easy mistakes.

use reference::program::{join, lines, lines_unread, lines_up_to, run, FULL_N, MOST_N};
use reference::table::{self, log, record, scanning};
use reference::{Answer, Ending, Limits, Point, Record, State};

/// The answers and looks for a log.
fn verdicts(n: u32, z: u32, records: &[Record]) -> Vec<(u8, u32)> {
    let run = run(&join(n, z, &log(records))).unwrap();
    assert_eq!(run.ending, Ending::End);
    let pairs = run.verdicts.iter();
    pairs
        .map(|verdict| (verdict.answer.number(), verdict.looks))
        .collect()
}

/// Only the answers.
fn answers(n: u32, z: u32, records: &[Record]) -> Vec<u8> {
    let verdicts = verdicts(n, z, records);
    verdicts.into_iter().map(|(answer, _)| answer).collect()
}

#[test]
fn the_eleven_rows() {
    let found = verdicts(table::N, table::Z, &table::records());
    assert_eq!(found, table::VERDICTS);
    let state = run(&table::input()).unwrap().state;
    assert_eq!(
        state.kept().keys().copied().collect::<Vec<_>>(),
        [10, 30, 40]
    );
    assert_eq!(state.lookup(10), Some((100, 1)));
    assert_eq!(state.lookup(20), None);
    assert_eq!(state.lookup(40), Some((400, 9)));
}

#[test]
fn the_eleven_lines() {
    let expected =
        "1 0 0\n2 1 2\n3 0 1\n4 1 5\n5 0 1\n6 3 1\n7 1 4\n8 2 0\n9 0 1\n10 5 0\n11 0 1\n";
    assert_eq!(lines(&table::input()), format!("{expected}end\n"));
}

#[test]
fn the_eight_rows() {
    let found = verdicts(table::N, table::Z, &table::records_of_nothing());
    assert_eq!(found, table::VERDICTS_OF_NOTHING);
    let state = run(&table::input_of_nothing()).unwrap().state;
    assert_eq!(
        state.kept().keys().copied().collect::<Vec<_>>(),
        [10, 30, 40]
    );
    assert_eq!(state.lookup(10), Some((100, 1)));
    assert_eq!(state.lookup(30), Some((300, 4)));
    assert_eq!(state.lookup(40), Some((400, 8)));
}

#[test]
fn the_eight_lines() {
    let expected = "1 0 0\n2 0 1\n3 0 1\n4 0 1\n5 1 4\n6 0 1\n7 0 1\n8 0 1\n";
    assert_eq!(
        lines(&table::input_of_nothing()),
        format!("{expected}end\n")
    );
}

/// The rows of a rule that docs/RULES.md prints: bytes, answer and looks.
fn printed(rule: &str) -> Vec<(Vec<u8>, (u8, u32))> {
    let page = include_str!("../../../docs/RULES.md");
    let start = page
        .find(&format!("\n**{rule}. "))
        .expect("the rule is there");
    let lines = page[start..].lines();
    let table = lines.skip_while(|line| !line.starts_with('|')).skip(2);
    let table = table.take_while(|line| line.starts_with('|'));
    let row = |line: &str| {
        let cells: Vec<&str> = line.split('|').map(str::trim).collect();
        let bytes = cells[3].trim_matches('`').split(' ');
        let bytes = bytes.map(|byte| u8::from_str_radix(byte, 16).expect("a byte"));
        let verdict = (cells[4].parse().unwrap(), cells[5].parse().unwrap());
        (bytes.collect(), verdict)
    };
    table.map(row).collect()
}

#[test]
fn both_tables_are_as_printed() {
    let of = |records: Vec<Record>, verdicts: &[(u8, u32)]| -> Vec<(Vec<u8>, (u8, u32))> {
        let bytes = records.iter().map(|record| record.written().unwrap());
        bytes.zip(verdicts.iter().copied()).collect()
    };
    assert_eq!(printed("R44"), of(table::records(), &table::VERDICTS));
    assert_eq!(
        printed("R55"),
        of(table::records_of_nothing(), &table::VERDICTS_OF_NOTHING)
    );
}

#[test]
fn the_two_byte_strings() {
    let read = record(1, &[Point::read(30)]);
    let put = scanning(1, &[Point::put(30, 300)], &[(11, 19)]);
    assert_eq!(read.written().unwrap(), table::READ_30);
    assert_eq!(put.written().unwrap(), table::PUT_30_SCAN);
    assert_eq!(Record::parse(&table::READ_30), Ok(read));
    assert_eq!(Record::parse(&table::PUT_30_SCAN), Ok(put));
}

#[test]
fn an_aborted_record_is_no_writer() {
    let mut records = table::records();
    records[2] = record(1, &[Point::read(10)]);
    assert_eq!(answers(3, 4, &records[..3]), [0, 1, 0]);
}

#[test]
fn a_tombstone_is_not_dropped_a_position_early() {
    let mut records = table::records();
    records[7] = record(7, &[Point::put(40, 400)]);
    assert_eq!(answers(3, 4, &records[..8])[7], 3);
    records[7] = table::records()[7].clone();
    assert_eq!(answers(3, 4, &records[..9])[8], 0);
}

#[test]
fn edges_of_the_zone() {
    let empty = |s| record(s, &[]);
    let log = [empty(0), empty(0), empty(0), empty(0)];
    assert_eq!(answers(1, 2, &log), [0, 0, 0, 2]);
    assert_eq!(answers(1, 2, &[empty(0), empty(1), empty(3)]), [0, 0, 5]);
}

#[test]
fn edges_of_the_room() {
    let puts = |count| record(0, &(0..count).map(|k| Point::put(k, 1)).collect::<Vec<_>>());
    assert_eq!(answers(3, 4, &[puts(3)]), [0]);
    assert_eq!(answers(3, 4, &[puts(4)]), [3]);
    let log = [
        record(0, &[Point::put(7, 1)]),
        record(1, &[Point::delete(7)]),
        record(2, &[Point::put(8, 0)]),
    ];
    assert_eq!(answers(1, 4, &log), [0, 0, 3]);
}

#[test]
fn only_9_for_bad_limits() {
    for length in 0..8 {
        assert_eq!(lines(&table::input()[..length]), "9\n");
    }
    for (n, z) in [(0, 4), (1_001, 4), (65_536, 4), (3, 0), (3, 4_097)] {
        assert_eq!(lines(&join(n, z, &table::READ_30)), "9\n");
    }
    for (n, z) in [(1, 1), (1_000, 4_096)] {
        assert_eq!(lines(&join(n, z, &[])), "end\n");
    }
}

#[test]
fn limits_of_a_pool() {
    assert!(Limits::new(65_536, 4_096).is_ok());
    for (n, z) in [(0, 1), (65_537, 1), (1, 0), (1, 4_097)] {
        assert_eq!(Limits::new(n, z), Err(Answer::BadLimits));
    }
}

#[test]
fn positions_used_up() {
    let mut state = State::empty_at(Limits::new(1, 1).unwrap(), u32::MAX - 1);
    let last = record(u32::MAX - 1, &[Point::put(5, 6)]).to_bytes();
    assert_eq!(state.meld(&last).answer, Answer::Committed);
    assert_eq!(state.lookup(5), Some((6, u32::MAX)));
    let before = state.clone();
    assert_eq!(state.meld(&last).answer, Answer::PositionsUsedUp);
    assert_eq!(state, before);
}

#[test]
fn the_program_at_full_size_takes_65536_keys() {
    for (n, line) in [
        (0, "9\n"),
        (1, "end\n"),
        (1_000, "end\n"),
        (1_001, "end\n"),
        (65_536, "end\n"),
        (65_537, "9\n"),
    ] {
        assert_eq!(lines_up_to(FULL_N, &join(n, 4, &[])), line);
    }
    assert_eq!(lines_up_to(FULL_N, &table::input()), lines(&table::input()));
}

#[test]
fn an_input_that_cannot_be_read_on_has_no_closing_line() {
    let whole = table::input();
    let records = lines(&whole).replace("end\n", "");
    assert_eq!(lines_unread(MOST_N, &whole), records);
    assert_eq!(lines_unread(MOST_N, &whole[..50]), "1 0 0\n");
    assert_eq!(lines_unread(MOST_N, &whole[..8]), "");
    assert_eq!(lines_unread(MOST_N, &whole[..7]), "");
    assert_eq!(lines_unread(MOST_N, &join(0, 4, &[])), "9\n");
    assert_eq!(lines_unread(MOST_N, &join(3, 4, &[0])), "");
    assert_eq!(lines_unread(MOST_N, &join(3, 4, &[0xFF])), "");
    assert_eq!(lines_unread(MOST_N, &join(3, 4, &[0, 6])), "11\n");
    assert_eq!(lines_unread(MOST_N, &join(3, 4, &[0, 7])), "");
    assert_eq!(lines_unread(MOST_N, &join(3, 4, &[3, 0x87])), "");
    assert_eq!(lines_unread(MOST_N, &join(3, 4, &[3, 0x88])), "");
    assert_eq!(lines_unread(MOST_N, &join(3, 4, &[0x36, 0x09])), "");
    assert_eq!(lines_unread(MOST_N, &join(3, 4, &[0x36, 0x0A])), "11\n");
}
