//! What stands at a place of a log (R14), at every edge of it; and cut logs (R16).

use reference::log::parts;
use reference::program::{join, lines, lines_unread, run, MOST_N};
use reference::random::Random;
use reference::record::with_length;
use reference::table::{self, record};
use reference::words::input_words;
use reference::{Ending, LogReader, Point, Step};

/// Lengths at their edges and beside them, and whether a record may have them.
const LENGTHS: [(usize, bool); 17] = [
    (0, false),
    (1, false),
    (6, false),
    (7, true),
    (8, true),
    (255, true),
    (256, true),
    (902, true),
    (903, true),
    (904, true),
    (905, true),
    (13_832, true),
    (13_833, true),
    (13_834, false),
    (13_835, false),
    (65_534, false),
    (65_535, false),
];

/// The step at the front of these bytes and again behind a record and at the place
/// that it has there; where it hands out no record, it stays.
fn step(bytes: &[u8]) -> Step<'_> {
    let said = LogReader::new(bytes).step();
    let first = record(0, &[Point::put(10, 100)]).to_bytes();
    let log = [&first[..], bytes].concat();
    let mut reader = LogReader::new(&log);
    assert_eq!(reader.step(), Step::Part(&first));
    for _ in 0..3 {
        let place = reader.place();
        assert_eq!(reader.step(), said);
        match said {
            Step::Part(part) => {
                assert_eq!(reader.place(), place + part.len());
                break;
            }
            _ => assert_eq!(reader.place(), place),
        }
    }
    said
}

#[test]
fn the_end_is_where_no_byte_is_left() {
    assert_eq!(step(&[]), Step::End);
    assert_eq!(LogReader::at(&[0, 6], 2).step(), Step::End);
    assert_eq!(LogReader::at(&[0xFF, 0xFF, 0xFF], 3).step(), Step::End);
}

#[test]
fn a_place_past_the_end_is_torn_whatever_the_log_is() {
    let logs = [&[][..], &[0], &[0, 6], &[0xFF; 20], &table::input()];
    for log in logs {
        for past in [1, 2, 3, 9, 65_536, usize::MAX - log.len()] {
            let mut reader = LogReader::at(log, log.len() + past);
            assert_eq!(reader.step(), Step::Torn);
            assert_eq!(reader.place(), log.len() + past);
        }
    }
}

#[test]
fn one_byte_left_is_torn_whatever_it_is() {
    for byte in 0..=u8::MAX {
        assert_eq!(step(&[byte]), Step::Torn);
    }
}

/// Two bytes, and with any third: every length there is.
#[test]
fn two_or_three_bytes_left_are_torn_if_the_length_can_be() {
    for length in 0..=u16::MAX {
        let [high, low] = length.to_be_bytes();
        let wanted = match length {
            0..=6 | 13_834.. => Step::Impossible,
            7..=13_833 => Step::Torn,
        };
        assert_eq!(step(&[high, low]), wanted, "{length}");
        for third in [0, 1, 0xFF] {
            assert_eq!(step(&[high, low, third]), wanted, "{length}");
        }
    }
}

/// All its bytes there, one too few, one too many, or many too few.
#[test]
fn a_length_that_cannot_be_wins_over_too_few_bytes() {
    for (length, can_be) in LENGTHS {
        let part = with_length(&vec![1; length]);
        let behind = [part.clone(), vec![0; 3]].concat();
        let wanted = match can_be {
            true => Step::Part(&part),
            false => Step::Impossible,
        };
        assert_eq!(step(&part), wanted, "{length}");
        assert_eq!(step(&behind), wanted, "{length} and more");
        let short = match can_be {
            true => Step::Torn,
            false => Step::Impossible,
        };
        for there in [0, 1, 6, length / 2, length.saturating_sub(1)] {
            if there < length {
                assert_eq!(step(&part[..2 + there]), short, "{length}, {there} there");
            }
        }
    }
}

#[test]
fn the_program_closes_with_what_stands_behind_the_last_record() {
    let nothing = record(0, &[]).to_bytes();
    let closing = |bytes: &[u8]| {
        let input = join(3, 4, &[&nothing[..], bytes].concat());
        let printed = lines(&input);
        let ending = printed.strip_prefix("1 0 0\n").expect("a line").to_string();
        let unread = lines_unread(MOST_N, &input);
        let unread = unread.strip_prefix("1 0 0\n").expect("a line").to_string();
        (ending, unread)
    };
    for (length, can_be) in LENGTHS {
        let part = with_length(&vec![1; length]);
        let wanted = match can_be {
            true => ("10\n".to_string(), String::new()),
            false => ("11\n".to_string(), "11\n".to_string()),
        };
        let most = part.len() - usize::from(can_be);
        for end in [2, 3, 8, most].into_iter().filter(|&end| end <= most) {
            assert_eq!(closing(&part[..end]), wanted, "{length}, {end} bytes");
        }
        let one = ("10\n".to_string(), String::new());
        assert_eq!(closing(&part[..1]), one);
    }
    assert_eq!(closing(&[]), ("end\n".to_string(), String::new()));
}

/// The range is that of every version: version 1 with a longer body than it can have is
/// cut out, costs a position, and the log goes on.
#[test]
fn version_1_with_a_length_above_903_is_malformed() {
    let next = record(1, &[]).to_bytes();
    for length in [904, 905, 13_832, 13_833] {
        let mut body = vec![0; length];
        body[0] = 1;
        let log = [with_length(&body), next.clone()].concat();
        assert_eq!(lines(&join(3, 4, &log)), "1 4 0\n2 0 0\nend\n");
    }
}

#[test]
fn long_records_are_shortened_in_words() {
    let points: Vec<Point> = (0..1_024).map(Point::read).collect();
    let words = input_words(&join(3, 4, &record(0, &points).to_bytes()));
    assert!(words.contains("1: s 0, read 0, read 1, "), "{words}");
    assert!(words.contains(", read 23, ... 992 more ..., read 1016, "));
    assert!(words.contains(", read 1023 -> 0 committed, looks 0\n    14 09 02 "));
    assert!(words.contains(" ... 5099 more ... "), "{words}");
}

#[test]
fn the_ending_in_words() {
    let words = |log: &[u8]| input_words(&join(3, 4, log));
    assert!(words(&[]).ends_with("\nend\n"));
    assert!(words(&[0]).ends_with("\nthen 10 torn log\n    00\n"));
    assert!(words(&[0, 7, 1]).ends_with("\nthen 10 torn log\n    00 07 01\n"));
    assert!(words(&[3, 0x88]).ends_with("\nthen 10 torn log\n    03 88\n"));
    assert!(words(&[0x36, 0x0A]).ends_with("\nthen 11 impossible length\n    36 0A\n"));
}

/// Logs that lead to "end": the eleven rows, and records at random, well formed and not.
fn whole_logs() -> Vec<Vec<u8>> {
    let mut random = Random::new(4);
    let mut logs = vec![table::input().split_off(8)];
    for _ in 0..20 {
        let records = (0..random.below(5)).map(|_| {
            let most = random.pick(&[7, 8, 20, 903, 904, 1_500]);
            let length = 7 + random.below(most - 6);
            let body: Vec<u8> = (0..length).map(|_| random.bits() as u8).collect();
            with_length(&body)
        });
        logs.push(records.collect::<Vec<_>>().concat());
    }
    logs
}

/// R16: the records before the cut, then "end" between two of them and else 10; never 11.
#[test]
fn a_cut_log_ends_or_is_torn() {
    for log in whole_logs() {
        let (records, rest) = parts(&log);
        assert!(rest.is_empty());
        let ends: Vec<usize> = (0..=records.len())
            .map(|count| records[..count].concat().len())
            .collect();
        for cut in 0..=log.len() {
            let before = ends[1..].iter().filter(|&&end| end <= cut).count();
            let (found, _) = parts(&log[..cut]);
            assert_eq!(found, records[..before]);
            let wanted = match ends.contains(&cut) {
                true => Ending::End,
                false => Ending::Torn,
            };
            let found = run(&join(3, 4, &log[..cut])).unwrap();
            assert_eq!(found.ending, wanted, "cut at {cut}");
        }
    }
}
