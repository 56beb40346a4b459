//! The log in parts: R47 row by row, R48 for every count, R49 on many cuts.

use reference::feed::{may_be_carried, CARRY_BYTES};
use reference::log::parts;
use reference::pages::{calls, cut, lines, sizes_in, sizes_text};
use reference::program::{join, run, split};
use reference::random::Random;
use reference::record::with_length;
use reference::table::{self, record, scanning};
use reference::{feed, Answer, Ending, Fed, Limits, Point, Said, State, Verdict};

/// A record of 22 bytes that commits at position 1.
fn put() -> Vec<u8> {
    record(0, &[Point::put(10, 100)]).to_bytes()
}

fn fresh() -> State {
    State::new(Limits::new(3, 4).unwrap())
}

/// A carry with these bytes at its front and others behind them.
fn carry(front: &[u8]) -> Vec<u8> {
    let mut bytes: Vec<u8> = (0..CARRY_BYTES).map(|place| place as u8 | 0x80).collect();
    bytes[..front.len()].copy_from_slice(front);
    bytes
}

/// What a call says and leaves: the four numbers, the state, the carry.
fn call(
    state: &State,
    lent: &[u8],
    carried: usize,
    part: &[u8],
    over: bool,
) -> (Fed, State, Vec<u8>) {
    let (mut state, mut carry) = (state.clone(), lent.to_vec());
    let fed = feed(Some(&mut state), &mut carry, carried, part, over);
    (fed, state, carry)
}

fn fed(said: Said, looks: u32, taken: usize, carried: usize) -> Fed {
    Fed {
        said,
        looks,
        taken,
        carried,
    }
}

fn answer(answer: Answer, taken: usize, carried: usize) -> Fed {
    fed(Said::Answer(answer), 0, taken, carried)
}

/// The call must say this, and leave the state and all of the carry as they were.
fn refuses(wanted: Fed, lent: &[u8], carried: usize, part: &[u8], over: bool) {
    let (found, state, carry) = call(&fresh(), lent, carried, part, over);
    assert_eq!((found, &state, &carry[..]), (wanted, &fresh(), lent));
}

#[test]
fn row_1_a_carry_of_another_size_is_8() {
    for size in [0, 1, 2, 22, CARRY_BYTES - 1, CARRY_BYTES + 1, 2_048] {
        for carried in [0, 1, 2, size, usize::MAX] {
            for over in [false, true] {
                let wanted = answer(Answer::OutputShort, 0, carried);
                refuses(wanted, &vec![0; size], carried, &put(), over);
            }
        }
    }
}

#[test]
fn row_1_what_may_not_be_carried_is_8() {
    let whole = carry(&put());
    let impossible = carry(&[0, 6, 1]);
    for over in [false, true] {
        for part in [&[][..], &[0], &put()] {
            for carried in [22, 23, CARRY_BYTES, CARRY_BYTES + 1, usize::MAX] {
                let wanted = answer(Answer::OutputShort, 0, carried);
                refuses(wanted, &whole, carried, part, over);
            }
            for carried in [3, 8, CARRY_BYTES, usize::MAX - 1, usize::MAX] {
                let wanted = answer(Answer::OutputShort, 0, carried);
                refuses(wanted, &impossible, carried, part, over);
            }
        }
    }
}

#[test]
fn row_1_comes_before_an_unfit_pool() {
    let found = feed(None, &mut carry(&put()), 22, &[], false);
    assert_eq!(found, answer(Answer::OutputShort, 0, 22));
}

#[test]
fn row_2_an_impossible_length_that_is_carried_is_11_again_and_again() {
    for length in [0_u16, 1, 6, 13_834, 13_835, 0x3700, u16::MAX] {
        let lent = carry(&length.to_be_bytes());
        for over in [false, true] {
            for part in [&[][..], &[0], &put()] {
                let wanted = answer(Answer::ImpossibleLength, 0, 2);
                refuses(wanted, &lent, 2, part, over);
                let unfit = feed(None, &mut lent.clone(), 2, part, over);
                assert_eq!(unfit, wanted);
            }
        }
    }
}

#[test]
fn row_3_an_impossible_length_is_11_as_soon_as_its_bytes_are_in() {
    for length in [0_u16, 1, 6, 13_834, 13_835, 0x3700, u16::MAX] {
        let log = [&length.to_be_bytes()[..], &put(), &put()].concat();
        for carried in 0..2 {
            for end in [2, 3, 24, log.len()] {
                for over in [false, true] {
                    let lent = carry(&log[..carried]);
                    let found = call(&fresh(), &lent, carried, &log[carried..end], over);
                    let wanted = answer(Answer::ImpossibleLength, 2 - carried, 2);
                    assert_eq!(found, (wanted, fresh(), carry(&log[..2])));
                    let mut lent = lent;
                    let unfit = feed(None, &mut lent, carried, &log[carried..end], over);
                    assert_eq!((unfit, lent), (wanted, carry(&log[..2])));
                }
            }
        }
    }
}

#[test]
fn row_4_an_unfit_pool_is_7_only_with_a_whole_record() {
    let log = [put(), put()].concat();
    for carried in 0..22 {
        for end in carried..=log.len() {
            for over in [false, true] {
                let lent = carry(&log[..carried]);
                let mut left = lent.clone();
                let found = feed(None, &mut left, carried, &log[carried..end], over);
                if end >= 22 {
                    assert_eq!(found, answer(Answer::UnfitPool, 0, carried));
                    assert_eq!(left, lent);
                } else {
                    assert_ne!(found.said, Said::Answer(Answer::UnfitPool));
                }
            }
        }
    }
}

#[test]
fn row_5_a_record_is_decided_as_by_meld() {
    let log = [put(), put()].concat();
    let mut melded = fresh();
    let verdict = melded.meld(&log[..22]);
    for carried in 0..22 {
        for end in 22..=log.len() {
            for over in [false, true] {
                let lent = carry(&log[..carried]);
                let found = call(&fresh(), &lent, carried, &log[carried..end], over);
                let wanted = fed(Said::Answer(verdict.answer), verdict.looks, 22 - carried, 0);
                let front = if carried == 0 { 0 } else { 22 };
                assert_eq!(found, (wanted, melded.clone(), carry(&log[..front])));
            }
        }
    }
}

#[test]
fn row_5_looks_are_those_of_meld_carried_or_not() {
    let mut state = fresh();
    state.meld(&put());
    let reads = record(0, &[Point::read(10)]).to_bytes();
    for carried in 0..reads.len() {
        let (found, _, _) = call(
            &state,
            &carry(&reads[..carried]),
            carried,
            &reads[carried..],
            false,
        );
        let said = Said::Answer(Answer::Conflict);
        assert_eq!(found, fed(said, 1, reads.len() - carried, 0));
    }
}

#[test]
fn row_5_with_6_the_record_is_taken_and_nothing_melded() {
    let used_up = State::empty_at(Limits::new(3, 4).unwrap(), u32::MAX);
    let log = [put(), put()].concat();
    for carried in 0..22 {
        let lent = carry(&log[..carried]);
        let found = call(&used_up, &lent, carried, &log[carried..], false);
        let wanted = answer(Answer::PositionsUsedUp, 22 - carried, 0);
        let front = if carried == 0 { 0 } else { 22 };
        assert_eq!(found, (wanted, used_up.clone(), carry(&log[..front])));
    }
}

#[test]
fn row_6_what_is_no_whole_record_yet_is_carried() {
    let log = put();
    for carried in 0..22 {
        for end in carried..22 {
            let lent = carry(&log[..carried]);
            let found = call(&fresh(), &lent, carried, &log[carried..end], false);
            let wanted = fed(Said::More, 0, end - carried, end);
            assert_eq!(found, (wanted, fresh(), carry(&log[..end])));
        }
    }
}

#[test]
fn row_7_the_end_is_where_nothing_is_in() {
    refuses(fed(Said::End, 0, 0, 0), &carry(&put()), 0, &[], true);
}

#[test]
fn row_8_a_torn_log_is_10_only_when_it_is_over() {
    let log = put();
    for carried in 0..22 {
        for end in carried.max(1)..22 {
            let part = &log[carried..end];
            let wanted = answer(Answer::TornLog, 0, carried);
            refuses(wanted, &carry(&log[..carried]), carried, part, true);
            let unfit = feed(None, &mut carry(&log[..carried]), carried, part, true);
            assert_eq!(unfit, wanted);
        }
    }
}

/// Whatever the byte is, it may begin a length that can be, or one that cannot: 10, or
/// "more" while the log is not over.
#[test]
fn row_8_one_byte_is_never_11() {
    for byte in 0..=u8::MAX {
        for carried in 0..2 {
            let lent = carry(&[byte][..carried]);
            let part = &[byte][carried..];
            refuses(
                answer(Answer::TornLog, 0, carried),
                &lent,
                carried,
                part,
                true,
            );
            let found = call(&fresh(), &lent, carried, part, false);
            let wanted = fed(Said::More, 0, 1 - carried, 1);
            assert_eq!(found, (wanted, fresh(), carry(&[byte])));
        }
    }
}

/// A length at its edges with all its bytes or with too few of them, in a part that is
/// the log's last: 11 wins over 10.
#[test]
fn an_impossible_length_is_11_also_where_the_log_is_over() {
    for (length, said) in [
        (0, Answer::ImpossibleLength),
        (6, Answer::ImpossibleLength),
        (7, Answer::TornLog),
        (903, Answer::TornLog),
        (904, Answer::TornLog),
        (13_833, Answer::TornLog),
        (13_834, Answer::ImpossibleLength),
        (65_535, Answer::ImpossibleLength),
    ] {
        let bytes = with_length(&vec![1; length]);
        let most = bytes.len() - usize::from(said == Answer::TornLog);
        for end in [2, 3, 8, most].into_iter().filter(|&end| end <= most) {
            let in_all = &bytes[..end];
            for carried in 0..3 {
                let lent = carry(&in_all[..carried]);
                let (found, state, left) = call(&fresh(), &lent, carried, &in_all[carried..], true);
                let wanted = match said {
                    Answer::ImpossibleLength => answer(said, 2 - carried, 2),
                    _ => answer(said, 0, carried),
                };
                assert_eq!((found, state), (wanted, fresh()), "{length}, {end} bytes");
                let kept = if said == Answer::TornLog { carried } else { 2 };
                assert_eq!(left, carry(&in_all[..kept]));
            }
        }
    }
}

/// Behind an impossible length: any later parts, empty or whole records, over or not.
#[test]
fn behind_11_every_later_call_says_11_and_changes_nothing() {
    for length in [0_u16, 6, 13_834, u16::MAX] {
        let (mut state, mut carry) = (fresh(), carry(&[]));
        let first = [&put()[..], &length.to_be_bytes(), &put()].concat();
        let decided = feed(Some(&mut state), &mut carry, 0, &first, false);
        assert_eq!(decided, answer(Answer::Committed, 22, 0));
        let found = feed(Some(&mut state), &mut carry, 0, &first[22..], false);
        assert_eq!(found, answer(Answer::ImpossibleLength, 2, 2));
        let (kept, left) = (state.clone(), carry.clone());
        let later: [(&[u8], bool); 6] = [
            (&first[24..], false),
            (&[], false),
            (&[0, 7], false),
            (&first[24..], true),
            (&[], true),
            (&first[24..], false),
        ];
        for (part, over) in later {
            let found = feed(Some(&mut state), &mut carry, 2, part, over);
            assert_eq!(found, answer(Answer::ImpossibleLength, 0, 2));
            assert_eq!((&state, &carry), (&kept, &left));
        }
    }
}

/// Lengths that can be and that cannot, edges and middles.
const LENGTHS: [u16; 17] = [
    0, 1, 6, 7, 8, 9, 255, 256, 903, 904, 905, 0x0700, 13_832, 13_833, 13_834, 13_835, 0xFFFF,
];

/// Every count up to a few thousand, and those at the largest carry.
fn counts() -> impl Iterator<Item = usize> {
    (0..2_000).chain(CARRY_BYTES - 20..=CARRY_BYTES + 1)
}

#[test]
fn what_may_be_carried_for_every_count_and_length() {
    for length in LENGTHS {
        let bytes = with_length(&vec![1; usize::from(length)]);
        let lent = carry(&bytes[..bytes.len().min(CARRY_BYTES)]);
        let whole = if (7..=13_833).contains(&length) {
            usize::from(length) + 2
        } else {
            3
        };
        for carried in counts() {
            let may = carried < whole;
            assert_eq!(may_be_carried(&lent, carried), may, "{length}, {carried}");
            let (found, _, left) = call(&fresh(), &lent, carried, &[1; 12], false);
            assert_eq!(found.said == Said::Answer(Answer::OutputShort), !may);
            assert!(!may || may_be_carried(&left, found.carried));
        }
    }
}

#[test]
fn each_such_carry_is_left_by_a_call() {
    for length in LENGTHS {
        let bytes = with_length(&vec![1; usize::from(length)]);
        for carried in counts().filter(|&count| count <= CARRY_BYTES) {
            let Some(front) = bytes.get(..carried) else {
                break;
            };
            let wanted = carry(front);
            if may_be_carried(&wanted, carried) {
                let (found, _, left) = call(&fresh(), &carry(&[]), 0, front, false);
                assert_eq!((found.carried, left), (carried, wanted));
            }
        }
    }
}

/// How the run ended with this call, if it did.
fn ending(fed: &Fed) -> Option<Ending> {
    match fed.said {
        Said::End => Some(Ending::End),
        Said::Answer(Answer::TornLog) => Some(Ending::Torn),
        Said::Answer(Answer::ImpossibleLength) => Some(Ending::Impossible),
        _ => None,
    }
}

/// What was decided, and how the run ended.
fn decided(calls: &[Fed]) -> (Vec<Verdict>, Ending) {
    let verdict = |fed: &Fed| match fed.said {
        Said::Answer(answer) if answer < Answer::UnfitPool => Some(Verdict {
            answer,
            looks: fed.looks,
        }),
        _ => None,
    };
    let last = calls.last().and_then(ending).expect("the run ended");
    (calls.iter().filter_map(verdict).collect(), last)
}

/// Fed in these parts, the log gives what it gives walked at once.
fn same_as_whole(input: &[u8], sizes: &[usize]) {
    let (limits, log) = split(input).unwrap();
    let whole = run(input).unwrap();
    let mut state = State::new(limits);
    let found = decided(&calls(&mut state, &cut(log, sizes)));
    assert_eq!(found, (whole.verdicts, whole.ending), "{sizes:?}");
    assert_eq!(state, whole.state);
}

/// Logs that end well, are torn, or have an impossible length in them, whose bytes are
/// there or not.
fn logs() -> Vec<Vec<u8>> {
    let rows = table::input();
    let torn = rows[..rows.len() - 3].to_vec();
    let impossible = [&rows[..8 + 62], &[0x36, 0x0A], &rows[70..90]].concat();
    let full = with_length(&[1; 903]);
    let longest = join(
        3,
        4,
        &[&put()[..], &full, &with_length(&[9; 7]), &full[..904]].concat(),
    );
    let reads: Vec<Point> = (0..300).map(Point::read).collect();
    let version_2 = record(1, &reads).to_bytes();
    let version_2 = join(3, 4, &[&put()[..], &version_2, &version_2[..900]].concat());
    let mut logs = vec![rows, torn, impossible, longest, version_2, join(3, 4, &[])];
    for end in [
        &[0xFF][..],
        &[0, 6],
        &[0, 7],
        &[3, 0x88, 1],
        &[0x36, 0x09, 1],
        &[0x36, 0x0A, 1],
        &[0xFF, 0xFF, 1, 1, 1],
    ] {
        logs.push(join(3, 4, &[&put()[..], end].concat()));
    }
    logs
}

#[test]
fn cut_into_two_anywhere_with_an_empty_part_between() {
    for input in logs() {
        for place in 0..=input.len() - 8 {
            same_as_whole(&input, &[place, 0]);
        }
    }
}

#[test]
fn cut_into_pages_of_every_size() {
    for input in logs() {
        for size in (1..=60).chain([255, 256, 257, 512, 905, 2_048]) {
            let count = (input.len() - 8) / size + 2;
            same_as_whole(&input, &vec![size; count]);
        }
    }
}

/// The longest record there is, in pages and in single bytes: the carry holds it.
#[test]
fn the_longest_record_is_carried() {
    let points: Vec<Point> = (0..1_024).map(|key| Point::put(key, 1)).collect();
    let scans: Vec<(u32, u32)> = (0..64).map(|low| (low, low)).collect();
    let longest = scanning(1, &points, &scans).to_bytes();
    assert_eq!(longest.len(), CARRY_BYTES);
    for end in [longest.len() - 1, longest.len()] {
        let log = [&put()[..], &longest[..end]].concat();
        for size in [1, 256, 905, 2_048, 13_834, 13_835] {
            let input = join(3, 4, &log);
            same_as_whole(&input, &vec![size; log.len() / size + 1]);
        }
    }
}

/// Not page by page: each call is lent some front of what is not yet taken, and
/// "over" is said with all of it or not.
#[test]
fn fed_any_front_of_the_rest() {
    for input in logs() {
        for seed in 0..300 {
            fed_fronts(&input, &mut Random::new(seed));
        }
    }
}

/// One such run. What is carried is always the log's bytes behind the records
/// decided, and a call that is lent a byte takes one.
fn fed_fronts(input: &[u8], random: &mut Random) {
    let (limits, log) = split(input).unwrap();
    let (records, _) = parts(log);
    let (mut state, mut carry) = (State::new(limits), carry(&[]));
    let (mut taken, mut carried, mut calls) = (0, 0, Vec::new());
    loop {
        let rest = &log[taken..];
        let most = random.pick(&[0, 2, 20, 1_000]).min(rest.len());
        let front = random.below(most + 1);
        let over = front == rest.len() && random.percent(50);
        let fed = feed(Some(&mut state), &mut carry, carried, &rest[..front], over);
        (taken, carried) = (taken + fed.taken, fed.carried);
        calls.push(fed);
        let done = &records[..decided_so_far(&calls)];
        let place = done.concat().len();
        assert_eq!(place + carried, taken);
        assert_eq!(carry[..carried], log[place..taken]);
        if let Some(ending) = ending(&fed) {
            assert!(over || ending == Ending::Impossible);
            break;
        }
        assert!(fed.taken > 0 || front == 0);
    }
    let whole = run(input).unwrap();
    assert_eq!(decided(&calls), (whole.verdicts, whole.ending));
    assert_eq!(state, whole.state);
}

/// How many records were decided.
fn decided_so_far(calls: &[Fed]) -> usize {
    let decided = |fed: &&Fed| match fed.said {
        Said::Answer(answer) => answer < Answer::UnfitPool,
        _ => false,
    };
    calls.iter().filter(decided).count()
}

#[test]
fn the_page_form_prints_a_line_a_call() {
    let input = join(3, 4, &[&put()[..], &record(0, &[]).to_bytes()].concat());
    let printed = lines(&input, &[1, 0, 22, 4]);
    assert_eq!(
        printed,
        "more 0 1 1\nmore 0 0 1\n0 0 21 0\nmore 0 1 1\nmore 0 4 5\n0 1 4 0\nend 0 0 0\n"
    );
    assert_eq!(lines(&input, &[]), "0 0 22 0\n0 1 9 0\nend 0 0 0\n");
    assert_eq!(
        lines(&input, &[31, 0, 9]),
        "0 0 22 0\n0 1 9 0\nmore 0 0 0\nmore 0 0 0\nend 0 0 0\n"
    );
    let torn = lines(&input[..input.len() - 1], &[40]);
    assert_eq!(torn, "0 0 22 0\nmore 0 8 8\n10 0 0 8\n");
    assert_eq!(
        lines(&join(3, 4, &[0, 6, 1]), &[1, 1]),
        "more 0 1 1\n11 0 1 2\n"
    );
    assert_eq!(
        lines(&join(3, 4, &[0xFF]), &[1, 0]),
        "more 0 1 1\nmore 0 0 1\n10 0 0 1\n"
    );
    assert_eq!(lines(&join(3, 4, &[0xFF; 5]), &[4]), "11 0 2 2\n");
    assert_eq!(lines(&join(0, 4, &[]), &[1]), "9\n");
    assert_eq!(lines(&join(1_001, 4, &[]), &[1]), "9\n");
    assert_eq!(lines(&input[..7], &[]), "9\n");
}

#[test]
fn sizes_are_read_and_written() {
    assert_eq!(sizes_in(""), Some(vec![]));
    assert_eq!(sizes_in(" 1\t0\n\n256 \r\n"), Some(vec![1, 0, 256]));
    assert_eq!(sizes_in("99999999999999999999999"), Some(vec![usize::MAX]));
    assert_eq!(sizes_in("1,2"), None);
    assert_eq!(sizes_in("-1"), None);
    for sizes in [vec![], vec![0], vec![1, 0, 2_048]] {
        assert_eq!(sizes_in(&sizes_text(&sizes)), Some(sizes));
    }
}
