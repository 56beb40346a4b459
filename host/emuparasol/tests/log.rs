//! The iterator over a log: whole logs, logs cut off at every byte, and such as have a
//! length that no record has.

mod common;

use emuparasol::{Error, Records, MOST_RECORD};
use reference::{LogReader, Step};
use std::iter::FusedIterator;

/// What a walk gives: the records; where and why it stops, unless at the log's end; the
/// last place.
type Walk<'a> = (Vec<&'a [u8]>, Option<(usize, Error)>, usize);

/// A walk, after which nothing more comes.
fn walk(mut records: Records<'_>) -> Walk<'_> {
    fn fused(_: &impl FusedIterator) {}
    fused(&records);
    let (mut parts, mut stopped) = (Vec::new(), None);
    for step in records.by_ref() {
        assert_eq!(stopped, None, "a step where no record stands");
        match step {
            Ok(part) => parts.push(part),
            Err(error) => stopped = Some((error.place, error.why)),
        }
    }
    for _ in 0..3 {
        assert_eq!(records.next(), None);
    }
    (parts, stopped, records.place())
}

/// The same by the reference.
fn expected(log: &[u8]) -> Walk<'_> {
    let (mut reader, mut parts) = (LogReader::new(log), Vec::new());
    let why = loop {
        match reader.step() {
            Step::Part(part) => parts.push(part),
            Step::End => break None,
            Step::Torn => break Some(Error::TornLog),
            Step::Impossible => break Some(Error::ImpossibleLength),
        }
    };
    let place = reader.place();
    (parts, why.map(|why| (place, why)), place)
}

/// The logs of some seeds, each of at most so many bytes.
fn logs(most: usize) -> Vec<Vec<u8>> {
    let log = |seed| {
        let mut log = compare::generate::input(seed).split_off(8);
        log.truncate(most);
        log
    };
    (0..120)
        .filter(|seed| common::seeded(*seed).is_some())
        .map(log)
        .collect()
}

#[test]
fn logs_from_seeds() {
    let (mut whole, mut torn, mut impossible, mut most) = (0, 0, 0, 0);
    for log in logs(usize::MAX) {
        let found = walk(Records::new(&log));
        assert_eq!(found, expected(&log));
        most = most.max(found.0.len());
        match found.1 {
            None => whole += 1,
            Some((_, Error::TornLog)) => torn += 1,
            Some(_) => impossible += 1,
        }
    }
    assert!(
        whole > 20 && torn > 5 && impossible > 5 && most > 50,
        "{whole} {torn} {impossible} {most}"
    );
}

#[test]
fn cut_off_at_every_byte() {
    for log in logs(300) {
        for end in 0..=log.len() {
            let log = &log[..end];
            assert_eq!(walk(Records::new(log)), expected(log));
        }
    }
}

#[test]
fn a_walk_goes_on_where_another_has_come_to() {
    for log in logs(2_000) {
        let (parts, stopped, end) = expected(&log);
        let mut place = 0;
        for (index, part) in parts.iter().enumerate() {
            let found = walk(Records::at(&log, place));
            assert_eq!(found, (parts[index..].to_vec(), stopped, end));
            place += part.len();
        }
        assert_eq!(walk(Records::at(&log, place)), (vec![], stopped, end));
    }
}

#[test]
fn a_place_past_the_end_is_torn() {
    // Also behind bytes that are no length.
    for log in [&[0, 7, 1, 0, 0, 0, 0, 0, 0][..], &[0xFF; 9]] {
        assert_eq!(walk(Records::at(log, 9)), (vec![], None, 9));
        for place in [10, 11, 1_000, usize::MAX - 1, usize::MAX] {
            let torn = Some((place, Error::TornLog));
            assert_eq!(walk(Records::at(log, place)), (vec![], torn, place));
        }
    }
    assert_eq!(walk(Records::new(&[])), (vec![], None, 0));
    let torn = Some((1, Error::TornLog));
    assert_eq!(walk(Records::at(&[], 1)), (vec![], torn, 1));
}

#[test]
fn lengths_of_records() {
    for length in (0..=1_100_usize).chain(13_800..=13_900) {
        let mut log = vec![0; 2 + length];
        log[..2].copy_from_slice(&(length as u16).to_be_bytes());
        let good = (7..=13_833).contains(&length);
        let parts = if good { vec![&log[..]] } else { vec![] };
        let place = if good { log.len() } else { 0 };
        let stopped = (!good).then_some((0, Error::ImpossibleLength));
        assert_eq!(walk(Records::new(&log)), (parts, stopped, place));
    }
    // The longest record, and a byte missing; a malformed record is still a record.
    let mut log = vec![0; MOST_RECORD];
    log[..2].copy_from_slice(&13_833_u16.to_be_bytes());
    assert_eq!(walk(Records::new(&log)).0, [&log[..]]);
    let torn = Some((0, Error::TornLog));
    assert_eq!(walk(Records::new(&log[..13_834])).1, torn);
}

#[test]
fn torn_or_never_a_record() {
    // Every length, with all its bytes there, one more, and too few.
    let mut log = vec![0xFF; usize::from(u16::MAX) + 3];
    for length in 0..=u16::MAX {
        log[..2].copy_from_slice(&length.to_be_bytes());
        let possible = (7..=13_833).contains(&length);
        let whole = usize::from(length) + 2;
        let about = [whole - 1, whole, whole + 1];
        for left in [1, 2, 3, 8, 9, 904, 905, 2_000, 13_834, 13_835]
            .into_iter()
            .chain(about)
        {
            let step = Records::new(&log[..left]).next().expect("not the end");
            let step = step.map_err(|error| (error.place, error.why));
            let wanted = match possible {
                _ if left < 2 => Err((0, Error::TornLog)),
                false => Err((0, Error::ImpossibleLength)),
                true if left < whole => Err((0, Error::TornLog)),
                true => Ok(&log[..whole]),
            };
            assert_eq!(step, wanted, "a length of {length}, {left} bytes left");
        }
    }
}

#[test]
fn cut_off_anywhere_a_whole_log_has_no_impossible_length() {
    for log in logs(2_000) {
        // What leads to the end; cut off, it is torn or ends.
        let whole = expected(&log).2;
        for end in 0..=whole {
            let stopped = walk(Records::new(&log[..end])).1;
            assert!(stopped.map_or(true, |(_, why)| why == Error::TornLog));
        }
        // Erased flash behind it is neither, however little of it, but for a single byte.
        let erased = [&log[..whole], &[0xFF; 20]].concat();
        for end in whole + 1..=erased.len() {
            let why = match end - whole {
                1 => Error::TornLog,
                _ => Error::ImpossibleLength,
            };
            let stopped = walk(Records::new(&erased[..end])).1;
            assert_eq!(stopped, Some((whole, why)));
        }
    }
}
