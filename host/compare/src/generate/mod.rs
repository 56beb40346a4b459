//! Inputs of the program from a seed; the same seed gives the same bytes.
//!
//! `profile` says what kind of log it is to be, `keys` which keys it uses,
//! `record` makes one record for the state so far, `malformed` spoils records,
//! `beaten` makes logs for reasons, `ending` spoils the log's end and its limits,
//! `sizes` cuts the log into parts.

mod beaten;
pub mod ending;
pub mod keys;
pub mod malformed;
pub mod profile;
pub mod record;
pub mod sizes;

use std::collections::BTreeSet;

use reference::log::parts;
use reference::program::{join, split, FULL_N};
use reference::random::Random;
use reference::record::{with_length, MOST_LENGTH, MOST_POINTS, MOST_SCANS};
use reference::version::{MOST_POINTS_OF_ONE, MOST_SCANS_OF_ONE};
use reference::{Limits, Point, Record, Scan, State};

use crate::trial::Trial;
use profile::Profile;

/// The input of a seed.
pub fn input(seed: u64) -> Vec<u8> {
    let mut random = Random::new(seed);
    if random.percent(6) {
        return ending::bad_start(&mut random);
    }
    let profile = Profile::choose(&mut random);
    let log = log(&profile, &mut random);
    join(
        profile.n,
        profile.z,
        &ending::perhaps_spoiled(log, &profile, &mut random),
    )
}

/// The input of a seed for the page form. One seed in ten has the longest records of
/// both versions, and one in ten the edges of R14 at its end, one after the other.
pub fn paged_input(seed: u64) -> Vec<u8> {
    match seed % 10 {
        4 => at_an_edge(seed),
        9 => longest_records(seed),
        _ => input(seed),
    }
}

/// The first records of a seed's log, as many as leave it short, and behind them the
/// end that it is the seed's turn to have.
fn at_an_edge(seed: u64) -> Vec<u8> {
    let input = input(seed);
    let (limits, log) = match split(&input) {
        Ok((limits, log)) => ((limits.n(), limits.z()), log),
        Err(_) => ((3, 4), &[][..]),
    };
    let mut front = Vec::new();
    for record in parts(log).0 {
        if front.len() + record.len() > sizes::SHORT / 2 {
            break;
        }
        front.extend(record);
    }
    front.extend(ending::edge((seed / 10) as usize % ending::EDGE_COUNT));
    join(limits.0, limits.1, &front)
}

/// The input of a seed for reasons (R50). One seed in five has records that are beaten
/// through any of their points and scans.
pub fn reasoned_input(seed: u64) -> Vec<u8> {
    match seed % 5 {
        4 => beaten::input(&mut Random::new(seed)),
        _ => input(seed),
    }
}

/// The input of a seed for the page form with its log in parts: cut at random, and if it is short at every
/// place besides.
pub fn in_parts(seed: u64) -> Vec<Trial> {
    let input = paged_input(seed);
    let log = split(&input).map_or(&[][..], |(_, log)| log);
    // Not the numbers that the log was made from.
    let mut random = Random::new(!seed);
    let mut cuts = vec![sizes::sizes(log, &mut random)];
    cuts.extend(sizes::every_cut(log));
    let trial = |sizes| Trial::in_parts(input.clone(), sizes);
    cuts.into_iter().map(trial).collect()
}

/// A few of the longest records of either version, well formed and not, among records of
/// 9 bytes.
fn longest_records(seed: u64) -> Vec<u8> {
    let mut random = Random::new(seed);
    let mut log = Vec::new();
    for snapshot in 0..1 + random.between(0, 9) {
        let nothing = Record {
            snapshot,
            ..Record::default()
        };
        log.extend(match random.below(10) {
            0..=3 => nothing.to_bytes(),
            4 => with_length(&[random.pick(&[0, 1, 2]); 903]),
            5 => with_length(&vec![1; random.pick(&[904, 904, MOST_LENGTH])]),
            6..=7 => full_record(snapshot, MOST_POINTS_OF_ONE, MOST_SCANS_OF_ONE, &mut random),
            8 => full_record(snapshot, MOST_POINTS_OF_ONE + 1, 0, &mut random),
            _ => full_record(snapshot, MOST_POINTS, MOST_SCANS, &mut random),
        });
    }
    let profile = Profile {
        edges: false,
        ..Profile::spoiled_end(&mut random)
    };
    if random.percent(50) {
        log = ending::perhaps_spoiled(log, &profile, &mut random);
    }
    join(200, random.between(1, 12), &log)
}

/// A record of so many points and scans, all of its points of one kind.
fn full_record(snapshot: u32, points: usize, scans: usize, random: &mut Random) -> Vec<u8> {
    let (key, step) = (random.between(0, 200), random.between(1, 3));
    let keys = (0..points as u32).map(|index| key + index * step);
    let kind = random.below(100);
    let point = |key| match kind {
        0..=69 => Point::put(key, 5),
        70..=84 => Point::delete(key),
        _ => Point::read(key),
    };
    let scan = |low| Scan { low, high: low + 7 };
    let record = Record {
        snapshot,
        points: keys.map(point).collect(),
        scans: (0..scans as u32).map(|index| scan(index * 100)).collect(),
    };
    record.to_bytes()
}

/// The input of a seed for the program at full size: pools above 1,000 keys. One
/// seed in fifty fills the largest pool there is.
pub fn full_input(seed: u64) -> Vec<u8> {
    let mut random = Random::new(seed);
    if seed % 50 == 0 {
        return brimful(&mut random);
    }
    if random.percent(6) {
        return ending::bad_start(&mut random);
    }
    let profile = Profile::large(&mut random);
    let log = log(&profile, &mut random);
    let log = ending::perhaps_spoiled(log, &profile, &mut random);
    join(profile.n, profile.z, &log)
}

/// 65,536 keys, one half of them in records of 64 and the other in records of 1,024; then
/// one that is kept, one too many, deletes of keys that are not there, one that is deleted
/// twice, and the first again.
fn brimful(random: &mut Random) -> Vec<u8> {
    let step = random.pick(&[1, 3, 1_000, 65_535]);
    let keys: Vec<u32> = (0..=FULL_N).map(|index| index.wrapping_mul(step)).collect();
    let (kept, new) = keys.split_at(FULL_N as usize);
    let kept_keys: BTreeSet<u32> = kept.iter().copied().collect();
    let absent = (0..=u32::MAX).rev().filter(|key| !kept_keys.contains(key));
    let mut absent: Vec<u32> = absent.take(MOST_POINTS).collect();
    absent.reverse();
    let puts = |keys: &[u32]| keys.iter().map(|&key| Point::put(key, 7)).collect();
    let (front, back) = kept.split_at(kept.len() / 2);
    let mut points: Vec<Vec<Point>> = front.chunks(MOST_POINTS_OF_ONE).map(puts).collect();
    points.extend(back.chunks(MOST_POINTS).map(puts));
    points.push(puts(&kept[..1]));
    points.push(puts(new));
    points.push(absent.into_iter().map(Point::delete).collect());
    points.push(vec![Point::delete(kept[1])]);
    points.push(vec![Point::delete(kept[1])]);
    points.push(vec![Point::read(kept[0]), Point::read(kept[1])]);
    let record = |(index, points): (usize, Vec<Point>)| {
        let (snapshot, scans) = (index as u32, Vec::new());
        Record {
            snapshot,
            points,
            scans,
        }
        .to_bytes()
    };
    let log: Vec<u8> = points.into_iter().enumerate().flat_map(record).collect();
    join(FULL_N, random.between(1, 4_096), &log)
}

/// A log of the profile, made along the states it leads to.
fn log(profile: &Profile, random: &mut Random) -> Vec<u8> {
    let limits = Limits::new(profile.n, profile.z).expect("profiles have good limits");
    let mut state = State::new(limits);
    let mut log = Vec::new();
    for _ in 0..profile.records {
        let record = next_record(profile, &state, random);
        let bytes = if random.percent(profile.malformed) {
            malformed::spoil(&record, random)
        } else {
            record.to_bytes()
        };
        state.meld(&bytes);
        log.extend(bytes);
    }
    log
}

/// The next record: nothing but a snapshot while a long zone builds up.
fn next_record(profile: &Profile, state: &State, random: &mut Random) -> Record {
    if random.percent(profile.idle) {
        let snapshot = state.position();
        return Record {
            snapshot,
            ..Record::default()
        };
    }
    record::make(profile, state, random)
}
