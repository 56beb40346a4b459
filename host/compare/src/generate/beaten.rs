//! Logs in which records are beaten: by several writers at once, through any of their
//! points and scans.

use reference::program::join;
use reference::random::Random;
use reference::record::{MOST_POINTS, MOST_SCANS};
use reference::state::Kept;
use reference::version::{MOST_POINTS_OF_ONE, MOST_SCANS_OF_ONE};
use reference::{Limits, Point, Record, Scan, State};

use super::ending;
use super::profile::Profile;
use super::record::point;

/// The input of a seed: writers, and between them records that they beat.
pub fn input(random: &mut Random) -> Vec<u8> {
    let profile = Profile::beaten(random);
    let limits = Limits::new(profile.n, profile.z).expect("profiles have good limits");
    let mut state = State::new(limits);
    let mut log = Vec::new();
    for _ in 0..profile.records {
        let record = match random.percent(40) {
            true => writer(&profile, &state, random),
            false => beaten(&profile, &state, random),
        };
        let bytes = record.to_bytes();
        state.meld(&bytes);
        log.extend(bytes);
    }
    let log = ending::perhaps_spoiled(log, &profile, random);
    join(profile.n, profile.z, &log)
}

/// Puts and deletes of a few keys, with snapshot p; two in five delete again what was
/// deleted a little before, and so write nothing.
fn writer(profile: &Profile, state: &State, random: &mut Random) -> Record {
    let young = |(_, kept): &(&u32, &Kept)| {
        kept.payload.is_none() && kept.position + profile.z > state.position()
    };
    let deleted: Vec<u32> = state
        .kept()
        .iter()
        .filter(young)
        .map(|(&key, _)| key)
        .collect();
    if !deleted.is_empty() && random.percent(40) {
        return Record {
            snapshot: state.position(),
            points: vec![Point::delete(random.pick(&deleted))],
            scans: Vec::new(),
        };
    }
    let count = 1 + random.below(profile.points);
    let mut keys: Vec<u32> = (0..count).map(|_| random.pick(&profile.keys)).collect();
    keys.sort_unstable();
    keys.dedup();
    let write = |key| match random.percent(75) {
        true => Point::put(key, 1),
        false => Point::delete(key),
    };
    Record {
        snapshot: state.position(),
        points: keys.into_iter().map(write).collect(),
        scans: Vec::new(),
    }
}

/// A record that names or scans one of the keys written since its snapshot and no
/// smaller one of them; often larger ones too, and any other keys.
fn beaten(profile: &Profile, state: &State, random: &mut Random) -> Record {
    let snapshot = state
        .position()
        .saturating_sub(random.between(1, profile.z + 1));
    let since = |key: &u32| state.kept()[key].position > snapshot;
    let hot: Vec<u32> = state.kept().keys().copied().filter(since).collect();
    let target = match hot.is_empty() {
        true => random.pick(&profile.keys),
        false => random.pick(&hot),
    };
    let touch = random.below(3);
    let (most_points, most_scans) = match random.below(8) {
        0 => (MOST_POINTS, MOST_SCANS),
        _ => (MOST_POINTS_OF_ONE, MOST_SCANS_OF_ONE),
    };
    let mut keys = cold_below(target, &hot, most_points - 1, random);
    keys.extend((touch != 1).then_some(target));
    keys.extend(above(target, most_points - keys.len(), profile, random));
    let mut lows = cold_below(target, &hot, most_scans - 1, random);
    lows.extend((touch != 0).then_some(target));
    lows.extend(above(target, most_scans - lows.len(), profile, random));
    Record {
        snapshot,
        points: keys
            .into_iter()
            .map(|key| point(profile, key, random))
            .collect(),
        scans: scans(&lows, target, random),
    }
}

/// Up to so many keys below this one that were not written since, rising: often
/// none, often as many as can be.
fn cold_below(target: u32, hot: &[u32], most: usize, random: &mut Random) -> Vec<u32> {
    let count = match random.below(4) {
        0 => 0,
        1 => most,
        _ => random.below(most + 1),
    };
    let cold = (0..target).rev();
    let cold = cold.filter(|key| hot.binary_search(key).is_err());
    let mut keys: Vec<u32> = cold.take(count).collect();
    keys.reverse();
    keys
}

/// Up to so many keys of the universe above this one, rising; often none.
fn above(target: u32, most: usize, profile: &Profile, random: &mut Random) -> Vec<u32> {
    let count = match random.percent(40) {
        true => 0,
        false => random.below(most + 1),
    };
    let larger = profile.keys.iter().copied().filter(|&key| key > target);
    larger.take(count).collect()
}

/// Scans from these lows: those below the target of one key, the others up to the
/// next one or less.
fn scans(lows: &[u32], target: u32, random: &mut Random) -> Vec<Scan> {
    let next = |index: usize| lows.get(index + 1).map_or(u32::MAX, |&next| next - 1);
    let scan = |(index, &low): (usize, &u32)| {
        let high = match low < target {
            true => low,
            false => low.saturating_add(random.between(0, 9)).min(next(index)),
        };
        Scan { low, high }
    };
    lows.iter().enumerate().map(scan).collect()
}
