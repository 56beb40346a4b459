//! One record for the state so far.

use reference::random::Random;
use reference::state::Kept;
use reference::version::{MOST_POINTS_OF_ONE, MOST_SCANS_OF_ONE};
use reference::{Point, Record, Scan, State};

use super::profile::Profile;

/// Numbers of points at the edges of both versions, and where a byte is over.
const POINTS: [usize; 14] = [
    0, 1, 63, 64, 64, 65, 65, 66, 255, 256, 257, 512, 1_023, 1_024,
];

/// Numbers of scans at the edges of both versions.
const SCANS: [usize; 12] = [0, 0, 0, 0, 1, 7, 8, 8, 9, 10, 63, 64];

/// Numbers of keys deleted side by side: in version 1, and beyond it.
const RANGES: [usize; 8] = [1, 2, 3, 5, 8, 20, 63, 64];
const LARGER_RANGES: [usize; 6] = [64, 65, 66, 256, 1_024, 1_024];

/// A record that keeps the rules, aimed at what the state makes interesting.
pub fn make(profile: &Profile, state: &State, random: &mut Random) -> Record {
    let (points, scans) = counts(profile, random);
    let points = match profile.ranges > 0 && random.percent(profile.ranges) {
        true => range(profile, state, random),
        false => self::points(points, profile, state, random),
    };
    let mut record = Record {
        snapshot: snapshot(profile, state, random),
        points,
        scans: self::scans(scans, profile, state, random),
    };
    if profile.returns > 0 && random.percent(profile.returns) {
        delete_besides(&mut record, returned(profile, state, random));
    }
    record
}

/// Deletes of keys side by side, from a key of the universe on; now and then another
/// point among them.
fn range(profile: &Profile, state: &State, random: &mut Random) -> Vec<Point> {
    let count = match profile.larger > 0 {
        true => random.pick(&LARGER_RANGES),
        false => random.pick(&RANGES),
    };
    let last = count as u32 - 1;
    let start = key(profile, state, random).min(u32::MAX - last);
    let others = random.pick(&[0, 0, 5, 30]);
    let point = |key| match random.percent(others) {
        true => point(profile, key, random),
        false => Point::delete(key),
    };
    (start..=start + last).map(point).collect()
}

/// A key to delete: one with a tombstone, most often right at its age or a position
/// before it, a live one, or one that may not be kept.
fn returned(profile: &Profile, state: &State, random: &mut Random) -> u32 {
    let v = state.position() + 1;
    let about = |kept: &Kept| (v..=v + 1).contains(&(kept.position + profile.z));
    let wanted = random.below(6);
    let fits = |kept: &Kept| match (wanted, kept.payload) {
        (0 | 1, None) => about(kept),
        (2 | 3, None) | (4, Some(_)) => true,
        _ => false,
    };
    let kept = state.kept().iter().filter(|(_, kept)| fits(kept));
    let found: Vec<u32> = kept.map(|(&key, _)| key).collect();
    match found.is_empty() {
        true => key(profile, state, random),
        false => random.pick(&found),
    }
}

/// Puts a delete of this key in the place of what the record has for it.
fn delete_besides(record: &mut Record, key: u32) {
    record.points.retain(|point| point.key != key);
    if record.points.len() < MOST_POINTS_OF_ONE {
        let place = record.points.partition_point(|point| point.key < key);
        record.points.insert(place, Point::delete(key));
    }
}

/// How many points and scans: mostly a few, now and then as many as version 1 has, or
/// at the edges of both versions.
fn counts(profile: &Profile, random: &mut Random) -> (usize, usize) {
    if profile.larger > 0 && random.percent(profile.larger) {
        return (random.pick(&POINTS), random.pick(&SCANS));
    }
    let full = random.percent(profile.full);
    let points = match full {
        true => MOST_POINTS_OF_ONE,
        false => random.below(profile.points + 1),
    };
    let scans = match random.percent(profile.scans) {
        false => 0,
        true if full || random.percent(10) => MOST_SCANS_OF_ONE,
        true => 1 + random.below(2),
    };
    (points, scans)
}

/// p, or a little below, or around p − Z, or around p, or anything.
fn snapshot(profile: &Profile, state: &State, random: &mut Random) -> u32 {
    let p = state.position();
    let any = random.word();
    if random.percent(profile.current) {
        return p;
    }
    match random.below(12) {
        0..=3 => p.saturating_sub(random.between(0, profile.z)),
        4..=5 => p.saturating_sub(profile.z),
        6 => p.saturating_sub(profile.z + 1),
        7 => p.saturating_sub(profile.z - 1),
        8 => p + 1,
        9 => newest_of_some_key(state, random),
        10 => random.between(0, p),
        _ => random.pick(&[0, p + 2, p.swap_bytes(), u32::MAX, any]),
    }
}

/// A kept key's write position or the one before it, where a zone begins or ends.
fn newest_of_some_key(state: &State, random: &mut Random) -> u32 {
    let positions: Vec<u32> = state.kept().values().map(|kept| kept.position).collect();
    match positions.is_empty() {
        true => 0,
        false => random.pick(&positions) - random.between(0, 1),
    }
}

/// A key of the universe, sometimes a kept one or a neighbour of a key.
fn key(profile: &Profile, state: &State, random: &mut Random) -> u32 {
    let some = random.pick(&profile.keys);
    match random.below(20) {
        0 => some.wrapping_add(1),
        1 => some.wrapping_sub(1),
        2..=4 => {
            let kept = state.kept().range(some..).next();
            kept.map_or(some, |(&key, _)| key)
        }
        _ => some,
    }
}

/// At most so many points, keys rising; as many as that where there are 64 or more.
fn points(count: usize, profile: &Profile, state: &State, random: &mut Random) -> Vec<Point> {
    let mut keys: Vec<u32> = (0..count).map(|_| key(profile, state, random)).collect();
    if count >= MOST_POINTS_OF_ONE {
        // Fill up to the full number with neighbours.
        let start = random.pick(&profile.keys);
        keys.extend((0..2 * count as u32).map(|index| start.wrapping_add(index)));
    }
    keys.sort_unstable();
    keys.dedup();
    keys.truncate(count);
    let point = |key| point(profile, key, random);
    keys.into_iter().map(point).collect()
}

/// A point with this key: put, delete or read in the profile's shares.
pub(super) fn point(profile: &Profile, key: u32, random: &mut Random) -> Point {
    match random.below(100) {
        share if share < profile.puts => Point::put(key, payload(random)),
        share if share < profile.puts + profile.deletes => Point::delete(key),
        _ => Point::read(key),
    }
}

/// Any payload, 0 often among them.
fn payload(random: &mut Random) -> u64 {
    match random.below(4) {
        0 => 0,
        1 => random.bits(),
        2 => u64::MAX,
        _ => u64::from(random.between(1, 999)),
    }
}

/// At most so many scans, each above the one before it; as many as that where there are
/// eight or more.
fn scans(count: usize, profile: &Profile, state: &State, random: &mut Random) -> Vec<Scan> {
    if count == 1 && random.percent(15) {
        return vec![one_wide_scan(profile, state, random)];
    }
    let mut lows: Vec<u32> = (0..count).map(|_| key(profile, state, random)).collect();
    if count >= MOST_SCANS_OF_ONE {
        let start = random.pick(&profile.keys);
        lows.extend((0..count as u32).map(|index| start.wrapping_add(index)));
    }
    lows.sort_unstable();
    lows.dedup();
    lows.truncate(count);
    let mut scans: Vec<Scan> = Vec::new();
    for (index, &low) in lows.iter().enumerate() {
        // The highest that still leaves the next scan its low.
        let most = lows.get(index + 1).map_or(u32::MAX, |&next| next - 1);
        let high = match random.below(6) {
            0 | 1 => low,
            2 => most,
            3 => low.saturating_add(1).min(most),
            4 => key(profile, state, random).clamp(low, most),
            _ => low.saturating_add(random.between(0, 20)).min(most),
        };
        scans.push(Scan { low, high });
    }
    scans
}

/// A scan from 0, to 4,294,967,295, or both.
fn one_wide_scan(profile: &Profile, state: &State, random: &mut Random) -> Scan {
    let key = key(profile, state, random);
    match random.below(3) {
        0 => Scan { low: 0, high: key },
        1 => Scan {
            low: key,
            high: u32::MAX,
        },
        _ => Scan {
            low: 0,
            high: u32::MAX,
        },
    }
}
