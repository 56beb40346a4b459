//! R58 by running it: a pool, two records, and both ways to meld them.

use std::collections::{BTreeMap, BTreeSet};

use reference::joiner;
use reference::log::parts;
use reference::program::split;
use reference::random::Random;
use reference::record::MOST_LENGTH;
use reference::state::Kept;
use reference::{Answer, Limits, Point, Record, Scan, State};

use super::pairs;
use crate::generate::{self, keys::universe};

/// The longest log that a pool is made by, and the most keys that it is for.
const LONGEST: usize = 6_000;
const MOST_KEYS: u32 = 200;

/// A pool and two records for its next two positions.
#[derive(Clone, Debug)]
pub struct Group {
    /// What the pool means.
    pub pool: State,
    /// The records that make it, if a log does.
    pub log: Option<Vec<Vec<u8>>>,
    /// The record for v.
    pub a: Vec<u8>,
    /// The record for v + 1.
    pub b: Vec<u8>,
}

/// What is said and found both ways.
#[derive(Clone, Debug, PartialEq, Eq)]
pub struct BothWays {
    /// The answer to j.
    pub joined: u8,
    /// The answers to a and to b behind it.
    pub in_turn: [u8; 2],
    /// Of each key the payload after j, and after a and b; none where it is absent.
    pub found: Vec<(u32, Option<u64>, Option<u64>)>,
}

impl BothWays {
    /// What R58 says of a group that it speaks of; the words if it does not hold.
    pub fn broken(&self) -> Option<String> {
        let [one, other] = self.in_turn;
        let differs = self.found.iter().find(|found| found.1 != found.2);
        match (self.joined, differs) {
            (0, _) if [one, other] != [0, 0] => {
                Some(format!("j commits, and one by one says {one} and {other}"))
            }
            (0, Some((key, at_once, in_turn))) => Some(format!(
                "key {key} has {at_once:?} after j and {in_turn:?} after a and b"
            )),
            (1, _) if one != 1 && other != 1 => Some(format!(
                "j is in conflict, and one by one says {one} and {other}"
            )),
            (0 | 1 | 3 | 5, _) => None,
            (answer, _) => Some(format!("j answers {answer}")),
        }
    }
}

impl Group {
    /// The group of a seed. Every second one has a pool that a log has made, the others
    /// one that none need have made, at any position.
    pub fn of(seed: u64) -> Group {
        let mut random = Random::new(!seed);
        if random.below(150) == 0 {
            return larger(&mut random);
        }
        let logged = match random.percent(50) {
            true => by_a_log(seed, &mut random),
            false => None,
        };
        let (pool, log) = match logged {
            Some((pool, log)) => (pool, Some(log)),
            None => (by_hand(&mut random), None),
        };
        let (a, b) = two_records(&pool, &mut random);
        Group {
            pool,
            log,
            a: a.to_bytes(),
            b: b.to_bytes(),
        }
    }

    /// The joined record by the reference, if the two can be joined.
    pub fn joined(&self) -> Option<Vec<u8>> {
        let mut out = vec![0; MOST_LENGTH + 2];
        let (answer, size) = joiner::join(&self.a, &self.b, &mut out);
        (answer == Answer::Committed).then(|| out[..size].to_vec())
    }

    /// Does R58 speak of this group, if its records can be joined? That is: p at most
    /// 4,294,967,293, and v − s ≤ Z.
    pub fn spoken_of(&self) -> bool {
        let Ok(a) = Record::parse(&self.a) else {
            return false;
        };
        let v = u64::from(self.pool.position()) + 1;
        let z = u64::from(self.pool.limits().z());
        self.pool.position() <= u32::MAX - 2 && v <= u64::from(a.snapshot) + z
    }

    /// The keys to look up: those that are kept before, those that a record names or a scan
    /// of it ends at, their neighbours, and the first and the last.
    pub fn keys(&self) -> BTreeSet<u32> {
        let mut keys: BTreeSet<u32> = self.pool.kept().keys().copied().collect();
        for record in [&self.a, &self.b] {
            let record = Record::parse(record).unwrap_or_default();
            let named = record.points.iter().map(|point| point.key);
            let ends = record.scans.iter().flat_map(|scan| [scan.low, scan.high]);
            for key in named.chain(ends) {
                keys.extend([key.saturating_sub(1), key, key.saturating_add(1)]);
            }
        }
        keys.extend([0, u32::MAX]);
        keys
    }

    /// Both ways in such a pool, by these ways to meld and to look a key up.
    pub fn both_ways<P: Clone>(
        &self,
        pool: &P,
        joined: &[u8],
        meld: impl Fn(&mut P, &[u8]) -> u8,
        lookup: impl Fn(&P, u32) -> Option<u64>,
    ) -> BothWays {
        let (mut at_once, mut in_turn) = (pool.clone(), pool.clone());
        let joined = meld(&mut at_once, joined);
        let in_turn_said = [&self.a, &self.b].map(|record| meld(&mut in_turn, record));
        let keys = self.keys().into_iter();
        let found = keys.map(|key| (key, lookup(&at_once, key), lookup(&in_turn, key)));
        BothWays {
            joined,
            in_turn: in_turn_said,
            found: found.collect(),
        }
    }

    /// The same by the reference.
    pub fn by_reference(&self, joined: &[u8]) -> BothWays {
        self.both_ways(
            &self.pool,
            joined,
            |pool, record| pool.meld(record).answer.number(),
            |pool, key| pool.lookup(key).map(|found| found.0),
        )
    }
}

/// The pool after some records of a seed's log, and these; none if it is too long.
fn by_a_log(seed: u64, random: &mut Random) -> Option<(State, Vec<Vec<u8>>)> {
    let input = generate::input(seed);
    let (limits, log) = split(&input).ok()?;
    if log.len() > LONGEST || limits.n() > MOST_KEYS {
        return None;
    }
    let mut records: Vec<Vec<u8>> = parts(log).0.into_iter().map(<[u8]>::to_vec).collect();
    records.truncate(random.below(records.len() + 1));
    let mut state = State::new(limits);
    for record in &records {
        state.meld(record);
    }
    Some((state, records))
}

/// A pool that no log need have made: full or not, with positions where tombstones come to
/// their age, at the last positions there are, too.
fn by_hand(random: &mut Random) -> State {
    let n = random.pick(&[1, 2, 2, 3, 3, 4, 6, 10]);
    let z = random.between(1, 5);
    let limits = Limits::new(n, z).expect("good limits");
    let p = match random.below(6) {
        0 => random.pick(&[u32::MAX - 4, u32::MAX - 3]),
        1 => u32::MAX - 2,
        2 => random.pick(&[u32::MAX - 2, u32::MAX - 1, u32::MAX]),
        3 => random.between(0, 3),
        _ => random.between(1, 40),
    };
    let v = u64::from(p) + 1;
    let count = match random.percent(60) {
        true => n as usize,
        false => random.below(n as usize + 1),
    };
    let room = n as usize + 4;
    let mut keys = universe(room, random);
    let tombstones = random.pick(&[0, 40, 80]);
    let mut kept: BTreeMap<u32, Kept> = BTreeMap::new();
    while p > 0 && kept.len() < count && !keys.is_empty() {
        let key = keys.swap_remove(random.below(keys.len()));
        // About v − Z, where a tombstone is old enough at v, or is at v + 1, or is not.
        let about = (v + u64::from(random.between(0, 3))).saturating_sub(u64::from(z) + 1);
        let position = match random.below(4) {
            0 => random.between(1, p),
            1 => p,
            _ => about.clamp(1, u64::from(p)) as u32,
        };
        let payload = (!random.percent(tombstones)).then(|| random.bits());
        kept.insert(key, Kept { position, payload });
    }
    State::of_kept(limits, p, kept)
}

/// A pool with more keys, and two records that make one of version 2; now and then a key is
/// written above their snapshot.
fn larger(random: &mut Random) -> Group {
    let (n, z, p) = (random.pick(&[150, 200, 260]), 4, 30);
    let limits = Limits::new(n, z).expect("good limits");
    let snapshot = p + 1 - random.between(1, z);
    let mut kept: BTreeMap<u32, Kept> = BTreeMap::new();
    for key in (0..260).step_by(2) {
        let position = random.between(1, snapshot);
        let payload = random.percent(80).then(|| random.bits());
        kept.insert(key, Kept { position, payload });
    }
    if random.percent(50) && snapshot < p {
        let position = random.between(snapshot + 1, p);
        let payload = random.percent(50).then(|| random.bits());
        let key = 2 * random.between(0, 129);
        kept.insert(key, Kept { position, payload });
    }
    let more = random.pick(&[1, 5, 64]);
    let mut record = |points: usize, scans: usize| {
        let mut keys: Vec<u32> = (0..300).collect();
        while keys.len() > points {
            keys.remove(random.below(keys.len()));
        }
        let lows: BTreeSet<u32> = (0..scans).map(|_| random.between(0, 300)).collect();
        let point = |key| match random.below(6) {
            0 => Point::put(key, random.bits()),
            1 => Point::delete(key),
            _ => Point::read(key),
        };
        Record {
            snapshot,
            points: keys.into_iter().map(point).collect(),
            scans: lows
                .into_iter()
                .map(|low| Scan { low, high: low })
                .collect(),
        }
    };
    let (mut a, b) = (record(64, 4), record(more, 6));
    pairs::part(&mut a, &b, random);
    Group {
        pool: State::of_kept(limits, p, kept),
        log: None,
        a: a.to_bytes(),
        b: b.to_bytes(),
    }
}

/// Two records for this pool, of one snapshot and most often such that they can be joined.
fn two_records(pool: &State, random: &mut Random) -> (Record, Record) {
    let (p, z) = (pool.position(), pool.limits().z());
    // v − s: Z exactly, less, 1; now and then beyond what R58 speaks of.
    let lag = match random.below(12) {
        0..=4 => z,
        5 | 6 => random.between(1, z),
        7..=9 => 1,
        10 => z + 1,
        _ => 0,
    };
    let snapshot = (u64::from(p) + 1).saturating_sub(u64::from(lag));
    let snapshot = u32::try_from(snapshot).unwrap_or(u32::MAX);
    let mut keys: Vec<u32> = pool.kept().keys().copied().collect();
    keys.extend(universe(4, random));
    let calm = random.pick(&[
        [true, true],
        [true, true],
        [false, true],
        [true, false],
        [false, false],
    ]);
    let [mut a, mut b] = calm.map(|calm| one_record(pool, snapshot, &keys, calm, random));
    if random.percent(15) {
        needing(pool, &mut a, &mut b, random);
    }
    if random.percent(20) {
        let reads = a.points.iter().map(|point| Point::read(point.key));
        b.points.extend(reads.collect::<Vec<Point>>());
        b.points.sort_by_key(|point| point.key);
        b.points.dedup_by_key(|point| point.key);
    }
    if random.percent(80) {
        pairs::part(&mut a, &b, random);
    }
    if random.percent(3) {
        b.snapshot ^= 1;
    }
    if random.percent(20) {
        std::mem::swap(&mut a.scans, &mut b.scans);
        pairs::part(&mut a, &b, random);
    }
    (a, b)
}

/// Makes b read a tombstone that stands right above its snapshot, and a put a new key, if
/// there is such a tombstone.
fn needing(pool: &State, a: &mut Record, b: &mut Record, random: &mut Random) {
    let young = |kept: &Kept| kept.payload.is_none() && kept.position - 1 == b.snapshot;
    let Some((&key, _)) = pool.kept().iter().find(|(_, kept)| young(kept)) else {
        return;
    };
    let new = (0..=u32::MAX).find(|new| !pool.kept().contains_key(new));
    let new = new.expect("no pool is that large");
    (a.points, a.scans) = (vec![Point::put(new, random.bits())], Vec::new());
    (b.points, b.scans) = (Vec::new(), Vec::new());
    match random.percent(50) {
        true => b.points.push(Point::read(key)),
        false => b.scans.push(Scan {
            low: key,
            high: key,
        }),
    }
}

/// A record over these keys; a calm one touches nothing that was written above its
/// snapshot.
fn one_record(
    pool: &State,
    snapshot: u32,
    keys: &[u32],
    calm: bool,
    random: &mut Random,
) -> Record {
    let written: Vec<u32> = pool
        .kept()
        .iter()
        .filter(|(_, kept)| kept.position > snapshot)
        .map(|(&key, _)| key)
        .collect();
    let near = |key: u32, random: &mut Random| match random.below(8) {
        0 => key.wrapping_add(1),
        1 => key.wrapping_sub(1),
        _ => key,
    };
    let mut some: Vec<u32> = (0..random.pick(&[0, 1, 1, 2, 3, 5]))
        .map(|_| near(random.pick(keys), random))
        .collect();
    some.sort_unstable();
    some.dedup();
    some.retain(|key| !calm || !written.contains(key));
    let reads = random.pick(&[20, 50, 90]);
    let points = some.into_iter().map(|key| match random.percent(reads) {
        true => Point::read(key),
        false if random.percent(60) => Point::put(key, random.bits()),
        false => Point::delete(key),
    });
    let points = points.collect();
    let ends = |random: &mut Random| near(random.pick(keys), random);
    let mut ends: Vec<u32> = (0..random.pick(&[0, 0, 2, 2, 4]))
        .map(|_| ends(random))
        .collect();
    ends.sort_unstable();
    let scans = ends.chunks_exact(2).map(|two| Scan {
        low: two[0],
        high: two[1],
    });
    let mut scans: Vec<Scan> = scans.collect();
    scans.dedup_by(|next, before| next.low <= before.high);
    let covered = |scan: &Scan, key: u32| scan.low <= key && key <= scan.high;
    scans.retain(|scan| !calm || !written.iter().any(|&key| covered(scan, key)));
    Record {
        snapshot,
        points,
        scans,
    }
}
