//! Two records to be joined: most often so that they can be, and else with one thing in the
//! way.

use reference::joiner::follows;
use reference::random::Random;
use reference::record::{MOST_POINTS, MOST_SCANS};
use reference::{Kind, Point, Record, Scan};

use crate::generate::keys::universe;

/// How many points a has, b has and both name, at the edges of versions and limits.
const POINTS: [(usize, usize, usize); 23] = [
    (64, 64, 0),
    (64, 64, 1),
    (64, 64, 63),
    (64, 64, 64),
    (64, 1, 0),
    (64, 1, 1),
    (1, 64, 0),
    (65, 1, 1),
    (32, 32, 0),
    (32, 33, 0),
    (63, 1, 0),
    (255, 1, 0),
    (128, 128, 0),
    (512, 512, 0),
    (512, 513, 0),
    (512, 513, 1),
    (1_024, 1, 0),
    (1_024, 1, 1),
    (1, 1_024, 0),
    (1_023, 1, 0),
    (1_024, 1_024, 1_024),
    (1_024, 1_024, 1_023),
    (1_024, 1_024, 0),
];

/// How many scans are left after joining, at the edges.
const SCANS: [usize; 16] = [1, 2, 3, 4, 7, 8, 8, 9, 9, 10, 33, 63, 64, 64, 65, 66];

/// Two records.
pub fn pair(random: &mut Random) -> (Record, Record) {
    let (mut a, mut b) = match random.below(20) {
        0..=6 => few(random),
        7..=10 => at_point_edges(random),
        11..=16 => at_scan_edges(random),
        17 | 18 => both_edges(random),
        _ => emptied(random),
    };
    let snapshot = random.pick(&[0, 1, 7, 0x0102_0304, u32::MAX]);
    (a.snapshot, b.snapshot) = (snapshot, snapshot);
    if random.percent(80) {
        part(&mut a, &b, random);
    }
    if random.percent(25) {
        obstruct(&mut a, &mut b, random);
    }
    (a, b)
}

/// A few points and scans over a few keys.
fn few(random: &mut Random) -> (Record, Record) {
    let count = 2 + random.below(10);
    let keys = universe(count, random);
    let writes = random.pick(&[10, 40, 70]);
    let mut record = || Record {
        snapshot: 0,
        points: some_points(&keys, writes, random),
        scans: some_scans(&keys, random),
    };
    (record(), record())
}

/// At most four points of these keys, so many in a hundred of them writes.
fn some_points(keys: &[u32], writes: usize, random: &mut Random) -> Vec<Point> {
    let mut some: Vec<u32> = (0..random.below(5)).map(|_| random.pick(keys)).collect();
    some.sort_unstable();
    some.dedup();
    let points = some.into_iter().map(|key| point(key, writes, random));
    points.collect()
}

/// A point of this key.
fn point(key: u32, writes: usize, random: &mut Random) -> Point {
    match random.percent(writes) {
        false => Point::read(key),
        true if random.percent(60) => Point::put(key, random.bits()),
        true => Point::delete(key),
    }
}

/// At most three scans that begin and end at these keys.
fn some_scans(keys: &[u32], random: &mut Random) -> Vec<Scan> {
    let mut ends: Vec<u32> = (0..2 * random.pick(&[0, 0, 1, 2, 3]))
        .map(|_| random.pick(keys))
        .collect();
    ends.sort_unstable();
    let mut scans: Vec<Scan> = Vec::new();
    for two in ends.chunks_exact(2) {
        if scans.last().is_none_or(|last| last.high < two[0]) {
            scans.push(Scan {
                low: two[0],
                high: two[1],
            });
        }
    }
    scans
}

/// Points at the edges of the counts, by rising keys: of a alone, of b alone, of both.
fn at_point_edges(random: &mut Random) -> (Record, Record) {
    let (of_a, of_b, of_both) = random.pick(&POINTS);
    let mut owners = [
        vec![(true, false); of_a - of_both],
        vec![(false, true); of_b - of_both],
        vec![(true, true); of_both],
    ]
    .concat();
    match random.below(3) {
        0 => {}
        1 => owners.reverse(),
        _ => {
            for place in (1..owners.len()).rev() {
                owners.swap(place, random.below(place + 1));
            }
        }
    }
    let step = random.pick(&[1, 2, 1_000_000]);
    let last = (owners.len().max(1) as u32 - 1) * step;
    let start = random.pick(&[0, 5, u32::MAX / 2 - last / 2, u32::MAX - last]);
    let writes = random.pick(&[0, 5, 50, 100]);
    let (mut a, mut b) = (Record::default(), Record::default());
    for (index, (in_a, in_b)) in owners.into_iter().enumerate() {
        let key = start + index as u32 * step;
        if in_a {
            a.points.push(point(key, writes, random));
        }
        if in_b {
            b.points.push(point(key, writes, random));
        }
    }
    (a, b)
}

/// Scans that make as many after joining as a count at the edges says: alone, equal, one
/// inside the other, over each other, in chains; some of them touch.
fn at_scan_edges(random: &mut Random) -> (Record, Record) {
    let count = random.pick(&SCANS);
    let sorts = random.pick(&[
        &[0, 1][..],
        &[2],
        &[0, 0, 0, 1, 2, 3, 4, 5, 6, 7, 8, 9],
        &[3, 4],
        &[5, 6, 7, 8],
    ]);
    let gaps = random.pick(&[&[1][..], &[0], &[0, 1, 2, 9]]);
    // Now and then b has one scan only.
    let lone = random.percent(25).then(|| random.below(count));
    let mut lists = [Vec::new(), Vec::new()];
    let mut next = 0;
    for place in 0..count {
        let sort = match lone {
            None => random.pick(sorts),
            Some(lone) if lone == place => random.pick(&[1, 1, 3, 5]),
            Some(_) => 0,
        };
        let parts = cluster(sort, random);
        let over = |which: usize| {
            let more = parts.iter().filter(|part| part.0 == which).count();
            lists[which].len() + more > MOST_SCANS
        };
        // What there is no room for stands in the other record, or nowhere.
        let parts = match (over(0), over(1)) {
            (false, false) => parts,
            (true, true) => break,
            (full, _) => vec![(usize::from(full), 0, 3)],
        };
        let end = parts.iter().map(|part| part.2).max().unwrap_or(0);
        for (which, low, high) in parts {
            if lists[which].len() < MOST_SCANS {
                lists[which].push((next + low, next + high));
            }
        }
        next += end + 1 + random.pick(gaps);
    }
    let end = lists.iter().flatten().map(|scan| scan.1).max().unwrap_or(0);
    let start = random.pick(&[0, 1, u32::MAX / 2 - end / 2, u32::MAX - end]);
    let [a, b] = lists.map(|list| {
        let scan = |(low, high)| Scan {
            low: start + low,
            high: start + high,
        };
        Record {
            scans: list.into_iter().map(scan).collect(),
            ..Record::default()
        }
    });
    (a, b)
}

/// Scans that become one, from 0 on: whose each is, its low and its high.
fn cluster(sort: usize, random: &mut Random) -> Vec<(usize, u32, u32)> {
    let first = random.below(2);
    let second = 1 - first;
    let wide = random.pick(&[0, 1, 5, 1_000]);
    match sort {
        0 => vec![(0, 0, wide)],
        1 => vec![(1, 0, wide)],
        2 => vec![(0, 0, wide), (1, 0, wide)],
        // Inside, at either end too.
        3 => {
            let low = random.between(0, 2);
            let high = random.between(low, 4);
            vec![(first, 0, 4), (second, low, high)]
        }
        // Several inside one.
        4 => vec![
            (first, 0, 20),
            (second, 1, 2),
            (second, 4, 4),
            (second, 5, 8),
        ],
        // At one key, and at more.
        5 => vec![(first, 0, wide), (second, wide, 2 * wide + 1)],
        6 => vec![(first, 0, 5), (second, 3, 9)],
        // Chains of three.
        7 => vec![(first, 0, 3), (second, 3, 6), (first, 6, 9)],
        8 => vec![(first, 0, 3), (second, 2, 7), (first, 5, 9)],
        // A longer chain.
        _ => {
            let count = 4 + random.below(12) as u32;
            let link = |at: u32| ((at as usize + first) % 2, 2 * at, 2 * at + 2);
            (0..count).map(link).collect()
        }
    }
}

/// Both at once, and the longest record there is.
fn both_edges(random: &mut Random) -> (Record, Record) {
    if random.percent(30) {
        return longest(random);
    }
    let (points_a, points_b) = at_point_edges(random);
    let (scans_a, scans_b) = at_scan_edges(random);
    let with = |points: Record, scans: Record| Record {
        scans: scans.scans,
        ..points
    };
    (with(points_a, scans_a), with(points_b, scans_b))
}

/// 1,024 puts and 64 scans, or one put less, from two records.
fn longest(random: &mut Random) -> (Record, Record) {
    let count = 1_023 + random.between(0, 1);
    let (mut a, mut b) = (Record::default(), Record::default());
    for key in 0..count {
        let record = if random.percent(50) { &mut a } else { &mut b };
        record.points.push(Point::put(key, random.bits()));
    }
    for low in (10_000..10_128).step_by(2) {
        let record = if random.percent(50) { &mut a } else { &mut b };
        record.scans.push(Scan { low, high: low });
    }
    (a, b)
}

/// One of them, or both, with nothing in it.
fn emptied(random: &mut Random) -> (Record, Record) {
    let (mut a, mut b) = few(random);
    let which = random.below(3);
    if which < 2 {
        a = Record::default();
    }
    if which > 0 {
        b = Record::default();
    }
    (a, b)
}

/// Makes a's writes reads where b touches them, or takes them out.
pub fn part(a: &mut Record, b: &Record, random: &mut Random) {
    let out = random.percent(20);
    let written = |point: &Point| point.kind != Kind::Read && b.touches(point.key);
    if out {
        a.points.retain(|point| !written(point));
    }
    for point in &mut a.points {
        if written(point) {
            point.kind = Kind::Read;
        }
    }
    debug_assert!(!follows(a, b));
}

/// One thing in the way: another snapshot, or a key that a writes and b touches.
fn obstruct(a: &mut Record, b: &mut Record, random: &mut Random) {
    if a.points.is_empty() || random.percent(20) {
        b.snapshot = match random.below(3) {
            0 => b.snapshot.wrapping_add(1),
            1 => b.snapshot.swap_bytes() ^ 1,
            _ => random.word(),
        };
        return;
    }
    let place = random.below(a.points.len());
    let key = a.points[place].key;
    b.points.retain(|point| point.key != key);
    if random.percent(50) && point_beside(b, key, random) || scan_beside(b, key, random) {
        a.points[place] = match random.percent(50) {
            true => Point::put(key, random.bits()),
            false => Point::delete(key),
        };
    }
}

/// A point of this key besides; is there room?
fn point_beside(record: &mut Record, key: u32, random: &mut Random) -> bool {
    if record.points.len() == MOST_POINTS {
        return false;
    }
    let place = record.points.partition_point(|point| point.key < key);
    record.points.insert(place, point(key, 60, random));
    true
}

/// A scan besides that covers this key, at an end of it or within; does one cover it now?
fn scan_beside(record: &mut Record, key: u32, random: &mut Random) -> bool {
    let place = record.scans.partition_point(|scan| scan.high < key);
    let before = place.checked_sub(1).map(|place| record.scans[place].high);
    let behind = record.scans.get(place).map(|scan| scan.low);
    if behind.is_some_and(|low| low <= key) {
        return true;
    }
    if record.scans.len() == MOST_SCANS {
        return false;
    }
    let least = before.map_or(0, |high| high + 1);
    let most = behind.map_or(u32::MAX, |low| low - 1);
    let low = key - random.between(0, 3).min(key - least);
    let high = key + random.between(0, 3).min(most - key);
    let scan = match random.below(4) {
        0 => Scan {
            low: key,
            high: key,
        },
        1 => Scan { low: key, high },
        2 => Scan { low, high: key },
        _ => Scan { low, high },
    };
    record.scans.insert(place, scan);
    true
}
