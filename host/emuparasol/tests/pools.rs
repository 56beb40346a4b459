//! Pools: logs melded into the library's pool and into the reference's state.
//! After each record the answer, the looks and the state that the pool's bytes
//! mean are compared; at stops every key is looked up and records are refreshed.

mod common;

use common::{create, fresh, lookup_both, means, meld_both, refresh_both, seeded};
use reference::random::Random;
use reference::{Answer, Limits, Point, Record, Scan, State};

#[test]
fn logs_from_seeds() {
    let mut counts = [0; 12];
    let mut refreshed = [0; 12];
    for seed in 0..260 {
        let Some((limits, records)) = seeded(seed) else {
            continue;
        };
        let mut random = Random::new(seed);
        let (mut pool, mut state) = (fresh(limits), State::new(limits));
        means(&pool, &state);
        // The longest zones are thousands of empty records: those of few seeds will do.
        for record in records.iter().take(700) {
            if random.percent(10) {
                for key in state.kept().keys().copied().collect::<Vec<_>>() {
                    lookup_both(&pool, &state, key);
                    lookup_both(&pool, &state, key.wrapping_add(1));
                }
                lookup_both(&pool, &state, random.word());
            }
            if random.percent(25) {
                let room = match random.below(4) {
                    0 => random.below(record.len() + 1),
                    1 => record.len() + random.below(9),
                    _ => record.len(),
                };
                let waited = &records[random.below(records.len())];
                for original in [record, waited] {
                    let answer = refresh_both(&pool, &state, original, room);
                    refreshed[usize::from(answer.number())] += 1;
                }
            }
            let answer = meld_both(&mut pool, &mut state, record);
            counts[usize::from(answer.number())] += 1;
        }
    }
    let often = |numbers: &[usize], counts: &[u32; 12]| numbers.iter().all(|&it| counts[it] > 20);
    assert!(often(&[0, 1, 2, 3, 4, 5], &counts), "{counts:?}");
    assert!(often(&[0, 1, 2, 4, 5, 8], &refreshed), "{refreshed:?}");
}

#[test]
fn the_same_log_gives_the_same_bytes() {
    for seed in 0..20 {
        let Some((limits, records)) = seeded(seed) else {
            continue;
        };
        let (mut one, mut other) = (fresh(limits), fresh(limits));
        for record in records.iter().take(100) {
            common::meld(&mut one, record);
            common::meld(&mut other, record);
            assert_eq!(one, other);
        }
    }
}

#[test]
fn bad_limits_leave_the_bytes_alone() {
    let before: Vec<u8> = (0..1_000).map(|place| place as u8).collect();
    for n in [
        0,
        1,
        2,
        3,
        14,
        15,
        65_535,
        65_536,
        65_537,
        0x0400_0000,
        u32::MAX,
    ] {
        for z in [0, 1, 4_096, 4_097, u32::MAX] {
            for length in [
                0, 1, 63, 64, 65, 127, 128, 129, 192, 255, 256, 257, 960, 1_000,
            ] {
                let mut pool = before[..length].to_vec();
                let right = length as u64 == 64 + 64 * u64::from(n);
                let good = right && Limits::new(n, z).is_ok();
                let answer = create(&mut pool, n, z);
                if good {
                    assert_eq!(answer, 0);
                    means(&pool, &State::new(Limits::new(n, z).expect("good limits")));
                } else {
                    assert_eq!(answer, 9, "{n} {z} {length}");
                    assert_eq!(pool, before[..length]);
                }
            }
        }
    }
}

#[test]
fn the_last_positions() {
    let limits = Limits::new(3, 4).expect("good limits");
    let mut pool = fresh(limits);
    pool[12..16].copy_from_slice(&(u32::MAX - 2).to_be_bytes());
    let mut state = State::empty_at(limits, u32::MAX - 2);
    means(&pool, &state);
    let puts = |snapshot, key| Record {
        snapshot,
        points: vec![Point::put(key, 7), Point::delete(key + 1)],
        scans: vec![Scan { low: 0, high: 9 }],
    };
    for (snapshot, key) in [(u32::MAX - 2, 1), (u32::MAX - 2, 1), (u32::MAX, 1)] {
        let bytes = puts(snapshot, key).to_bytes();
        refresh_both(&pool, &state, &bytes, bytes.len());
        meld_both(&mut pool, &mut state, &bytes);
    }
    assert_eq!(state.position(), u32::MAX);
    let bytes = puts(u32::MAX, 20).to_bytes();
    for record in [&bytes[..], &bytes[..5], &[]] {
        let answer = meld_both(&mut pool, &mut state, record);
        assert_eq!(answer, Answer::PositionsUsedUp);
    }
    assert_eq!(
        refresh_both(&pool, &state, &bytes, bytes.len()),
        Answer::Committed
    );
}

#[test]
fn the_largest_pool() {
    let limits = Limits::new(65_536, 4_096).expect("good limits");
    let (mut pool, mut state) = (fresh(limits), State::new(limits));
    let mut random = Random::new(5);
    for _ in 0..12 {
        let mut keys: Vec<u32> = (0..64).map(|_| random.word()).collect();
        keys.sort_unstable();
        keys.dedup();
        let snapshot = state.position().saturating_sub(random.between(0, 1));
        let points = keys.iter().map(|&key| match random.percent(80) {
            true => Point::put(key, random.bits()),
            false => Point::delete(key),
        });
        let record = Record {
            snapshot,
            points: points.collect(),
            scans: vec![],
        };
        meld_both(&mut pool, &mut state, &record.to_bytes());
        lookup_both(&pool, &state, keys[0]);
    }
    assert!(state.kept().len() > 300);
}
