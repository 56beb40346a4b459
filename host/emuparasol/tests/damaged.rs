//! Damaged pools: bits flipped, words exchanged, cut short, made longer, random.
//! Whether such bytes are still a state's image is decided by `reference::layout`
//! from docs/LAYOUT.md: if not, every call answers 7 and changes nothing; if so,
//! the answers are those of that state.

mod common;

use common::{explain, explain_both, fresh, lookup, lookup_both, means, meld, meld_both};
use common::{refresh, refresh_both, seeded, status};
use reference::layout::state_of;
use reference::random::Random;
use reference::State;

/// All five calls on these bytes, compared; are they fit?
fn judge(pool: &[u8], record: &[u8], key: u32) -> bool {
    let Some(state) = state_of(pool) else {
        assert_eq!(status(pool), (7, [0; 5]));
        assert_eq!(lookup(pool, key), (7, 0, 0));
        assert_eq!(explain(pool, record), (7, 0, [0; 6]));
        let mut lent = pool.to_vec();
        assert_eq!(meld(&mut lent, record), (7, 0));
        assert_eq!(lent, pool);
        let mut output = vec![0xC3; record.len()];
        assert_eq!(refresh(pool, record, &mut output), 7);
        assert_eq!(output, vec![0xC3; record.len()]);
        return false;
    };
    means(pool, &state);
    lookup_both(pool, &state, key);
    refresh_both(pool, &state, record, record.len());
    explain_both(pool, &state, record);
    meld_both(&mut pool.to_vec(), &mut state.clone(), record);
    true
}

/// A pool after some records of a seed's log, with its state and the next record.
fn some_pool(seed: u64, most: u32) -> Option<(Vec<u8>, State, Vec<u8>)> {
    let (limits, records) = seeded(seed)?;
    if limits.n() > most || records.len() < 6 {
        return None;
    }
    let (mut pool, mut state) = (fresh(limits), State::new(limits));
    let stop = records.len().min(60) - 1;
    for record in &records[..stop] {
        meld_both(&mut pool, &mut state, record);
    }
    Some((pool, state, records[stop].clone()))
}

/// A key of the state, or 0.
fn some_key(state: &State, random: &mut Random) -> u32 {
    let keys: Vec<u32> = state.kept().keys().copied().collect();
    match keys.is_empty() {
        true => 0,
        false => random.pick(&keys),
    }
}

#[test]
fn every_bit_flipped() {
    let mut random = Random::new(11);
    let (mut fit, mut unfit, mut pools) = (0, 0, 0);
    for seed in 0.. {
        let Some((pool, state, record)) = some_pool(seed, 4) else {
            continue;
        };
        let key = some_key(&state, &mut random);
        for bit in 0..8 * pool.len() {
            let mut flipped = pool.clone();
            flipped[bit / 8] ^= 1 << (bit % 8);
            match judge(&flipped, &record, key) {
                true => fit += 1,
                false => unfit += 1,
            }
        }
        pools += 1;
        if pools == 5 {
            break;
        }
    }
    assert!(fit > 100 && unfit > 1_000, "{fit} {unfit}");
}

#[test]
fn cut_short_and_made_longer() {
    let mut random = Random::new(12);
    for seed in 0..60 {
        let Some((pool, state, record)) = some_pool(seed, 12) else {
            continue;
        };
        let key = some_key(&state, &mut random);
        assert!(judge(&pool, &record, key));
        for _ in 0..30 {
            let length = random.below(pool.len());
            assert!(!judge(&pool[..length], &record, key));
        }
        for more in [1, 31, 32, 63, 64, 65, 128] {
            let longer = [&pool[..], &vec![0; more]].concat();
            assert!(!judge(&longer, &record, key));
        }
    }
}

#[test]
fn words_exchanged_and_set() {
    let mut random = Random::new(13);
    let (mut fit, mut unfit) = (0, 0);
    for seed in 0..200 {
        let Some((pool, state, record)) = some_pool(seed, 70) else {
            continue;
        };
        let key = some_key(&state, &mut random);
        let count = pool.len() / 4;
        for _ in 0..25 {
            let mut damaged = pool.clone();
            let from = 4 * random.below(count);
            let to = match random.below(3) {
                0 => 4 * random.below(16.min(count)),
                _ => 4 * random.below(count),
            };
            match random.below(5) {
                0 => damaged.copy_within(from..from + 4, to),
                1 => damaged[to..to + 4].copy_from_slice(&random.word().to_be_bytes()),
                2 => damaged[to + 3] = damaged[to + 3].wrapping_add(1),
                3 => damaged[to + 3] = damaged[to + 3].wrapping_sub(1),
                _ => {
                    // Two whole nodes exchanged: the tree's numbers no longer fit.
                    let [one, other] =
                        [0; 2].map(|_| 64 + 32 * random.below((pool.len() - 64) / 32));
                    for place in 0..32 {
                        damaged.swap(one + place, other + place);
                    }
                }
            }
            match judge(&damaged, &record, key) {
                true => fit += 1,
                false => unfit += 1,
            }
        }
    }
    assert!(fit > 100 && unfit > 1_000, "{fit} {unfit}");
}

#[test]
fn bytes_that_were_never_a_pool() {
    let mut random = Random::new(14);
    for length in (0..400).chain([1_024, 4_160, 64_064]) {
        let bytes: Vec<u8> = (0..length).map(|_| random.word() as u8).collect();
        assert!(!judge(&bytes, &bytes[..length.min(30)], 5));
        assert!(!judge(&vec![0; length], &[], 5));
        assert!(!judge(&vec![0xFF; length], &[], 5));
    }
}
