//! The three pools of docs/LAYOUT.md, read from there.
#![forbid(unsafe_code)]

use reference::layout::{image_of, state_of};
use reference::random::Random;
use reference::record::Point;
use reference::state::Kept;
use reference::table::{self, record};
use reference::{Limits, State};

/// The pools that docs/LAYOUT.md prints: lines of an offset and 32 bytes in hex.
fn printed() -> Vec<Vec<u8>> {
    let page = concat!(env!("CARGO_MANIFEST_DIR"), "/../../docs/LAYOUT.md");
    let text = std::fs::read_to_string(page).expect("the page is there");
    let blocks = text.split("```").skip(1).step_by(2);
    let bytes = |line: &str| -> Vec<u8> {
        let words = line.split_whitespace().skip(1).take(32);
        words
            .map(|word| u8::from_str_radix(word, 16).expect("hex"))
            .collect()
    };
    blocks
        .map(|block| block.lines().flat_map(bytes).collect())
        .collect()
}

#[test]
fn the_printed_pools_mean_their_states() {
    let limits = Limits::new(table::N, table::Z).expect("good limits");
    let mut state = State::new(limits);
    let pools = printed();
    assert_eq!(pools.len(), 3);
    assert_eq!(state_of(&pools[0]), Some(state.clone()));
    for record in &table::records()[..2] {
        state.meld(&record.to_bytes());
    }
    let meant = state_of(&pools[1]).expect("a fit pool");
    assert_eq!(meant.limits(), state.limits());
    assert_eq!(meant.position(), 2);
    assert_eq!(meant.kept(), state.kept());
}

#[test]
fn the_pool_after_a_drop_means_its_state() {
    let mut state = State::new(Limits::new(3, 1).expect("good limits"));
    let puts = [Point::put(1, 11), Point::put(2, 22), Point::put(8, 88)];
    let log = [
        record(0, &puts),
        record(1, &[Point::delete(1), Point::delete(8)]),
        record(2, &[Point::put(20, 400)]),
    ];
    for record in &log {
        state.meld(&record.to_bytes());
    }
    let meant = state_of(&printed()[2]).expect("a fit pool");
    assert_eq!(meant.limits(), state.limits());
    assert_eq!(meant.position(), 3);
    assert_eq!(meant.kept(), state.kept());
    assert_eq!(meant.kept().len(), 2);
}

#[test]
fn the_image_of_a_new_state_is_the_pool_that_is_printed() {
    let limits = Limits::new(table::N, table::Z).expect("good limits");
    assert_eq!(image_of(&State::new(limits)), printed()[0]);
}

/// Whatever is kept, at whatever positions: the image means the state that it is made of.
#[test]
fn the_image_of_a_state_means_it() {
    let mut random = Random::new(5);
    for _ in 0..500 {
        let n = random.between(1, 20);
        let limits = Limits::new(n, random.between(1, 9)).expect("good limits");
        let position = random.pick(&[1, 7, 1_000, u32::MAX - 2, u32::MAX]);
        let kept = (0..random.below(n as usize + 1)).map(|_| {
            let payload = random.percent(60).then(|| random.bits());
            let key = random.pick(&[0, 1, 2, 3, 1 << 31, u32::MAX]) ^ random.between(0, 30);
            let position = random.between(1, position);
            (key, Kept { position, payload })
        });
        let state = State::of_kept(limits, position, kept.collect());
        assert_eq!(state_of(&image_of(&state)), Some(state));
    }
}

#[test]
fn pools_of_another_size_and_flipped_marks_are_unfit() {
    for pool in printed() {
        for length in 0..pool.len() {
            assert_eq!(state_of(&pool[..length]), None, "{length}");
        }
        assert_eq!(state_of(&[&pool[..], &[0]].concat()), None);
        for bit in 0..32 {
            let mut flipped = pool.clone();
            flipped[bit / 8] ^= 1 << (bit % 8);
            assert_eq!(state_of(&flipped), None, "{bit}");
        }
    }
}
