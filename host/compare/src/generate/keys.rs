//! Universes of keys: small ones make conflicts, shaped ones make odd trees.

use reference::random::Random;

/// So many keys of a random shape, rising; often with 0 and 4,294,967,295.
pub fn universe(count: usize, random: &mut Random) -> Vec<u32> {
    let start = random.word();
    let shape = random.below(7);
    let step = random.pick(&[1, 2, 3, 16, 1 << 20]);
    let mut keys: Vec<u32> = (0..count as u32)
        .map(|index| match shape {
            0 => index,
            1 => u32::MAX - index,
            2 => start.wrapping_add(index),
            3 => index.wrapping_mul(step),
            4 => around_a_bit(random),
            // Around the middle, where a signed comparison goes wrong.
            5 => (u32::MAX / 2 + 1)
                .wrapping_add(index)
                .wrapping_sub(count as u32 / 2),
            _ => random.word(),
        })
        .collect();
    if random.percent(40) {
        keys.push(0);
    }
    if random.percent(40) {
        keys.push(u32::MAX);
    }
    keys.sort_unstable();
    keys.dedup();
    keys
}

/// A number with one bit set, or all bits below one, or next to these.
fn around_a_bit(random: &mut Random) -> u32 {
    let bit = 1_u32 << random.below(32);
    match random.below(4) {
        0 => bit,
        1 => bit - 1,
        2 => !bit,
        _ => bit | (1 << random.below(32)),
    }
}
