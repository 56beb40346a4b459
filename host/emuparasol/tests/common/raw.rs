//! The calls as they are, between guards.

use super::{bytes, longs, place, size, words};
use emuparasol::calls;

/// `create` in these bytes: the answer.
pub fn create(pool: &mut Vec<u8>, n: u32, z: u32) -> u8 {
    let mut lent = bytes(pool);
    let answer = calls::create(lent.lent(), n, z);
    *pool = lent.back();
    answer
}

/// `status`: the answer, N, Z, the position, the kept keys and the tombstones.
pub fn status(pool: &[u8]) -> (u8, [u32; 5]) {
    let mut lent = bytes(pool);
    let mut numbers = [81, 82, 83, 84, 85].map(|before| words(&[before]));
    let [n, z, position, kept, tombstones] = numbers.each_mut().map(|it| &mut it.lent()[0]);
    let answer = calls::status(lent.lent(), n, z, position, kept, tombstones);
    lent.same(pool);
    (answer, numbers.map(|number| number.number()))
}

/// `lookup`: the answer, the payload and the position.
pub fn lookup(pool: &[u8], key: u32) -> (u8, u64, u32) {
    let (mut lent, mut payload, mut position) = (bytes(pool), longs(&[77]), words(&[78]));
    let answer = calls::lookup(
        lent.lent(),
        key,
        &mut payload.lent()[0],
        &mut position.lent()[0],
    );
    lent.same(pool);
    (answer, payload.number(), position.number())
}

/// `meld`: the answer and the looks.
pub fn meld(pool: &mut Vec<u8>, record: &[u8]) -> (u8, u32) {
    let (mut lent, mut named, mut looks) = (bytes(pool), bytes(record), words(&[79]));
    let answer = calls::meld(lent.lent(), named.lent(), &mut looks.lent()[0]);
    named.same(record);
    *pool = lent.back();
    (answer, looks.number())
}

/// What `feed` tells.
#[derive(Clone, Copy, Debug, PartialEq, Eq)]
pub struct Fed {
    pub happened: u8,
    pub answer: u8,
    pub looks: u32,
    pub taken: usize,
    pub carried: u64,
}

/// `feed` with any bytes as carry and any number of them carried.
pub fn feed(pool: &mut Vec<u8>, carry: &mut Vec<u8>, carried: u64, part: &[u8], over: bool) -> Fed {
    let (mut lent, mut carrying, mut named) = (bytes(pool), bytes(carry), bytes(part));
    let (mut count, mut happened) = (longs(&[carried]), bytes(&[82]));
    let (mut looks, mut taken) = (words(&[83]), size());
    let answer = calls::feed(
        lent.lent(),
        carrying.lent(),
        &mut count.lent()[0],
        named.lent(),
        over,
        &mut happened.lent()[0],
        &mut looks.lent()[0],
        &mut taken.lent()[0],
    );
    named.same(part);
    *pool = lent.back();
    *carry = carrying.back();
    Fed {
        happened: happened.number(),
        answer,
        looks: looks.number(),
        taken: place(taken.number()),
        carried: count.number(),
    }
}

/// `explain`: the answer, the looks, and key, position, point, scan, lag and keys.
pub fn explain(pool: &[u8], record: &[u8]) -> (u8, u32, [u64; 6]) {
    let (mut lent, mut named) = (bytes(pool), bytes(record));
    let mut numbers = [84, 85, 86, 87, 88].map(|before| words(&[before]));
    let [looks, key, position, lag, keys] = numbers.each_mut().map(|it| &mut it.lent()[0]);
    let (mut point, mut scan) = (size(), size());
    let answer = calls::explain(
        lent.lent(),
        named.lent(),
        looks,
        key,
        position,
        &mut point.lent()[0],
        &mut scan.lent()[0],
        lag,
        keys,
    );
    lent.same(pool);
    named.same(record);
    let [looks, key, position, lag, keys] = numbers.map(|number| number.number());
    let [point, scan] = [point, scan].map(|number| number.number());
    let [key, position, lag, keys] = [key, position, lag, keys].map(u64::from);
    (answer, looks, [key, position, point, scan, lag, keys])
}

/// `refresh`: the answer.
pub fn refresh(pool: &[u8], original: &[u8], output: &mut Vec<u8>) -> u8 {
    let (mut lent, mut named, mut filled) = (bytes(pool), bytes(original), bytes(output));
    let answer = calls::refresh(lent.lent(), named.lent(), filled.lent());
    lent.same(pool);
    named.same(original);
    *output = filled.back();
    answer
}

/// `in_force`: whether the part is in `refreshed`, and the part.
pub fn in_force(answer: u8, original: &[u8], refreshed: &[u8]) -> (bool, Vec<u8>) {
    let (mut one, mut other) = (bytes(original), bytes(refreshed));
    let (mut offset, mut length) = (size(), size());
    let found = calls::in_force(
        answer,
        one.lent(),
        other.lent(),
        &mut offset.lent()[0],
        &mut length.lent()[0],
    );
    one.same(original);
    other.same(refreshed);
    assert_eq!(offset.number(), 0);
    let from = if found { refreshed } else { original };
    (found, from[..place(length.number())].to_vec())
}

/// `check`: the answer.
pub fn check(record: &[u8]) -> u8 {
    let mut lent = bytes(record);
    let answer = calls::check(lent.lent());
    lent.same(record);
    answer
}

/// The lists of a reader or a writer.
#[derive(Clone, Debug, PartialEq, Eq)]
pub struct Lists {
    pub kinds: Vec<u8>,
    pub keys: Vec<u32>,
    pub payloads: Vec<u64>,
    pub lows: Vec<u32>,
    pub highs: Vec<u32>,
}

/// `read` into these lists: the answer, the snapshot, the points, the scans.
pub fn read(record: &[u8], lists: &mut Lists) -> (u8, u32, usize, usize) {
    let mut named = bytes(record);
    let (mut kinds, mut keys) = (bytes(&lists.kinds), words(&lists.keys));
    let mut payloads = longs(&lists.payloads);
    let (mut lows, mut highs) = (words(&lists.lows), words(&lists.highs));
    let (mut snapshot, mut points, mut scans) = (words(&[80]), size(), size());
    let answer = calls::read(
        named.lent(),
        kinds.lent(),
        keys.lent(),
        payloads.lent(),
        lows.lent(),
        highs.lent(),
        &mut snapshot.lent()[0],
        &mut points.lent()[0],
        &mut scans.lent()[0],
    );
    named.same(record);
    *lists = Lists {
        kinds: kinds.back(),
        keys: keys.back(),
        payloads: payloads.back(),
        lows: lows.back(),
        highs: highs.back(),
    };
    (
        answer,
        snapshot.number(),
        place(points.number()),
        place(scans.number()),
    )
}

/// `write` from these lists: the answer and the size.
pub fn write(snapshot: u32, lists: &Lists, output: &mut Vec<u8>) -> (u8, usize) {
    let (mut kinds, mut keys) = (bytes(&lists.kinds), words(&lists.keys));
    let mut payloads = longs(&lists.payloads);
    let (mut lows, mut highs) = (words(&lists.lows), words(&lists.highs));
    let (mut filled, mut written) = (bytes(output), size());
    let answer = calls::write(
        snapshot,
        kinds.lent(),
        keys.lent(),
        payloads.lent(),
        lows.lent(),
        highs.lent(),
        filled.lent(),
        &mut written.lent()[0],
    );
    kinds.same(&lists.kinds);
    keys.same(&lists.keys);
    payloads.same(&lists.payloads);
    lows.same(&lists.lows);
    highs.same(&lists.highs);
    *output = filled.back();
    (answer, place(written.number()))
}

/// `join` into this output: the answer and the size.
pub fn join(a: &[u8], b: &[u8], output: &mut Vec<u8>) -> (u8, usize) {
    let (mut first, mut second) = (bytes(a), bytes(b));
    let (mut filled, mut joined) = (bytes(output), size());
    let answer = calls::join(
        first.lent(),
        second.lent(),
        filled.lent(),
        &mut joined.lent()[0],
    );
    first.same(a);
    second.same(b);
    *output = filled.back();
    (answer, place(joined.number()))
}

/// `cut`: the answer and the next place.
pub fn cut(log: &[u8], from: usize) -> (u8, usize) {
    let (mut lent, mut next) = (bytes(log), size());
    let answer = calls::cut(lent.lent(), from as u64, &mut next.lent()[0]);
    lent.same(log);
    (answer, place(next.number()))
}
