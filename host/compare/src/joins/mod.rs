//! Two records as one, from seeds: single calls of joining (R56), right ones and wrong ones,
//! and R58 by running it. `pairs` makes two records, `met` says which cases two records are,
//! `groups` has pools with two records for them, `seen` says which cases of R58 they are.

pub mod groups;
pub mod met;
pub mod pairs;
pub mod seen;

use std::collections::BTreeMap;

use reference::joiner;
use reference::random::Random;
use reference::{Answer, Record};

use crate::generate::malformed::spoil;
use crate::mistaken::joiner::{self as mistaken, JoinMistake};

/// How often each case was met.
pub type Tally = BTreeMap<&'static str, usize>;

/// Panics unless so many cases are met, each of them more than twice. One that is never
/// thought of is not in the tally either, so their number is told.
pub fn met_often(tally: &Tally, cases: usize) {
    println!("{tally:#?}");
    for (name, count) in tally {
        assert!(*count > 2, "{name}: {count} times");
    }
    assert_eq!(tally.len(), cases);
}

/// A byte that the output is full of before.
const BEFORE: u8 = 0xC3;

/// A call of joining: what is lent.
#[derive(Clone, Debug)]
pub struct Joining {
    /// The bytes as the first record.
    pub a: Vec<u8>,
    /// The bytes as the second.
    pub b: Vec<u8>,
    /// The output.
    pub output: Vec<u8>,
}

/// What joining says and leaves: the answer, the size and the output.
pub type Joined = (Answer, usize, Vec<u8>);

impl Joining {
    /// The call of a seed: one in ten with malformed bytes, every second one with an output
    /// that is not exactly as long as it has to be.
    pub fn of(seed: u64) -> Joining {
        let mut random = Random::new(!seed);
        let (one, other) = pairs::pair(&mut random);
        let (mut a, mut b) = (one.to_bytes(), other.to_bytes());
        let size = joiner::joined(&one, &other).to_bytes().len();
        if random.percent(10) {
            let which = random.below(5);
            if which < 3 {
                a = spoiled(&one, &mut random);
            }
            if which > 1 {
                b = spoiled(&other, &mut random);
            }
        }
        let room = match random.below(9) {
            0 => size - 1,
            1 => random.pick(&[0, size - 2, size / 2]),
            2 => size + random.below(20),
            3 => random.pick(&[0, 904, 905, 906, 13_834, 13_835, 14_000]),
            _ => size,
        };
        let output = vec![BEFORE; room];
        Joining { a, b, output }
    }

    /// The outcome by the reference.
    pub fn outcome(&self) -> Joined {
        let mut out = self.output.clone();
        let (answer, size) = joiner::join(&self.a, &self.b, &mut out);
        (answer, size, out)
    }

    /// The outcome with a mistake, or by the way of `mistaken` with none.
    pub fn mistaken(&self, mistake: Option<JoinMistake>) -> Joined {
        let mut out = self.output.clone();
        let (answer, size) = mistaken::join(mistake, &self.a, &self.b, &mut out);
        (answer, size, out)
    }
}

/// The record with something wrong in it or behind it, or only a front of it.
fn spoiled(record: &Record, random: &mut Random) -> Vec<u8> {
    let bytes = record.to_bytes();
    match random.below(8) {
        0 => [&bytes[..], &[0]].concat(),
        1 => [&bytes[..], &bytes].concat(),
        2 => bytes[..bytes.len() - 1].to_vec(),
        3 => bytes[..random.below(bytes.len())].to_vec(),
        _ => spoil(record, random),
    }
}
