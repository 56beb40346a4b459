//! Single calls of feed (R47) from seeds, right ones and wrong ones: what lines of
//! the page form do not show, that is carries and counts that no call has left,
//! unfit pools, "over" with bytes, and every byte of the carry.

use reference::feed::CARRY_BYTES;
use reference::log::parts;
use reference::program::split;
use reference::random::Random;
use reference::{feed, table, Fed, Limits, State};

use crate::generate;
use crate::mistaken::feed::{FeedMistake, Feeder};

/// The longest log that a call is made from.
const LONGEST: usize = 20_000;

/// A call: what is lent, and how the pool came about.
#[derive(Clone, Debug)]
pub struct Call {
    /// The pool's limits.
    pub limits: Limits,
    /// The records that were melded into it.
    pub melded: Vec<Vec<u8>>,
    /// Is the pool fit? If not, it was spoiled afterwards.
    pub fit: bool,
    /// The carry.
    pub carry: Vec<u8>,
    /// How many of its bytes are said to be carried.
    pub carried: usize,
    /// The part.
    pub part: Vec<u8>,
    /// Is the log over with it?
    pub over: bool,
}

/// What a call says and leaves: the pool's position if it is fit, and the carry.
#[derive(Clone, Debug, PartialEq, Eq)]
pub struct Outcome {
    /// What is said.
    pub fed: Fed,
    /// The carry afterwards.
    pub carry: Vec<u8>,
    /// The position afterwards.
    pub position: Option<u32>,
}

/// The input of a seed; the document's log where that is too long for single calls, or its limits
/// are no limits.
pub fn input_of(seed: u64) -> Vec<u8> {
    let input = generate::input(seed);
    if input.len() > LONGEST || split(&input).is_err() {
        return table::input();
    }
    input
}

impl Call {
    /// The call of a seed: somewhere in a log, most often as it may be.
    pub fn of(seed: u64) -> Call {
        let mut random = Random::new(!seed);
        let input = input_of(seed);
        let (limits, log) = split(&input).expect("the limits are good");
        let (records, _) = parts(log);
        let count = random.below(records.len() + 1);
        let place = records[..count].concat().len();
        let next = records.get(count).map_or(20, |record| record.len());
        let rest = &log[place..];
        let carried = match random.below(4) {
            0 => 0,
            1 => random.below(3),
            _ => random.below(next),
        };
        let carried = carried.min(rest.len());
        let lent = match random.below(5) {
            0 => random.below(4),
            1 => (next + random.below(3)).saturating_sub(carried + 1),
            2 => random.below(next + 1),
            _ => rest.len(),
        };
        let part = &rest[carried..][..lent.min(rest.len() - carried)];
        let word = |_| random.bits().to_be_bytes();
        let mut carry: Vec<u8> = (0..CARRY_BYTES.div_ceil(8)).flat_map(word).collect();
        carry.truncate(CARRY_BYTES);
        carry[..carried].copy_from_slice(&rest[..carried]);
        let mut call = Call {
            limits,
            melded: records[..count]
                .iter()
                .map(|record| record.to_vec())
                .collect(),
            fit: random.percent(85),
            carry,
            carried,
            part: part.to_vec(),
            over: random.percent(30),
        };
        if random.percent(40) {
            call.spoil(next, &mut random);
        }
        call
    }

    /// Another size of the carry, another count, or a length that cannot be.
    fn spoil(&mut self, next: usize, random: &mut Random) {
        let length: u16 = random.pick(&[
            0,
            1,
            6,
            7,
            903,
            904,
            0x0700,
            13_833,
            13_834,
            0x3700,
            u16::MAX,
        ]);
        match random.below(5) {
            0 => {
                let size = random.pick(&[
                    0,
                    2,
                    22,
                    905,
                    CARRY_BYTES - 1,
                    CARRY_BYTES + 1,
                    CARRY_BYTES + 2_048,
                ]);
                self.carry.resize(size, 0xA5);
            }
            1 => self.carried = random.below(CARRY_BYTES + 2),
            2 => {
                let any = [next, next + 1, CARRY_BYTES, CARRY_BYTES + 1, 65_536];
                let most = [usize::MAX - 1, usize::MAX];
                self.carried = random.pick(&[&any[..], &most].concat());
            }
            3 => {
                self.carry[..2].copy_from_slice(&length.to_be_bytes());
                self.carried = random.pick(&[1, 2, 2, 2, 3]);
            }
            _ => {
                let both = length.to_be_bytes();
                self.carried = random.below(2);
                self.carry[0] = both[0];
                let new = both.len() - self.carried;
                self.part.resize(self.part.len().max(new), 1);
                self.part[..new].copy_from_slice(&both[self.carried..]);
            }
        }
    }

    /// The outcome by the reference.
    pub fn outcome(&self) -> Outcome {
        let mut state = State::new(self.limits);
        for record in &self.melded {
            state.meld(record);
        }
        let mut state = self.fit.then_some(state);
        let mut carry = self.carry.clone();
        let fed = feed(
            state.as_mut(),
            &mut carry,
            self.carried,
            &self.part,
            self.over,
        );
        let position = state.map(|state| state.position());
        Outcome {
            fed,
            carry,
            position,
        }
    }

    /// The outcome with a mistake, or by the way of `mistaken` with none.
    pub fn mistaken(&self, mistake: Option<FeedMistake>) -> Outcome {
        let limits = (self.limits.n(), self.limits.z());
        let feeder = Feeder::new(mistake, limits, self.carry.clone()).after(&self.melded);
        let mut feeder = if self.fit { feeder } else { feeder.unfit() };
        let fed = feeder.feed(self.carried, &self.part, self.over);
        let position = feeder.position();
        Outcome {
            fed,
            carry: feeder.carry,
            position,
        }
    }
}
