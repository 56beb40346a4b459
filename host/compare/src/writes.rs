//! Single calls of the writer (R10) and of refresh (R38) from seeds, right ones and wrong
//! ones: what a program's lines do not show. The counts of points and scans are at the
//! edges of both versions.

use reference::lists::{self, Lists};
use reference::log::parts;
use reference::program::split;
use reference::random::Random;
use reference::record::{MOST_LENGTH, MOST_POINTS, MOST_SCANS};
use reference::refresh::refresh;
use reference::{Answer, Limits, State};

use crate::calls::input_of;
use crate::mistaken::writer::{self, WriteMistake};

/// Numbers of points at the edges, and one that is too many.
const POINTS: [usize; 14] = [
    0, 1, 3, 63, 64, 64, 65, 65, 66, 255, 256, 1_023, 1_024, 1_025,
];

/// Numbers of scans at the edges, and one that is too many.
const SCANS: [usize; 12] = [0, 0, 0, 1, 7, 8, 8, 9, 10, 63, 64, 65];

/// A call of the writer: what is lent.
#[derive(Clone, Debug)]
pub struct Writing {
    /// The snapshot.
    pub snapshot: u32,
    /// The points' kinds.
    pub kinds: Vec<u8>,
    /// The points' keys.
    pub keys: Vec<u32>,
    /// The points' payloads.
    pub payloads: Vec<u64>,
    /// The scans.
    pub scans: Vec<(u32, u32)>,
    /// The bytes of the output.
    pub room: usize,
}

/// What the writer says and leaves: the answer, the size and the output.
pub type Written = (Answer, usize, Vec<u8>);

impl Writing {
    /// The call of a seed: most often as it may be.
    pub fn of(seed: u64) -> Writing {
        let mut random = Random::new(!seed);
        let (points, scans) = match random.below(20) {
            0 => (MOST_POINTS, MOST_SCANS),
            _ => (random.pick(&POINTS), random.pick(&SCANS)),
        };
        let step = random.pick(&[1, 7, 4_000_000]);
        let start = random.between(0, 9);
        let kinds = random.pick(&[&[1, 2, 2, 3][..], &[2], &[1, 3]]);
        let mut writing = Writing {
            snapshot: random.word(),
            kinds: (0..points).map(|_| random.pick(kinds)).collect(),
            keys: (0..points as u32)
                .map(|index| start + index * step)
                .collect(),
            payloads: vec![0; points],
            scans: (0..scans as u32)
                .map(|index| {
                    (
                        index * 50 + start,
                        index * 50 + start + random.between(0, 40),
                    )
                })
                .collect(),
            room: 0,
        };
        for (kind, payload) in writing.kinds.iter().zip(&mut writing.payloads) {
            *payload = if *kind == 2 { random.bits() } else { 0 };
        }
        if random.percent(25) {
            writing.spoil(&mut random);
        }
        let (_, size, _) = writing.written_into(MOST_LENGTH + 2);
        writing.room = match random.below(6) {
            0 => size.saturating_sub(1),
            1 => size.saturating_sub(2),
            2 => size + random.below(20),
            3 => random.pick(&[0, 904, 905, 906, 13_834, 13_835]),
            _ => size,
        };
        writing
    }

    /// One rule broken, if there is a point or a scan to break it with.
    fn spoil(&mut self, random: &mut Random) {
        let point = random.below(self.kinds.len().max(1));
        let scan = random.below(self.scans.len().max(1));
        match random.below(7) {
            0 => drop(self.keys.pop()),
            1 => drop(self.payloads.pop()),
            2 => self
                .kinds
                .iter_mut()
                .skip(point)
                .take(1)
                .for_each(|kind| *kind = 4),
            3 => self
                .payloads
                .iter_mut()
                .skip(point)
                .take(1)
                .for_each(|one| *one = 9),
            4 => self
                .keys
                .iter_mut()
                .skip(point)
                .take(1)
                .for_each(|key| *key = 9),
            5 => self
                .scans
                .iter_mut()
                .skip(scan)
                .take(1)
                .for_each(|scan| scan.1 = 0),
            _ => self
                .scans
                .iter_mut()
                .skip(scan)
                .take(1)
                .for_each(|scan| scan.1 += 100),
        }
    }

    fn lists(&self) -> Lists<'_> {
        Lists {
            snapshot: self.snapshot,
            kinds: &self.kinds,
            keys: &self.keys,
            payloads: &self.payloads,
            scans: &self.scans,
        }
    }

    /// What the reference says and leaves, with an output of so many bytes.
    fn written_into(&self, room: usize) -> Written {
        let mut out = vec![0xA5; room];
        let (answer, size) = lists::write(self.lists(), &mut out);
        (answer, size, out)
    }

    /// The outcome by the reference.
    pub fn outcome(&self) -> Written {
        self.written_into(self.room)
    }

    /// The outcome with a mistake, or by the way of `mistaken` with none.
    pub fn mistaken(&self, mistake: Option<WriteMistake>) -> Written {
        let mut out = vec![0xA5; self.room];
        let (answer, size) = writer::write(mistake, self.lists(), &mut out);
        (answer, size, out)
    }
}

/// A call of refresh: what is lent, and how the pool came about.
#[derive(Clone, Debug)]
pub struct Refreshing {
    /// The pool's limits.
    pub limits: Limits,
    /// The records that were melded into it.
    pub melded: Vec<Vec<u8>>,
    /// The bytes as a record.
    pub record: Vec<u8>,
    /// The bytes of the output.
    pub room: usize,
}

impl Refreshing {
    /// The call of a seed: a record of its log, somewhere before it in the log. One seed in
    /// four has what its writer writes instead, most often of version 2.
    pub fn of(seed: u64) -> Refreshing {
        let mut random = Random::new(!seed);
        let input = input_of(seed);
        let (limits, log) = split(&input).expect("the limits are good");
        let (records, _) = parts(log);
        let place = random.below(records.len().max(1));
        let before = place.saturating_sub(random.pick(&[0, 0, 1, 2]));
        let mut record = records.get(place).map_or(Vec::new(), |part| part.to_vec());
        if seed % 4 == 0 {
            let snapshot = (before as u32).saturating_sub(random.between(0, 2));
            let mut writing = Writing::of(seed);
            writing.snapshot = snapshot;
            let (_, size, out) = writing.written_into(MOST_LENGTH + 2);
            record = out[..size].to_vec();
        }
        let room = match random.below(6) {
            0 => record.len().saturating_sub(1),
            1 => record.len() + random.below(9),
            2 => random.pick(&[0, 904, 905, 13_834]),
            3 => record.len(),
            _ => 13_835,
        };
        Refreshing {
            limits,
            melded: records[..before].iter().map(|part| part.to_vec()).collect(),
            record,
            room,
        }
    }

    /// The answer and the output by the reference.
    pub fn outcome(&self) -> (Answer, Vec<u8>) {
        let mut state = State::new(self.limits);
        for record in &self.melded {
            state.meld(record);
        }
        let mut out = vec![0xA5; self.room];
        (refresh(&state, &self.record, &mut out), out)
    }

    /// The same with a mistake, or by the way of `mistaken` with none.
    pub fn mistaken(&self, mistake: Option<WriteMistake>) -> (Answer, Vec<u8>) {
        let limits = (self.limits.n(), self.limits.z());
        let mut out = vec![0xA5; self.room];
        let answer = writer::refresh(mistake, limits, &self.melded, &self.record, &mut out);
        (answer, out)
    }
}
