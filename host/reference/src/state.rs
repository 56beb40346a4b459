//! The state (R17) and the verdict (R21 to R31).

use std::collections::{BTreeMap, BTreeSet};

use crate::answer::Answer;
use crate::record::{Kind, Point, Record};
use crate::tree::Tree;

/// N and Z, each in its range.
#[derive(Clone, Copy, Debug, PartialEq, Eq)]
pub struct Limits {
    n: u32,
    z: u32,
}

impl Limits {
    /// N from 1 to 65,536 and Z from 1 to 4,096; else bad limits.
    pub fn new(n: u32, z: u32) -> Result<Limits, Answer> {
        if (1..=65_536).contains(&n) && (1..=4_096).contains(&z) {
            Ok(Limits { n, z })
        } else {
            Err(Answer::BadLimits)
        }
    }

    /// N, the most keys kept.
    pub fn n(&self) -> u32 {
        self.n
    }

    /// Z, the longest zone.
    pub fn z(&self) -> u32 {
        self.z
    }
}

/// What is kept of a key.
#[derive(Clone, Copy, Debug, PartialEq, Eq)]
pub struct Kept {
    /// The position of its last committed write.
    pub position: u32,
    /// Its payload, or none for a tombstone.
    pub payload: Option<u64>,
}

/// A write of a committed record.
#[derive(Clone, Copy, Debug, PartialEq, Eq)]
pub struct Write {
    /// The record's position.
    pub position: u32,
    /// The key that it wrote (R22).
    pub key: u32,
}

/// An answer and the looks made for it.
#[derive(Clone, Copy, Debug, PartialEq, Eq)]
pub struct Verdict {
    /// The answer of R23.
    pub answer: Answer,
    /// The looks of the conflict search.
    pub looks: u32,
}

/// What a state says of itself (R45).
#[derive(Clone, Copy, Debug, PartialEq, Eq)]
pub struct Status {
    /// N and Z.
    pub limits: Limits,
    /// The position p.
    pub position: u32,
    /// How many keys are kept, tombstones included.
    pub kept: u32,
    /// How many of them are tombstones.
    pub tombstones: u32,
}

/// The state at a position, with every committed write that led to it.
#[derive(Clone, Debug, PartialEq, Eq)]
pub struct State {
    limits: Limits,
    position: u32,
    kept: BTreeMap<u32, Kept>,
    committed: Vec<Write>,
}

impl State {
    /// A new pool's state: p = 0 and no keys.
    pub fn new(limits: Limits) -> State {
        State::empty_at(limits, 0)
    }

    /// No keys at position p, as a log of records without writes leaves it.
    pub fn empty_at(limits: Limits, position: u32) -> State {
        State {
            limits,
            position,
            kept: BTreeMap::new(),
            committed: Vec::new(),
        }
    }

    /// The state of a pool that no log need have made: of each kept key the last
    /// committed write is all that is known.
    pub fn of_kept(limits: Limits, position: u32, kept: BTreeMap<u32, Kept>) -> State {
        let writes = kept.iter().map(|(&key, kept)| Write {
            position: kept.position,
            key,
        });
        let mut committed: Vec<Write> = writes.collect();
        committed.sort_by_key(|write| write.position);
        State {
            limits,
            position,
            kept,
            committed,
        }
    }

    /// N and Z.
    pub fn limits(&self) -> Limits {
        self.limits
    }

    /// The position p.
    pub fn position(&self) -> u32 {
        self.position
    }

    /// What the state says of itself.
    pub fn status(&self) -> Status {
        let deleted = |kept: &&Kept| kept.payload.is_none();
        Status {
            limits: self.limits,
            position: self.position,
            kept: self.kept.len() as u32,
            tombstones: self.kept.values().filter(deleted).count() as u32,
        }
    }

    /// The kept keys.
    pub fn kept(&self) -> &BTreeMap<u32, Kept> {
        &self.kept
    }

    /// R31: the payload and write position of a key; none if it is absent, which
    /// is not kept or a tombstone.
    pub fn lookup(&self, key: u32) -> Option<(u64, u32)> {
        let kept = self.kept.get(&key)?;
        kept.payload.map(|payload| (payload, kept.position))
    }

    /// R23: decides the record at p + 1 and leaves behind what the table says.
    pub fn meld(&mut self, bytes: &[u8]) -> Verdict {
        let verdict = self.verdict(bytes);
        if verdict.answer == Answer::PositionsUsedUp {
            return verdict;
        }
        if verdict.answer == Answer::Committed {
            self.store(&Record::parse(bytes).expect("what commits is well formed"));
        }
        self.position += 1;
        verdict
    }

    /// The answer (R23) and the looks (R36) of the record at p + 1.
    pub fn verdict(&self, bytes: &[u8]) -> Verdict {
        if self.position == u32::MAX {
            return Verdict {
                answer: Answer::PositionsUsedUp,
                looks: 0,
            };
        }
        match self.admit(bytes) {
            Err(answer) => Verdict { answer, looks: 0 },
            Ok(record) => Verdict {
                answer: self.decide(&record),
                looks: self.looks(&record),
            },
        }
    }

    /// Answers 4, 5 and 2: the record, if none of them applies.
    pub fn admit(&self, bytes: &[u8]) -> Result<Record, Answer> {
        let record = Record::parse(bytes).map_err(|_| Answer::Malformed)?;
        if record.snapshot > self.position {
            return Err(Answer::Ahead);
        }
        if self.position - record.snapshot > self.limits.z {
            return Err(Answer::TooOld);
        }
        Ok(record)
    }

    /// Answers 1, 3 and 0, for a record that was admitted.
    fn decide(&self, record: &Record) -> Answer {
        if self.conflict(record) {
            Answer::Conflict
        } else if self.needed(record) > self.limits.n as usize {
            Answer::NoRoom
        } else {
            Answer::Committed
        }
    }

    /// R25, word for word: a key named or scanned was written by a committed
    /// record at s + 1 to p.
    pub fn conflict(&self, record: &Record) -> bool {
        self.in_conflict(record).next().is_some()
    }

    /// The writes that R25 speaks of, the last one first.
    pub fn in_conflict<'a>(&'a self, record: &'a Record) -> impl Iterator<Item = &'a Write> {
        let zone = self
            .committed
            .iter()
            .rev()
            .take_while(|write| write.position > record.snapshot);
        zone.filter(|write| record.touches(write.key))
    }

    /// R22: does a record with this point write its key? A put does; a delete does
    /// if the key is live at p.
    pub fn writes(&self, point: &Point) -> bool {
        match point.kind {
            Kind::Read => false,
            Kind::Put(_) => true,
            Kind::Delete => self.lookup(point.key).is_some(),
        }
    }

    /// R22: the points of a record whose keys it writes.
    fn written(&self, record: &Record) -> Vec<Point> {
        let points = record.points.iter().copied();
        points.filter(|point| self.writes(point)).collect()
    }

    /// R26's count: live keys, tombstones w with w + Z > v, and the keys this
    /// record writes, each key once.
    pub fn needed(&self, record: &Record) -> usize {
        let staying = self
            .kept
            .iter()
            .filter(|(_, kept)| !self.old_tombstone(kept));
        let mut keys: BTreeSet<u32> = staying.map(|(&key, _)| key).collect();
        keys.extend(self.written(record).iter().map(|point| point.key));
        keys.len()
    }

    /// A tombstone w with w + Z ≤ v, where v is p + 1.
    fn old_tombstone(&self, kept: &Kept) -> bool {
        let v = u64::from(self.position) + 1;
        kept.payload.is_none() && u64::from(kept.position) + u64::from(self.limits.z) <= v
    }

    /// The looks of the conflict search in the tree of the kept keys.
    pub fn looks(&self, record: &Record) -> u32 {
        self.search(record).0
    }

    /// The looks (R36), and whether the search ends at a conflict. That is decided
    /// by R25, without it; that the two agree is for tests to see.
    pub fn search(&self, record: &Record) -> (u32, bool) {
        let keys: Vec<(u32, u32)> = self
            .kept
            .iter()
            .map(|(&key, kept)| (key, kept.position))
            .collect();
        Tree::build(&keys).map_or((0, false), |tree| tree.search(record))
    }

    /// The drop (R27), if it is needed, then the writes at v (R28). What is written is
    /// asked of the state before the drop.
    fn store(&mut self, record: &Record) {
        let written = self.written(record);
        let mut together: BTreeSet<u32> = self.kept.keys().copied().collect();
        together.extend(written.iter().map(|point| point.key));
        if together.len() > self.limits.n as usize {
            let old: Vec<u32> = self
                .kept
                .iter()
                .filter(|(_, kept)| self.old_tombstone(kept))
                .map(|(&key, _)| key)
                .collect();
            for key in old {
                self.kept.remove(&key);
            }
        }
        let position = self.position + 1;
        for Point { key, kind } in written {
            let payload = match kind {
                Kind::Put(payload) => Some(payload),
                _ => None,
            };
            self.kept.insert(key, Kept { position, payload });
            self.committed.push(Write { position, key });
        }
    }
}
