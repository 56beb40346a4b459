//! The meld by kept positions, with one mistake or none.

use super::record::{fields, snapshot, Fields};
use super::Mistake;

/// What is kept of a key.
#[derive(Clone, Copy)]
pub(super) struct Entry {
    pub(super) key: u32,
    pub(super) position: u32,
    /// The first of the writes since it is kept.
    pub(super) born: u32,
    pub(super) live: bool,
}

/// The kept keys, in rising order, at a position.
#[derive(Clone)]
pub struct Pool {
    pub(super) n: usize,
    pub(super) z: u32,
    pub(super) p: u32,
    pub(super) entries: Vec<Entry>,
    pub(super) mistake: Option<Mistake>,
}

impl Pool {
    /// No keys at position 0.
    pub fn new(n: u32, z: u32, mistake: Option<Mistake>) -> Pool {
        let (n, p, entries) = (n as usize, 0, Vec::new());
        Pool {
            n,
            z,
            p,
            entries,
            mistake,
        }
    }

    /// Is this the mistake made?
    pub(super) fn has(&self, mistake: Mistake) -> bool {
        self.mistake == Some(mistake)
    }

    /// What is kept of a key.
    pub(super) fn entry(&self, key: u32) -> Option<&Entry> {
        let place = self.entries.binary_search_by_key(&key, |entry| entry.key);
        place.ok().map(|place| &self.entries[place])
    }

    /// The answer, the looks and the position of the next record.
    pub fn meld(&mut self, part: &[u8]) -> (u8, u32, u32) {
        let v = self.p + 1;
        let idle = self.has(Mistake::NothingTakesNoPosition) && self.deletes_nothing(part);
        let (answer, looks) = self.decide(part);
        let stays = match answer {
            0 => idle,
            4 => self.has(Mistake::MalformedTakesNoPosition),
            _ => self.has(Mistake::AbortedTakesNoPosition),
        };
        if !stays {
            self.p = v;
        }
        (answer, looks, v)
    }

    /// Has the record deletes, and nothing that it writes?
    fn deletes_nothing(&self, part: &[u8]) -> bool {
        let points = fields(self.mistake, part, self.p).map_or(Vec::new(), |record| record.points);
        points.iter().any(|point| point.0 == 3)
            && !points.iter().any(|point| self.writes(point.0, point.1))
    }

    /// The checks in their order.
    fn decide(&mut self, part: &[u8]) -> (u8, u32) {
        let refused = u32::from(self.has(Mistake::RefusalsLook) && !self.entries.is_empty());
        let early = snapshot(self.mistake, part, self.p).map(|s| (self.ahead(s), self.old(s)));
        match early {
            Some((true, _)) if self.has(Mistake::AheadBeforeMalformed) => return (5, refused),
            Some((_, true)) if self.has(Mistake::OldBeforeMalformed) => return (2, refused),
            _ => {}
        }
        let Some(record) = fields(self.mistake, part, self.p) else {
            return (4, 0);
        };
        if self.ahead(record.snapshot) {
            return (5, refused);
        }
        if self.old(record.snapshot) {
            return (2, refused);
        }
        self.decide_admitted(&record)
    }

    pub(super) fn ahead(&self, s: u32) -> bool {
        match self.mistake {
            Some(Mistake::AheadAtP) => s >= self.p && s > 0,
            Some(Mistake::AheadLate) => s > self.p + 1,
            _ => s > self.p,
        }
    }

    pub(super) fn old(&self, s: u32) -> bool {
        let lag = self.p.saturating_sub(s);
        match self.mistake {
            Some(Mistake::OldAtZ) => lag >= self.z,
            Some(Mistake::OldLate) => lag > self.z + 1,
            _ => lag > self.z,
        }
    }

    /// Answers 1, 3 and 0.
    fn decide_admitted(&mut self, record: &Fields) -> (u8, u32) {
        let mut looks = u32::from(self.entries.is_empty() && self.has(Mistake::EmptyTreeCounted));
        let mut conflict = false;
        if !self.entries.is_empty() {
            conflict = self.walk(&self.entries, record, &mut looks);
            looks -= u32::from(self.has(Mistake::RootNotCounted));
        }
        let room = self.room(record);
        if conflict && (room || !self.has(Mistake::RoomBeforeConflict)) {
            if self.has(Mistake::AbortedWriter) {
                self.store(record);
            }
            return (1, looks);
        }
        if !room {
            if self.has(Mistake::DroppedOnRefusal) {
                let (v, z) = (self.p + 1, self.z);
                self.entries
                    .retain(|entry| entry.live || entry.position + z > v);
            }
            return (
                3,
                if self.has(Mistake::NoRoomHidesLooks) {
                    0
                } else {
                    looks
                },
            );
        }
        self.store(record);
        if self.has(Mistake::LooksAfterWrites) && !self.entries.is_empty() {
            looks = 0;
            self.walk(&self.entries, record, &mut looks);
        }
        (0, looks)
    }
}
