//! Room, the drop and the writes, with one mistake or none.

use super::meld::{Entry, Pool};
use super::record::Fields;
use super::Mistake;

impl Pool {
    /// A tombstone that may go at v.
    fn old_tombstone(&self, entry: &Entry) -> bool {
        let v = self.p + 1;
        let end = entry.position + self.z;
        !entry.live
            && match self.mistake {
                Some(Mistake::NeverDropped) => false,
                Some(Mistake::DroppedEarly) => end <= v + 1,
                Some(Mistake::DroppedLate) => end < v,
                _ => end <= v,
            }
    }

    /// R22: is a key written by a point of this kind?
    pub(super) fn writes(&self, kind: u8, key: u32) -> bool {
        let entry = self.entry(key);
        match (kind, self.mistake) {
            (1, mistake) => mistake == Some(Mistake::ReadsWrite),
            (3, Some(Mistake::DeletesAlwaysWrite)) => true,
            (3, Some(Mistake::TombstonesWrittenAgain)) => entry.is_some(),
            (3, Some(Mistake::DeletesWriteNothing)) => false,
            (3, _) => entry.is_some_and(|entry| entry.live),
            _ => true,
        }
    }

    /// The keys of the record that need room besides these kept ones; `nothing` tells
    /// which of the deletes that write nothing are counted, by what is kept of the key.
    fn added(
        &self,
        record: &Fields,
        kept: &dyn Fn(u32) -> bool,
        nothing: &dyn Fn(Option<&Entry>) -> bool,
    ) -> usize {
        let needs = |point: &&(u8, u32, u64)| match point.0 {
            1 => self.has(Mistake::ReadsNeedRoom),
            3 => self.writes(3, point.1) || nothing(self.entry(point.1)),
            _ => true,
        };
        let counted =
            |point: &&(u8, u32, u64)| self.has(Mistake::RewritesNeedRoom) || !kept(point.1);
        record.points.iter().filter(needs).filter(counted).count()
    }

    /// R26: is there room for the record?
    pub(super) fn room(&self, record: &Fields) -> bool {
        let stays = |entry: &Entry| match self.mistake {
            Some(Mistake::TombstonesNeedNoRoom) => entry.live,
            _ => !self.old_tombstone(entry),
        };
        let staying = self.entries.iter().filter(|entry| stays(entry)).count();
        let kept = |key: u32| self.entry(key).is_some_and(stays);
        let nothing = |entry: Option<&Entry>| match self.mistake {
            Some(Mistake::AbsentDeletesNeedRoom) => entry.is_none(),
            Some(Mistake::TombstoneDeletesNeedRoom) => entry.is_some(),
            _ => false,
        };
        let needed = staying + self.added(record, &kept, &nothing);
        match self.mistake {
            Some(Mistake::RoomForOneMore) => needed <= self.n + 1,
            Some(Mistake::RoomForOneLess) => needed < self.n || needed == 0,
            _ => needed <= self.n,
        }
    }

    /// The drop, then the writes.
    pub(super) fn store(&mut self, record: &Fields) {
        let v = self.p + 1;
        let stored = match self.mistake {
            Some(Mistake::LaterWritesLost) => record.points.len().min(64),
            _ => record.points.len(),
        };
        let points = record.points[..stored].iter().copied();
        let (written, others): (Vec<_>, Vec<_>) =
            points.partition(|point| self.writes(point.0, point.1));
        self.drop_for(record);
        for (kind, key, payload) in written {
            let live = kind != 3 && !(payload == 0 && self.has(Mistake::ZeroPutDeletes));
            self.write(key, v, live, kind);
        }
        if self.has(Mistake::TombstonesRenewed) {
            for (kind, key, _) in others {
                let place = self.entries.binary_search_by_key(&key, |entry| entry.key);
                if let (3, Ok(place)) = (kind, place) {
                    self.entries[place].position = v;
                }
            }
        }
    }

    /// The drop, if this record makes it happen.
    fn drop_for(&mut self, record: &Fields) {
        let kept = |key: u32| self.entry(key).is_some();
        let nothing = |_: Option<&Entry>| self.has(Mistake::DroppedForNothing);
        let together = self.entries.len() + self.added(record, &kept, &nothing);
        let least = match self.mistake {
            Some(Mistake::DroppedAlways) => 0,
            Some(Mistake::DroppedWhenFull) => self.n,
            _ => self.n + 1,
        };
        if together < least {
            return;
        }
        let mut most = usize::MAX;
        if self.has(Mistake::DroppedJustEnough) {
            most = together - self.n;
        }
        let gone: Vec<u32> = self
            .entries
            .iter()
            .filter(|entry| self.old_tombstone(entry))
            .map(|entry| entry.key)
            .take(most)
            .collect();
        self.entries.retain(|entry| !gone.contains(&entry.key));
    }

    /// Stores one key at v.
    fn write(&mut self, key: u32, v: u32, live: bool, kind: u8) {
        let place = self.entries.partition_point(|entry| entry.key < key);
        let there = self.entries.get(place).map(|entry| entry.key) == Some(key);
        if kind == 3 && self.has(Mistake::DeleteRemoves) {
            self.entries.retain(|entry| entry.key != key);
            return;
        }
        if kind == 1 && !there {
            return;
        }
        let position = v;
        if there {
            let born = self.entries[place].born;
            self.entries[place] = Entry {
                key,
                position,
                born,
                live,
            };
        } else {
            let born = v;
            self.entries.insert(
                place,
                Entry {
                    key,
                    position,
                    born,
                    live,
                },
            );
        }
    }
}
