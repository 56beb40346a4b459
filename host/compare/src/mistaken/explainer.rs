//! Explaining (R50) with one mistake or none. Without a mistake it is a second way to the
//! reasons: by the kept positions, where the reference takes the committed writes.

use super::meld::{Entry, Pool};
use super::reason::ReasonMistake;
use super::record::{fields, Fields};

/// A point of a record that was melded.
struct Melded {
    position: u32,
    key: u32,
    read: bool,
    writes: bool,
    committed: bool,
}

/// The numbers of a line behind the position.
#[derive(Default)]
pub(super) struct Told {
    answer: u8,
    looks: u32,
    key: u32,
    written: u32,
    point: usize,
    scan: usize,
    lag: u32,
    keys: usize,
}

impl Told {
    /// The line of the record at this position.
    pub(super) fn line(&self, position: usize) -> String {
        let Told {
            answer,
            looks,
            key,
            written,
            point,
            scan,
            lag,
            keys,
        } = self;
        format!("{position} {answer} {looks} {key} {written} {point} {scan} {lag} {keys}\n")
    }
}

/// An explainer: a pool, and for some mistakes every point of the log.
pub(super) struct Explainer {
    mistake: Option<ReasonMistake>,
    pool: Pool,
    points: Vec<Melded>,
}

impl Explainer {
    /// An explainer over a new pool with these limits.
    pub(super) fn new(mistake: Option<ReasonMistake>, (n, z): (u32, u32)) -> Explainer {
        let melding = mistake.and_then(ReasonMistake::in_meld);
        Explainer {
            mistake,
            pool: Pool::new(n, z, melding),
            points: Vec::new(),
        }
    }

    fn has(&self, mistake: ReasonMistake) -> bool {
        self.mistake == Some(mistake)
    }

    /// Melds a record.
    pub(super) fn meld(&mut self, part: &[u8]) {
        let record = fields(None, part, self.pool.p);
        let points = record.map_or(Vec::new(), |record| record.points);
        let melded = |(kind, key, _): (u8, u32, u64)| Melded {
            position: 0,
            key,
            read: kind == 1,
            writes: self.pool.writes(kind, key),
            committed: false,
        };
        let mut points: Vec<Melded> = points.into_iter().map(melded).collect();
        let (answer, _, position) = self.pool.meld(part);
        for point in &mut points {
            point.position = position;
            point.committed = answer == 0;
        }
        self.points.extend(points);
    }

    /// What is told of a record.
    pub(super) fn explain(&mut self, part: &[u8]) -> Told {
        let p = self.pool.p;
        let (answer, looks, v) = self.pool.clone().meld(part);
        let mut told = Told {
            answer,
            looks: match self.has(ReasonMistake::LooksMissing) {
                true => 0,
                false => looks,
            },
            ..Told::default()
        };
        if let Some(record) = fields(None, part, p) {
            let s = record.snapshot;
            match answer {
                0 if self.has(ReasonMistake::KeysWithCommitted) => {
                    told.keys = self.keys(&record, v)
                }
                1 => self.tell_conflict(&record, &mut told),
                2 => {
                    told.lag = match self.mistake {
                        Some(ReasonMistake::LagFromV) => v - s,
                        Some(ReasonMistake::LagIsZ) => self.pool.z,
                        Some(ReasonMistake::LagBeyondZ) => p - s - self.pool.z,
                        _ => p - s,
                    };
                    if self.has(ReasonMistake::OldHasConflict) {
                        self.tell_conflict(&record, &mut told);
                    }
                }
                3 => told.keys = self.keys(&record, v),
                5 if self.has(ReasonMistake::LagWithAhead) => told.lag = s - p,
                _ => {}
            }
        }
        if self.has(ReasonMistake::ExplainingMelds) {
            self.meld(part);
        }
        told
    }

    /// The key in conflict, its write and what touches it, if there is one.
    fn tell_conflict(&self, record: &Fields, told: &mut Told) {
        let (p, s) = (self.pool.p, record.snapshot);
        let found: Vec<&Entry> = self.in_conflict(record);
        let Some(blamed) = self.blamed(record, &found) else {
            return;
        };
        let newest = |entries: &[&Entry]| entries.iter().map(|entry| entry.position).max();
        let all: Vec<&Entry> = self.pool.entries.iter().collect();
        let mut points = self.points.iter().filter(|point| point.key == blamed.key);
        let since = |point: &&Melded| point.writes && point.committed && point.position > s;
        let position = |point: &Melded| point.position;
        let other = match self.mistake {
            Some(ReasonMistake::OwnPosition) => Some(p + 1),
            Some(ReasonMistake::LastPosition) => Some(p),
            Some(ReasonMistake::SnapshotTold) => Some(s),
            Some(ReasonMistake::FirstWrite) => Some(blamed.born),
            Some(ReasonMistake::FirstWriteSince) => points.find(since).map(position),
            Some(ReasonMistake::NewestInConflict) => newest(&found),
            Some(ReasonMistake::NewestOfAll) => newest(&all),
            Some(ReasonMistake::RefusedWriter) => points.rfind(|point| point.writes).map(position),
            Some(ReasonMistake::NothingBlamed) => points
                .rfind(|point| point.committed && !point.read)
                .map(position),
            Some(ReasonMistake::ReadWriter) => points.rfind(|point| point.committed).map(position),
            _ => None,
        };
        told.key = blamed.key;
        told.written = other.unwrap_or(blamed.position);
        self.tell_touch(record, told);
        match self.mistake {
            Some(ReasonMistake::LagWithConflict) => told.lag = p - s,
            Some(ReasonMistake::KeysWithConflict) => told.keys = self.keys(record, p + 1),
            _ => {}
        }
    }

    /// The kept keys in conflict, rising.
    fn in_conflict(&self, record: &Fields) -> Vec<&Entry> {
        let above =
            |entry: &&Entry| entry.position > record.snapshot || self.has(ReasonMistake::KeptKey);
        let touched = |entry: &&Entry| {
            point_with(record, entry.key).is_some() || scan_over(record, entry.key).is_some()
        };
        let entries = self.pool.entries.iter();
        entries.filter(above).filter(touched).collect()
    }

    /// The one of them that is told.
    fn blamed<'a>(&self, record: &Fields, found: &[&'a Entry]) -> Option<&'a Entry> {
        let mut entries = found.iter().copied();
        let other = match self.mistake {
            Some(ReasonMistake::LargestKey) => entries.next_back(),
            Some(ReasonMistake::PointsFirst) => {
                entries.find(|entry| point_with(record, entry.key).is_some())
            }
            Some(ReasonMistake::ScansFirst) => {
                entries.find(|entry| scan_over(record, entry.key).is_some())
            }
            Some(ReasonMistake::NewestKey) => entries.max_by_key(|entry| entry.position),
            Some(ReasonMistake::OldestKey) => entries.min_by_key(|entry| entry.position),
            Some(ReasonMistake::SignedKey) => entries.min_by_key(|entry| entry.key as i32),
            Some(ReasonMistake::LiveKey) => entries.find(|entry| entry.live),
            Some(ReasonMistake::KeyZeroIsNone) => entries.find(|entry| entry.key != 0),
            _ => None,
        };
        other.or(found.first().copied())
    }

    /// What touches the key that is told.
    fn tell_touch(&self, record: &Fields, told: &mut Told) {
        let from = |mistake| usize::from(!self.has(mistake));
        let scan = scan_over(record, told.key).map(|index| {
            let points = match self.has(ReasonMistake::ScansBehindPoints) {
                true => record.points.len(),
                false => 0,
            };
            points + index + from(ReasonMistake::ScansFromZero)
        });
        let mut place = point_with(record, told.key);
        if place.is_none() && self.has(ReasonMistake::PointAtOrAbove) {
            let points = &record.points;
            place = points.iter().position(|point| point.1 >= told.key);
        }
        let point = place.map(|index| {
            let kind = |point: &&(u8, u32, u64)| point.0 == record.points[index].0;
            let before = match self.has(ReasonMistake::PointsOfItsKind) {
                true => record.points[..index].iter().filter(kind).count(),
                false => index,
            };
            before + from(ReasonMistake::PointsFromZero)
        });
        (told.point, told.scan) = match (point, scan) {
            (Some(_), Some(scan)) if self.has(ReasonMistake::ScanBeforePoint) => (0, scan),
            (Some(point), Some(scan)) if self.has(ReasonMistake::BothTold) => (point, scan),
            (Some(point), _) => (point, 0),
            (None, scan) => (0, scan.unwrap_or(0)),
        };
        match self.mistake {
            Some(ReasonMistake::PointInAByte) => told.point %= 256,
            Some(ReasonMistake::PointsUpTo64) => told.point = told.point.min(64),
            Some(ReasonMistake::ScansUpTo8) => told.scan = told.scan.min(8),
            _ => {}
        }
        let low = scan_over(record, told.key).map(|index| record.scans[index].0);
        if point.is_none() && self.has(ReasonMistake::ScanLowTold) {
            told.key = low.unwrap_or(told.key);
        }
    }

    /// How many keys have to find room at v.
    fn keys(&self, record: &Fields, v: u32) -> usize {
        let stays = |entry: &Entry| {
            let end = entry.position + self.pool.z;
            entry.live
                || match self.mistake {
                    Some(ReasonMistake::OldTombstonesCounted) => true,
                    Some(ReasonMistake::TombstonesNotCounted) => false,
                    Some(ReasonMistake::TombstonesCountedLong) => end >= v,
                    Some(ReasonMistake::TombstonesCountedShort) => end > v + 1,
                    _ => end > v,
                }
        };
        let counted = |key: u32| {
            let any = self.has(ReasonMistake::OldRewrittenLost);
            let entry = self.pool.entry(key);
            entry.is_some_and(|entry| any || stays(entry)) && !self.has(ReasonMistake::CountedTwice)
        };
        let needs = |point: &&(u8, u32, u64)| match (point.0, self.mistake) {
            (_, Some(ReasonMistake::WrittenNotCounted)) => false,
            (1, mistake) => mistake == Some(ReasonMistake::ReadsCounted),
            (3, Some(ReasonMistake::NothingCounted)) => true,
            (3, _) => self.pool.writes(3, point.1),
            _ => true,
        };
        let staying = self.pool.entries.iter().filter(|entry| stays(entry));
        let written = record.points.iter().filter(needs);
        let new = written.filter(|point| !counted(point.1));
        let keys = staying.count() + new.count();
        match self.mistake {
            Some(ReasonMistake::KeysBeyondN) => keys.saturating_sub(self.pool.n),
            Some(ReasonMistake::KeysIsN) => self.pool.n,
            _ => keys,
        }
    }
}

/// The place of the point with this key.
fn point_with(record: &Fields, key: u32) -> Option<usize> {
    record
        .points
        .binary_search_by_key(&key, |point| point.1)
        .ok()
}

/// The place of the scan that covers this key.
fn scan_over(record: &Fields, key: u32) -> Option<usize> {
    let place = record.scans.partition_point(|scan| scan.1 < key);
    let covers = |scan: &(u32, u32)| scan.0 <= key;
    record.scans.get(place).is_some_and(covers).then_some(place)
}
