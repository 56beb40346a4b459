//! The conflict walk over the kept keys, with one mistake or none.

use super::meld::{Entry, Pool};
use super::record::Fields;
use super::Mistake;

impl Pool {
    /// The conflict walk over a part of the kept keys.
    pub(super) fn walk(&self, slice: &[Entry], record: &Fields, looks: &mut u32) -> bool {
        let (first, last) = (slice[0].key, slice[slice.len() - 1].key);
        let below = (1_u64 << (32 - (first ^ last).leading_zeros())) as u32;
        let below = below.wrapping_sub(1);
        let (low, high) = match self.mistake {
            Some(Mistake::CoverOfKeys) => (first, last),
            Some(Mistake::CoverIgnored) if slice.len() > 1 => (0, u32::MAX),
            _ => (first & !below, first | below),
        };
        let newest = slice.iter().map(|entry| entry.position).max().unwrap_or(0);
        let past = match self.mistake {
            Some(Mistake::NewestIgnored) if slice.len() > 1 => false,
            Some(Mistake::NewestAtSnapshotSeen) if slice.len() > 1 => newest < record.snapshot,
            Some(Mistake::SnapshotInZone) => newest < record.snapshot,
            _ => newest <= record.snapshot,
        };
        let any = self.has(Mistake::CoverIgnored) && slice.len() > 1;
        let stop = past || !(any || self.touches(record, low, high));
        *looks += u32::from(!(stop && self.has(Mistake::StopsNotCounted)));
        if stop {
            return false;
        }
        if let [entry] = slice {
            return self.leaf_conflicts(record, entry);
        }
        let middle = first & !(below >> 1) | (below ^ below >> 1);
        let split = slice.partition_point(|entry| entry.key < middle);
        let (mut one, mut other) = slice.split_at(split);
        if self.has(Mistake::RightFirst) {
            (one, other) = (other, one);
        }
        let found = self.walk(one, record, looks);
        if found && !self.has(Mistake::RightAfterConflict) {
            return true;
        }
        self.walk(other, record, looks) || found
    }

    /// Does the record name or scan anything from low to high? Its lists rise, some
    /// mistakes apart.
    fn touches(&self, record: &Fields, low: u32, high: u32) -> bool {
        let seen = |kind: u8, key: u32| match self.mistake {
            Some(Mistake::PutsDoNotConflict) => kind != 2,
            Some(Mistake::DeletesDoNotConflict) => kind != 3,
            Some(Mistake::NothingNotNamed) => kind != 3 || self.writes(kind, key),
            Some(Mistake::AbsentDeleteNotNamed) => kind != 3 || self.entry(key).is_some(),
            _ => true,
        };
        let scanned = |scan: &(u32, u32)| match self.mistake {
            Some(Mistake::ScansLeftOut) => false,
            Some(Mistake::ScanLowLeftOut) => scan.0 < high && low <= scan.1,
            Some(Mistake::ScanHighLeftOut) => scan.0 <= high && low < scan.1,
            _ => scan.0 <= high && low <= scan.1,
        };
        let (mut points, mut scans) = (&record.points[..], &record.scans[..]);
        match self.mistake {
            Some(Mistake::LaterPointsLeftOut) => points = &points[..points.len().min(64)],
            Some(Mistake::LaterScansLeftOut) => scans = &scans[..scans.len().min(8)],
            _ => {}
        }
        let points = &points[points.partition_point(|point| point.1 < low)..];
        let scans = &scans[scans.partition_point(|scan| scan.1 < low)..];
        let mut points = points.iter().take_while(|point| point.1 <= high);
        let mut scans = scans.iter().take_while(|scan| scan.0 <= high);
        points.any(|point| seen(point.0, point.1)) || scans.any(scanned)
    }

    /// A touched leaf above the snapshot is the conflict, some mistakes apart.
    fn leaf_conflicts(&self, record: &Fields, entry: &Entry) -> bool {
        if self.has(Mistake::TombstonesDoNotConflict) {
            return entry.live;
        }
        if self.has(Mistake::AbsentReadsLeftOut) && entry.born > record.snapshot {
            let other = |point: &(u8, u32, u64)| point.0 != 1 && point.1 == entry.key;
            let scanned = |scan: &(u32, u32)| scan.0 <= entry.key && entry.key <= scan.1;
            return record.points.iter().any(other) || record.scans.iter().any(scanned);
        }
        true
    }
}
