//! The writer (R10) and the reader (R11) with lent lists: 4, then 8, both
//! changing nothing, then 0.

use crate::answer::Answer;
use crate::record::{Kind, Point, Record, Scan};

/// What the writer is lent besides the output.
#[derive(Clone, Copy, Debug)]
pub struct Lists<'a> {
    /// The snapshot s.
    pub snapshot: u32,
    /// 1 read, 2 put, 3 delete.
    pub kinds: &'a [u8],
    /// As long as `kinds`.
    pub keys: &'a [u32],
    /// As long as `kinds`; 0 for a read or delete.
    pub payloads: &'a [u64],
    /// Low and high pairs.
    pub scans: &'a [(u32, u32)],
}

/// Writes the record to the front of `out`: the answer and the size, which is
/// 0 on a refusal. A refusal leaves `out` untouched.
pub fn write(lists: Lists<'_>, out: &mut [u8]) -> (Answer, usize) {
    let Some(bytes) = record_of(lists).and_then(|record| record.written().ok()) else {
        return (Answer::Malformed, 0);
    };
    if out.len() < bytes.len() {
        return (Answer::OutputShort, 0);
    }
    out[..bytes.len()].copy_from_slice(&bytes);
    (Answer::Committed, bytes.len())
}

/// The lists as a record; none if their lengths differ, a kind is unknown or a
/// read or delete has a payload.
fn record_of(lists: Lists<'_>) -> Option<Record> {
    if lists.keys.len() != lists.kinds.len() || lists.payloads.len() != lists.kinds.len() {
        return None;
    }
    let mut record = Record {
        snapshot: lists.snapshot,
        ..Record::default()
    };
    for ((&number, &key), &payload) in lists.kinds.iter().zip(lists.keys).zip(lists.payloads) {
        let kind = match (number, payload) {
            (1, 0) => Kind::Read,
            (2, payload) => Kind::Put(payload),
            (3, 0) => Kind::Delete,
            _ => return None,
        };
        record.points.push(Point { key, kind });
    }
    record.scans = lists
        .scans
        .iter()
        .map(|&(low, high)| Scan { low, high })
        .collect();
    Some(record)
}

/// The lists a reader fills.
#[derive(Debug)]
pub struct ListsOut<'a> {
    /// For the kinds.
    pub kinds: &'a mut [u8],
    /// For the keys.
    pub keys: &'a mut [u32],
    /// For the payloads; 0 for a read or delete.
    pub payloads: &'a mut [u64],
    /// For the scans.
    pub scans: &'a mut [(u32, u32)],
}

/// Reads a record into the fronts of lent lists: the answer, the snapshot, the
/// number of points, the number of scans. A refusal gives zeros and changes nothing.
pub fn read(bytes: &[u8], out: &mut ListsOut<'_>) -> (Answer, u32, usize, usize) {
    let Ok(record) = Record::parse(bytes) else {
        return (Answer::Malformed, 0, 0, 0);
    };
    let (points, scans) = (record.points.len(), record.scans.len());
    let shortest = out.kinds.len().min(out.keys.len()).min(out.payloads.len());
    if shortest < points || out.scans.len() < scans {
        return (Answer::OutputShort, 0, 0, 0);
    }
    for (index, point) in record.points.iter().enumerate() {
        (out.kinds[index], out.payloads[index]) = match point.kind {
            Kind::Read => (1, 0),
            Kind::Put(payload) => (2, payload),
            Kind::Delete => (3, 0),
        };
        out.keys[index] = point.key;
    }
    for (index, scan) in record.scans.iter().enumerate() {
        out.scans[index] = (scan.low, scan.high);
    }
    (Answer::Committed, record.snapshot, points, scans)
}
