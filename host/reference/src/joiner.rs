//! Two records as one (R56, R57). The points are a sorted map, the scans a list in which
//! two that share a key are made one as long as there are such two.

use std::collections::BTreeMap;

use crate::answer::Answer;
use crate::record::{Kind, Point, Record, Scan, MOST_POINTS, MOST_SCANS};

/// Writes the joined record to the front of `out`: 12, then 8, both with size 0 and `out`
/// untouched, then 0 with the record's size.
pub fn join(a: &[u8], b: &[u8], out: &mut [u8]) -> (Answer, usize) {
    let (Ok(a), Ok(b)) = (Record::parse(a), Record::parse(b)) else {
        return (Answer::CannotJoin, 0);
    };
    let joined = joined(&a, &b);
    let beyond = joined.points.len() > MOST_POINTS || joined.scans.len() > MOST_SCANS;
    if a.snapshot != b.snapshot || follows(&a, &b) || beyond {
        return (Answer::CannotJoin, 0);
    }
    let bytes = joined.to_bytes();
    if out.len() < bytes.len() {
        return (Answer::OutputShort, 0);
    }
    out[..bytes.len()].copy_from_slice(&bytes);
    (Answer::Committed, bytes.len())
}

/// Does b name or scan a key that a puts or deletes?
pub fn follows(a: &Record, b: &Record) -> bool {
    let written = a.points.iter().filter(|point| point.kind != Kind::Read);
    written.into_iter().any(|point| b.touches(point.key))
}

/// R57: the record that both are, with the snapshot of a. It may pass a limit.
pub fn joined(a: &Record, b: &Record) -> Record {
    let mut entries: BTreeMap<u32, Kind> = BTreeMap::new();
    for point in a.points.iter().chain(&b.points) {
        let entry = entries.entry(point.key).or_insert(point.kind);
        if point.kind != Kind::Read {
            *entry = point.kind;
        }
    }
    let points = entries.into_iter();
    Record {
        snapshot: a.snapshot,
        points: points.map(|(key, kind)| Point { key, kind }).collect(),
        scans: united(&[&a.scans[..], &b.scans].concat()),
    }
}

/// These scans, rising; any two that share a key are one, and so on until no two do.
fn united(scans: &[Scan]) -> Vec<Scan> {
    let mut scans = scans.to_vec();
    while let Some((one, other)) = two_that_share(&scans) {
        let gone = scans.swap_remove(other);
        let left = &mut scans[one];
        *left = Scan {
            low: left.low.min(gone.low),
            high: left.high.max(gone.high),
        };
    }
    scans.sort_by_key(|scan| scan.low);
    scans
}

/// The places of two scans that share a key, the smaller place first.
fn two_that_share(scans: &[Scan]) -> Option<(usize, usize)> {
    let share = |one: &Scan, other: &Scan| one.low <= other.high && other.low <= one.high;
    let places = 0..scans.len();
    let mut pairs = places.flat_map(|other| (0..other).map(move |one| (one, other)));
    pairs.find(|&(one, other)| share(&scans[one], &scans[other]))
}
