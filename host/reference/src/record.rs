//! The record (R4 to R9, R53), read and written by the table of R4.

use crate::flaw::Flaw;
use crate::version::Version;

/// The most points a record may have.
pub const MOST_POINTS: usize = 1_024;
/// The most scans a record may have.
pub const MOST_SCANS: usize = 64;
/// The least number of bytes after the length field.
pub const LEAST_LENGTH: usize = 7;
/// The largest number of bytes after the length field.
pub const MOST_LENGTH: usize = 13_833;

/// What a point does with its key.
#[derive(Clone, Copy, Debug, PartialEq, Eq)]
pub enum Kind {
    /// 1: read.
    Read,
    /// 2: put, with the payload.
    Put(u64),
    /// 3: delete.
    Delete,
}

/// A key and what is done with it.
#[derive(Clone, Copy, Debug, PartialEq, Eq)]
pub struct Point {
    /// The key named.
    pub key: u32,
    /// Read, put or delete.
    pub kind: Kind,
}

/// A range of keys, both ends covered.
#[derive(Clone, Copy, Debug, PartialEq, Eq)]
pub struct Scan {
    /// The lowest key covered.
    pub low: u32,
    /// The highest key covered.
    pub high: u32,
}

/// A record, as its fields.
#[derive(Clone, Debug, Default, PartialEq, Eq)]
pub struct Record {
    /// The snapshot s.
    pub snapshot: u32,
    /// At most 1,024 points, keys rising strictly.
    pub points: Vec<Point>,
    /// At most 64 scans, each above the one before it.
    pub scans: Vec<Scan>,
}

impl Point {
    /// A read of `key`.
    pub fn read(key: u32) -> Point {
        let kind = Kind::Read;
        Point { key, kind }
    }

    /// A put of `payload` at `key`.
    pub fn put(key: u32, payload: u64) -> Point {
        let kind = Kind::Put(payload);
        Point { key, kind }
    }

    /// A delete of `key`.
    pub fn delete(key: u32) -> Point {
        let kind = Kind::Delete;
        Point { key, kind }
    }
}

impl Record {
    /// The version of a record with these lists (R53).
    pub fn version(&self) -> Version {
        Version::of(self.points.len(), self.scans.len())
    }

    /// The first rule on the lists that this record breaks, if any.
    pub fn flaw(&self) -> Option<Flaw> {
        if let Some(flaw) = count_flaw(self.points.len(), self.scans.len()) {
            return Some(flaw);
        }
        if self.points.windows(2).any(|two| two[0].key >= two[1].key) {
            return Some(Flaw::KeyOrder);
        }
        if self.scans.iter().any(|scan| scan.low > scan.high) {
            return Some(Flaw::ScanEnds);
        }
        if self.scans.windows(2).any(|two| two[0].high >= two[1].low) {
            return Some(Flaw::ScanOrder);
        }
        None
    }

    /// The record these bytes are, or why they are none.
    pub fn parse(bytes: &[u8]) -> Result<Record, Flaw> {
        let mut rest = bytes;
        let length = u16::from_be_bytes(take(&mut rest).ok_or(Flaw::Length)?);
        if rest.len() != usize::from(length) {
            return Err(Flaw::Length);
        }
        let record = Record::parse_body(&mut rest)?;
        if !rest.is_empty() {
            return Err(Flaw::BytesLeft);
        }
        match record.flaw() {
            Some(flaw) => Err(flaw),
            None => Ok(record),
        }
    }

    /// The fields after the length, taken off the front of `rest`.
    fn parse_body(rest: &mut &[u8]) -> Result<Record, Flaw> {
        let [number] = take(rest).ok_or(Flaw::BytesMissing)?;
        let version = Version::numbered(number).ok_or(Flaw::Version)?;
        let snapshot = u32::from_be_bytes(take(rest).ok_or(Flaw::BytesMissing)?);
        let points = version.take_count(rest).ok_or(Flaw::BytesMissing)?;
        let scans = version.take_count(rest).ok_or(Flaw::BytesMissing)?;
        if let Some(flaw) = count_flaw(points, scans) {
            return Err(flaw);
        }
        if version != Version::of(points, scans) {
            return Err(Flaw::OtherVersion);
        }
        let points = (0..points)
            .map(|_| parse_point(rest))
            .collect::<Result<_, _>>()?;
        let scans = (0..scans)
            .map(|_| parse_scan(rest))
            .collect::<Result<_, _>>()?;
        Ok(Record {
            snapshot,
            points,
            scans,
        })
    }

    /// The bytes of R4, in the version that R53 says. Other rules are not looked
    /// at, so that malformed records can be made too; see `written`.
    pub fn to_bytes(&self) -> Vec<u8> {
        self.to_bytes_in(self.version())
    }

    /// The same in this version, be it the right one or not.
    pub fn to_bytes_in(&self, version: Version) -> Vec<u8> {
        let mut body = vec![version.number()];
        body.extend(self.snapshot.to_be_bytes());
        body.extend(version.count_bytes(self.points.len()));
        body.extend(version.count_bytes(self.scans.len()));
        for point in &self.points {
            let (number, payload) = match point.kind {
                Kind::Read => (1, None),
                Kind::Put(payload) => (2, Some(payload)),
                Kind::Delete => (3, None),
            };
            body.push(number);
            body.extend(point.key.to_be_bytes());
            if let Some(payload) = payload {
                body.extend(payload.to_be_bytes());
            }
        }
        for scan in &self.scans {
            body.extend(scan.low.to_be_bytes());
            body.extend(scan.high.to_be_bytes());
        }
        with_length(&body)
    }

    /// The bytes of a record that keeps the rules, or the rule it breaks.
    pub fn written(&self) -> Result<Vec<u8>, Flaw> {
        match self.flaw() {
            Some(flaw) => Err(flaw),
            None => Ok(self.to_bytes()),
        }
    }

    /// Does a point name this key or a scan cover it (R21)?
    pub fn touches(&self, key: u32) -> bool {
        self.touches_any(key, key)
    }

    /// Does anything the record names or scans lie in `low` to `high`? Since its
    /// lists rise (R6, R7), it is the first point at `low` or above and the first
    /// scan that does not end below `low` that tell.
    pub fn touches_any(&self, low: u32, high: u32) -> bool {
        let point = self.points.partition_point(|point| point.key < low);
        let scan = self.scans.partition_point(|scan| scan.high < low);
        let named = self
            .points
            .get(point)
            .is_some_and(|point| point.key <= high);
        let scanned = self.scans.get(scan).is_some_and(|scan| scan.low <= high);
        named || scanned
    }
}

/// Are there too many points or scans, whatever the version?
fn count_flaw(points: usize, scans: usize) -> Option<Flaw> {
    if points > MOST_POINTS {
        return Some(Flaw::PointCount);
    }
    (scans > MOST_SCANS).then_some(Flaw::ScanCount)
}

/// The body with its length in front.
pub fn with_length(body: &[u8]) -> Vec<u8> {
    let mut bytes = (body.len() as u16).to_be_bytes().to_vec();
    bytes.extend(body);
    bytes
}

/// Takes the first bytes off `rest`, if there are enough.
fn take<const COUNT: usize>(rest: &mut &[u8]) -> Option<[u8; COUNT]> {
    let (front, back) = rest.split_first_chunk::<COUNT>()?;
    *rest = back;
    Some(*front)
}

/// One point: kind, key, and for a put the payload.
fn parse_point(rest: &mut &[u8]) -> Result<Point, Flaw> {
    let [number] = take(rest).ok_or(Flaw::BytesMissing)?;
    let key = u32::from_be_bytes(take(rest).ok_or(Flaw::BytesMissing)?);
    let kind = match number {
        1 => Kind::Read,
        2 => Kind::Put(u64::from_be_bytes(take(rest).ok_or(Flaw::BytesMissing)?)),
        3 => Kind::Delete,
        _ => return Err(Flaw::Kind),
    };
    Ok(Point { key, kind })
}

/// One scan: low, high.
fn parse_scan(rest: &mut &[u8]) -> Result<Scan, Flaw> {
    let low = u32::from_be_bytes(take(rest).ok_or(Flaw::BytesMissing)?);
    let high = u32::from_be_bytes(take(rest).ok_or(Flaw::BytesMissing)?);
    Ok(Scan { low, high })
}
