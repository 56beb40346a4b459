//! The writer (R10) and refresh (R38) with one mistake of choice or none. Without a mistake
//! the writer is a second way to the bytes, straight from the lists, and refresh a second
//! way to its answers, by the kept positions.

use reference::lists::Lists;
use reference::Answer;

use super::meld::Pool;
use super::record::fields;
use super::Mistake;

mistakes! {
    /// A mistake that one might make in writing or refreshing a record.
    WriteMistake {
        FullPointsInTwo: "64 points are written in version 2",
        FullScansInTwo: "8 scans are written in version 2",
        AlwaysInTwo: "version 2 is written whatever the counts",
        AlwaysInOne: "version 1 is written whatever the counts",
        MorePointsInOne: "65 points are written in version 1",
        MoreScansInOne: "9 scans are written in version 1",
        TwoNeedsBoth: "version 2 is written only with more points and more scans",
        MorePointsRefused: "65 points are refused",
        MoreScansRefused: "9 scans are refused",
        PointsAboveTaken: "1,025 points are taken",
        PointsFullRefused: "1,024 points are refused",
        ScansAboveTaken: "65 scans are taken",
        ScansFullRefused: "64 scans are refused",
        CountsLittleEndian: "the counts are written little-endian in version 2",
        CountsOfOneByte: "the counts are written in one byte in version 2",
        SizeOfOne: "the size given in version 2 has the two bytes fewer that version 1 has",
        RoomForOne: "an output that would do for version 1 is taken for version 2",
        RoomOfBefore: "8 is said of an output of fewer than 905 bytes",
        LengthNotMost: "a record of 13,835 bytes is refused",
        RefreshesInOne: "a refresh writes version 1",
        RefreshesToFront: "a refresh writes no more than 905 bytes",
        RefreshRefusesTwo: "a refresh answers 4 to version 2",
        RefreshShortOfBefore: "a refresh answers 8 to a record of more than 905 bytes",
        SnapshotBehindCounts: "a refresh writes the snapshot of version 2 two bytes too late",
        RefreshOverlooksNothing: "a refresh does not look at a delete of a key that is not live",
    }
}

impl WriteMistake {
    /// Is it one that a refresh makes, and not the writer?
    pub fn in_refresh(self) -> bool {
        matches!(
            self,
            WriteMistake::RefreshesInOne
                | WriteMistake::RefreshesToFront
                | WriteMistake::RefreshRefusesTwo
                | WriteMistake::RefreshShortOfBefore
                | WriteMistake::SnapshotBehindCounts
                | WriteMistake::RefreshOverlooksNothing
        )
    }
}

/// The writer: the answer and the size.
pub fn write(mistake: Option<WriteMistake>, lists: Lists<'_>, out: &mut [u8]) -> (Answer, usize) {
    let has = |other| mistake == Some(other);
    let two = in_two(mistake, lists.kinds.len(), lists.scans.len());
    if !keeps_rules(mistake, lists) {
        return (Answer::Malformed, 0);
    }
    let bytes = bytes_of(mistake, lists, two);
    if has(WriteMistake::LengthNotMost) && bytes.len() == 13_835 {
        return (Answer::Malformed, 0);
    }
    let needed = match mistake {
        Some(WriteMistake::RoomOfBefore) => bytes.len().max(905),
        Some(WriteMistake::RoomForOne) if two => bytes.len() - 2,
        _ => bytes.len(),
    };
    if out.len() < needed {
        return (Answer::OutputShort, 0);
    }
    for (there, byte) in out.iter_mut().zip(&bytes) {
        *there = *byte;
    }
    let fewer = 2 * usize::from(two && has(WriteMistake::SizeOfOne));
    (Answer::Committed, bytes.len() - fewer)
}

/// Is it version 2 that is written?
fn in_two(mistake: Option<WriteMistake>, points: usize, scans: usize) -> bool {
    let (more_points, more_scans) = match mistake {
        Some(WriteMistake::FullPointsInTwo) => (points >= 64, scans > 8),
        Some(WriteMistake::FullScansInTwo) => (points > 64, scans >= 8),
        Some(WriteMistake::MorePointsInOne) => (points > 65, scans > 8),
        Some(WriteMistake::MoreScansInOne) => (points > 64, scans > 9),
        _ => (points > 64, scans > 8),
    };
    match mistake {
        Some(WriteMistake::AlwaysInTwo) => true,
        Some(WriteMistake::AlwaysInOne) => false,
        Some(WriteMistake::TwoNeedsBoth) => more_points && more_scans,
        _ => more_points || more_scans,
    }
}

/// The rules on the lists.
fn keeps_rules(mistake: Option<WriteMistake>, lists: Lists<'_>) -> bool {
    let most_points = match mistake {
        Some(WriteMistake::MorePointsRefused) => 64,
        Some(WriteMistake::PointsAboveTaken) => 1_025,
        Some(WriteMistake::PointsFullRefused) => 1_023,
        _ => 1_024,
    };
    let most_scans = match mistake {
        Some(WriteMistake::MoreScansRefused) => 8,
        Some(WriteMistake::ScansAboveTaken) => 65,
        Some(WriteMistake::ScansFullRefused) => 63,
        _ => 64,
    };
    let points = lists.kinds.len();
    let kinds = lists.kinds.iter().zip(lists.payloads);
    points <= most_points
        && lists.scans.len() <= most_scans
        && (points, points) == (lists.keys.len(), lists.payloads.len())
        && kinds.clone().all(|(kind, _)| (1..=3).contains(kind))
        && kinds
            .clone()
            .all(|(kind, payload)| *kind == 2 || *payload == 0)
        && lists.keys.windows(2).all(|two| two[0] < two[1])
        && lists.scans.iter().all(|scan| scan.0 <= scan.1)
        && lists.scans.windows(2).all(|two| two[0].1 < two[1].0)
}

/// The record's bytes.
fn bytes_of(mistake: Option<WriteMistake>, lists: Lists<'_>, two: bool) -> Vec<u8> {
    let mut body = vec![1 + u8::from(two)];
    body.extend(lists.snapshot.to_be_bytes());
    for count in [lists.kinds.len(), lists.scans.len()] {
        let (high, low) = ((count / 256) as u8, (count % 256) as u8);
        match (two, mistake) {
            (false, _) | (true, Some(WriteMistake::CountsOfOneByte)) => body.push(low),
            (true, Some(WriteMistake::CountsLittleEndian)) => body.extend([low, high]),
            (true, _) => body.extend([high, low]),
        }
    }
    for (index, &kind) in lists.kinds.iter().enumerate() {
        body.push(kind);
        body.extend(lists.keys[index].to_be_bytes());
        if kind == 2 {
            body.extend(lists.payloads[index].to_be_bytes());
        }
    }
    for (low, high) in lists.scans {
        body.extend(low.to_be_bytes());
        body.extend(high.to_be_bytes());
    }
    let length = [(body.len() / 256) as u8, (body.len() % 256) as u8];
    [&length[..], &body].concat()
}

/// Refresh, over a pool into which these records were melded: the answer.
pub fn refresh(
    mistake: Option<WriteMistake>,
    (n, z): (u32, u32),
    melded: &[Vec<u8>],
    bytes: &[u8],
    out: &mut [u8],
) -> Answer {
    let mut pool = Pool::new(n, z, None);
    for record in melded {
        pool.meld(record);
    }
    let Some(record) = fields(None, bytes, pool.p) else {
        return Answer::Malformed;
    };
    if mistake == Some(WriteMistake::RefreshOverlooksNothing) {
        pool.mistake = Some(Mistake::NothingNotNamed);
    }
    let two = bytes[2] == 2;
    if two && mistake == Some(WriteMistake::RefreshRefusesTwo) {
        return Answer::Malformed;
    }
    if pool.ahead(record.snapshot) {
        return Answer::Ahead;
    }
    if pool.old(record.snapshot) {
        return Answer::TooOld;
    }
    if !pool.entries.is_empty() && pool.walk(&pool.entries, &record, &mut 0) {
        return Answer::Conflict;
    }
    let long = bytes.len() > 905;
    let short = long && mistake == Some(WriteMistake::RefreshShortOfBefore);
    if out.len() < bytes.len() || short {
        return Answer::OutputShort;
    }
    let mut fresh = bytes.to_vec();
    let place = match mistake {
        Some(WriteMistake::SnapshotBehindCounts) if two => 5,
        _ => 3,
    };
    fresh[place..place + 4].copy_from_slice(&pool.p.to_be_bytes());
    if mistake == Some(WriteMistake::RefreshesInOne) {
        fresh[2] = 1;
    }
    if mistake == Some(WriteMistake::RefreshesToFront) {
        fresh.truncate(905);
    }
    out[..fresh.len()].copy_from_slice(&fresh);
    Answer::Committed
}
