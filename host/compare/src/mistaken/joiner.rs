//! Joining (R56) with one mistake of choice or none. Without a mistake it is a second way to
//! the joined record: the points in one walk over both lists, the scans sorted and swept.

use reference::Answer;

use super::record::{fields, Fields};

mistakes! {
    /// A mistake that one might make in joining two records.
    JoinMistake {
        OldEntryKept: "a's entry is kept where b writes",
        DeleteNotTaken: "a's read is kept where b deletes",
        PutNotTaken: "a's read is kept where b puts",
        BothEntriesKept: "a key that both name stands twice",
        ReadsDropped: "a's reads are dropped",
        ReadsDroppedWhereBothRead: "a key that both read is dropped",
        OlderScansDropped: "a's scans are dropped",
        ScansNotHeld: "only b's points are held against what a writes, not its scans",
        PointsNotHeld: "only b's scans are held against what a writes, not its points",
        ReadsNotHeld: "b's reads are not held against what a writes",
        DeletesNotHeld: "b's points are not held against a's deletes",
        ScannedDeletesNotHeld: "b's scans are not held against a's deletes",
        PutsNotHeld: "nothing is held against a's puts",
        LowEndNotHeld: "a scan of b may begin at a key that a writes",
        HighEndNotHeld: "a scan of b may end at a key that a writes",
        ReadThenWrittenRefused: "12 where b writes a key that a reads",
        ScannedThenWrittenRefused: "12 where b writes a key that a scans",
        ReadTwiceRefused: "12 where both read a key",
        TouchingJoined: "scans that only touch are joined",
        OneKeyNotShared: "scans that share one key only stay two",
        ChainLeftAsTwo: "a chain of three scans is left as two",
        InnerHighTaken: "a scan inside another ends it",
        EqualScansKept: "a scan that both have stands twice",
        HighWraps: "a scan up to 4,294,967,295 is joined with none behind its low",
        KeysSigned: "keys are sorted as signed numbers",
        MorePointsInOne: "65 points are written in version 1",
        MoreScansInOne: "9 scans are written in version 1",
        VersionOfTheLarger: "the version is the larger of the two",
        VersionOfTheSum: "the version is that of the counts added up",
        PointsNotLimited: "more than 1,024 points are written",
        ScansNotLimited: "more than 64 scans are written",
        PointsFullRefused: "1,024 points are refused",
        ScansFullRefused: "64 scans are refused",
        PointsAddedUp: "the limit is held against both numbers of points added up",
        ScansAddedUp: "the limit is held against both numbers of scans added up",
        SnapshotsNotCompared: "the snapshots are not compared",
        LaterSnapshotTaken: "other snapshots are taken, the larger one is written",
        MalformedAnswered: "4 is said of malformed bytes",
        FirstNotChecked: "a is not checked to its end",
        SecondNotChecked: "b is not checked to its end",
        ShortNotSaid: "0 and a size are said where the output is short",
        SizeWithShort: "the size is given with 8",
        ShortSaidFirst: "8 is said before 12",
        RoomOfBoth: "8 is said where the output is shorter than both records together",
        OutputTouched: "the output is written before 12 is said",
        FrontTouchedOnShort: "as much as fits is written before 8 is said",
        RestCleared: "the rest of the output is cleared",
        SizeOfOne: "the size given in version 2 has the two bytes fewer that version 1 has",
    }
}

/// Joining: the answer and the size.
pub fn join(mistake: Option<JoinMistake>, a: &[u8], b: &[u8], out: &mut [u8]) -> (Answer, usize) {
    let has = |other| mistake == Some(other);
    let (Some(one), Some(other)) = (
        read(has(JoinMistake::FirstNotChecked), a),
        read(has(JoinMistake::SecondNotChecked), b),
    ) else {
        let answer = match has(JoinMistake::MalformedAnswered) {
            true => Answer::Malformed,
            false => Answer::CannotJoin,
        };
        return (answer, 0);
    };
    let joined = Fields {
        snapshot: match mistake {
            Some(JoinMistake::LaterSnapshotTaken) => one.snapshot.max(other.snapshot),
            _ => one.snapshot,
        },
        points: points(mistake, &one.points, &other.points),
        scans: scans(mistake, &one.scans, &other.scans),
    };
    let two = in_two(mistake, &one, &other, &joined);
    let bytes = bytes_of(&joined, two);
    let short = out.len() < bytes.len();
    if short && has(JoinMistake::ShortSaidFirst) {
        return (Answer::OutputShort, 0);
    }
    if held(mistake, &one, &other) || beyond(mistake, &one, &other, &joined) {
        if has(JoinMistake::OutputTouched) {
            fill(out, &bytes);
        }
        return (Answer::CannotJoin, 0);
    }
    let short = short || has(JoinMistake::RoomOfBoth) && out.len() < a.len() + b.len();
    let fewer = 2 * usize::from(two && has(JoinMistake::SizeOfOne));
    match mistake {
        Some(JoinMistake::ShortNotSaid) => fill(out, &bytes),
        Some(JoinMistake::SizeWithShort) if short => return (Answer::OutputShort, bytes.len()),
        Some(JoinMistake::FrontTouchedOnShort) if short => {
            fill(out, &bytes);
            return (Answer::OutputShort, 0);
        }
        _ if short => return (Answer::OutputShort, 0),
        Some(JoinMistake::RestCleared) => {
            out.fill(0);
            fill(out, &bytes);
        }
        _ => fill(out, &bytes),
    }
    (Answer::Committed, bytes.len() - fewer)
}

/// The record of these bytes. Where they are not checked to their end, a front that is a
/// record will do.
fn read(front: bool, bytes: &[u8]) -> Option<Fields> {
    let length = bytes
        .get(..2)
        .map_or(0, |two| usize::from(two[0]) * 256 + usize::from(two[1]) + 2);
    match bytes.get(..length) {
        Some(record) if front => fields(None, record, 0),
        _ => fields(None, bytes, 0),
    }
}

/// As much of these bytes as there is room for.
fn fill(out: &mut [u8], bytes: &[u8]) {
    for (there, byte) in out.iter_mut().zip(bytes) {
        *there = *byte;
    }
}

/// Kind 1 to 3, key, payload.
type Entry = (u8, u32, u64);

/// The points in one walk over both lists.
fn points(mistake: Option<JoinMistake>, a: &[Entry], b: &[Entry]) -> Vec<Entry> {
    let has = |other| mistake == Some(other);
    let below = |one: u32, other: u32| match has(JoinMistake::KeysSigned) {
        true => (one as i32) < other as i32,
        false => one < other,
    };
    let mut found = Vec::new();
    let (mut a, mut b) = (a.iter().peekable(), b.iter().peekable());
    loop {
        match (a.peek().copied(), b.peek().copied()) {
            (None, None) => return found,
            (Some(one), None) => {
                a.next();
                if one.0 != 1 || !has(JoinMistake::ReadsDropped) {
                    found.push(*one);
                }
            }
            (Some(one), Some(other)) if below(one.1, other.1) => {
                a.next();
                if one.0 != 1 || !has(JoinMistake::ReadsDropped) {
                    found.push(*one);
                }
            }
            (Some(one), Some(other)) if one.1 == other.1 => {
                a.next();
                b.next();
                found.extend(of_both(mistake, *one, *other));
            }
            (_, Some(other)) => {
                b.next();
                found.push(*other);
            }
        }
    }
}

/// What stands for a key that both name.
fn of_both(mistake: Option<JoinMistake>, one: Entry, other: Entry) -> Vec<Entry> {
    match (mistake, other.0) {
        (Some(JoinMistake::BothEntriesKept), _) => vec![one, other],
        (Some(JoinMistake::ReadsDroppedWhereBothRead), 1) => vec![],
        (Some(JoinMistake::OldEntryKept), _)
        | (Some(JoinMistake::PutNotTaken), 2)
        | (Some(JoinMistake::DeleteNotTaken), 3)
        | (_, 1) => vec![one],
        _ => vec![other],
    }
}

/// The scans, sorted by their lows and swept once.
fn scans(mistake: Option<JoinMistake>, a: &[(u32, u32)], b: &[(u32, u32)]) -> Vec<(u32, u32)> {
    let has = |other| mistake == Some(other);
    let a = if has(JoinMistake::OlderScansDropped) {
        &[]
    } else {
        a
    };
    let mut all = [a, b].concat();
    match has(JoinMistake::KeysSigned) {
        true => all.sort_by_key(|scan| (scan.0 as i32, scan.1 as i32)),
        false => all.sort_unstable(),
    }
    let mut found: Vec<(u32, u32)> = Vec::new();
    // How many scans the last one found is made of.
    let mut made_of = 0;
    for scan in all {
        let Some(last) = found.last_mut() else {
            found.push(scan);
            made_of = 1;
            continue;
        };
        let shares = match mistake {
            Some(JoinMistake::TouchingJoined) => u64::from(scan.0) <= u64::from(last.1) + 1,
            Some(JoinMistake::OneKeyNotShared) => scan.0 < last.1 || scan == *last,
            Some(JoinMistake::ChainLeftAsTwo) => scan.0 <= last.1 && made_of < 2,
            Some(JoinMistake::EqualScansKept) => scan.0 <= last.1 && scan != *last,
            Some(JoinMistake::HighWraps) => scan.0 < last.1.wrapping_add(1),
            _ => scan.0 <= last.1,
        };
        if shares {
            last.1 = match mistake {
                Some(JoinMistake::InnerHighTaken) => scan.1,
                _ => last.1.max(scan.1),
            };
            made_of += 1;
        } else {
            found.push(scan);
            made_of = 1;
        }
    }
    found
}

/// Does a mistake or R56 refuse these two: other snapshots, or a key that a writes and b
/// touches?
fn held(mistake: Option<JoinMistake>, a: &Fields, b: &Fields) -> bool {
    let has = |other| mistake == Some(other);
    let compared = !has(JoinMistake::SnapshotsNotCompared) && !has(JoinMistake::LaterSnapshotTaken);
    if compared && a.snapshot != b.snapshot {
        return true;
    }
    let in_scan = |key: u32, scan: &(u32, u32)| scan.0 <= key && key <= scan.1;
    let named = |(kind, key, _): &Entry| {
        b.points.iter().any(|other| match mistake {
            Some(JoinMistake::PointsNotHeld) => false,
            Some(JoinMistake::ReadsNotHeld) => other.1 == *key && other.0 != 1,
            Some(JoinMistake::DeletesNotHeld) => other.1 == *key && *kind == 2,
            _ => other.1 == *key,
        })
    };
    let scanned = |(kind, key, _): &Entry| {
        b.scans.iter().any(|scan| match mistake {
            Some(JoinMistake::ScansNotHeld) => false,
            Some(JoinMistake::ScannedDeletesNotHeld) => in_scan(*key, scan) && *kind == 2,
            Some(JoinMistake::LowEndNotHeld) => in_scan(*key, scan) && *key != scan.0,
            Some(JoinMistake::HighEndNotHeld) => in_scan(*key, scan) && *key != scan.1,
            _ => in_scan(*key, scan),
        })
    };
    let written = |point: &&Entry| match mistake {
        Some(JoinMistake::PutsNotHeld) => point.0 == 3,
        _ => point.0 != 1,
    };
    let mut writes = a.points.iter().filter(written);
    writes.any(|point| named(point) || scanned(point)) || held_too_much(mistake, a, b)
}

/// What R56 allows and a mistake refuses.
fn held_too_much(mistake: Option<JoinMistake>, a: &Fields, b: &Fields) -> bool {
    let both = |kinds: &[u8]| {
        let mut points = b.points.iter().filter(|point| kinds.contains(&point.0));
        points.any(|point| a.points.iter().any(|other| other.1 == point.1))
    };
    match mistake {
        Some(JoinMistake::ReadThenWrittenRefused) => both(&[2, 3]),
        Some(JoinMistake::ReadTwiceRefused) => both(&[1]),
        Some(JoinMistake::ScannedThenWrittenRefused) => {
            let mut writes = b.points.iter().filter(|point| point.0 != 1);
            writes.any(|point| {
                let mut scans = a.scans.iter();
                scans.any(|scan| scan.0 <= point.1 && point.1 <= scan.1)
            })
        }
        _ => false,
    }
}

/// Does the joined record pass a limit?
fn beyond(mistake: Option<JoinMistake>, a: &Fields, b: &Fields, joined: &Fields) -> bool {
    let (points, most_points) = match mistake {
        Some(JoinMistake::PointsAddedUp) => (a.points.len() + b.points.len(), 1_024),
        Some(JoinMistake::PointsNotLimited) => (0, 1_024),
        Some(JoinMistake::PointsFullRefused) => (joined.points.len(), 1_023),
        _ => (joined.points.len(), 1_024),
    };
    let (scans, most_scans) = match mistake {
        Some(JoinMistake::ScansAddedUp) => (a.scans.len() + b.scans.len(), 64),
        Some(JoinMistake::ScansNotLimited) => (0, 64),
        Some(JoinMistake::ScansFullRefused) => (joined.scans.len(), 63),
        _ => (joined.scans.len(), 64),
    };
    points > most_points || scans > most_scans
}

/// Is it version 2 that is written?
fn in_two(mistake: Option<JoinMistake>, a: &Fields, b: &Fields, joined: &Fields) -> bool {
    let two = |points: usize, scans: usize| match mistake {
        Some(JoinMistake::MorePointsInOne) => points > 65 || scans > 8,
        Some(JoinMistake::MoreScansInOne) => points > 64 || scans > 9,
        _ => points > 64 || scans > 8,
    };
    let of = |record: &Fields| two(record.points.len(), record.scans.len());
    match mistake {
        Some(JoinMistake::VersionOfTheLarger) => of(a) || of(b),
        Some(JoinMistake::VersionOfTheSum) => two(
            a.points.len() + b.points.len(),
            a.scans.len() + b.scans.len(),
        ),
        _ => of(joined),
    }
}

/// The record's bytes, in version 2 or in version 1.
fn bytes_of(record: &Fields, two: bool) -> Vec<u8> {
    let mut body = vec![1 + u8::from(two)];
    body.extend(record.snapshot.to_be_bytes());
    for count in [record.points.len(), record.scans.len()] {
        if two {
            body.push((count / 256) as u8);
        }
        body.push((count % 256) as u8);
    }
    for (kind, key, payload) in &record.points {
        body.push(*kind);
        body.extend(key.to_be_bytes());
        if *kind == 2 {
            body.extend(payload.to_be_bytes());
        }
    }
    for (low, high) in &record.scans {
        body.extend(low.to_be_bytes());
        body.extend(high.to_be_bytes());
    }
    let length = [(body.len() / 256) as u8, (body.len() % 256) as u8];
    [&length[..], &body].concat()
}
