//! Records and logs, read with one mistake or none.

use super::Mistake;

/// A record as read.
pub struct Fields {
    pub snapshot: u32,
    /// Kind 1 to 3, key, payload.
    pub points: Vec<(u8, u32, u64)>,
    pub scans: Vec<(u32, u32)>,
}

/// What comes next in a log.
pub enum Next<'a> {
    Part(&'a [u8]),
    End,
    Torn,
    Impossible,
}

impl Next<'_> {
    /// The closing line, if no record comes next.
    pub fn closing(&self) -> &'static str {
        match self {
            Next::Part(_) => "",
            Next::End => "end\n",
            Next::Torn => "10\n",
            Next::Impossible => "11\n",
        }
    }
}

/// N and Z if they are good, with N up to `most`, and the log.
pub fn limits(most: u32, input: &[u8]) -> Option<((u32, u32), &[u8])> {
    let (head, log) = input.split_first_chunk::<8>()?;
    let limits = u64::from_be_bytes(*head);
    let (n, z) = ((limits >> 32) as u32, limits as u32);
    let good = (1..=most).contains(&n) && (1..=4_096).contains(&z);
    good.then_some(((n, z), log))
}

/// The part at the front of what is left of the log.
pub fn next_part(mistake: Option<Mistake>, rest: &[u8]) -> Next<'_> {
    let has = |other| mistake == Some(other);
    let (high, low) = match rest {
        [] if has(Mistake::EmptyLogTorn) => return Next::Torn,
        [] => return Next::End,
        [_] if has(Mistake::LastByteIgnored) => return Next::End,
        [_] if has(Mistake::LastByteImpossible) => return Next::Impossible,
        [byte] if has(Mistake::LastByteJudged) && *byte > 0x36 => return Next::Impossible,
        [_] => return Next::Torn,
        [high, low, ..] => (*high, *low),
    };
    let length = usize::from(high) * 256 + usize::from(low);
    let least = 7 + usize::from(has(Mistake::LengthSevenRefused))
        - usize::from(has(Mistake::LengthSixTaken));
    let most = most_length(mistake, rest.get(2));
    if length < least || length > most {
        return impossible(mistake, length, rest.len() - 2);
    }
    match rest.get(..length + 2) {
        Some(part) => Next::Part(part),
        None if has(Mistake::TornRecordIgnored) => Next::End,
        None if has(Mistake::TornRecordMalformed) => Next::Part(rest),
        None if has(Mistake::TornRecordImpossible) => Next::Impossible,
        None if has(Mistake::LengthAloneImpossible) && rest.len() == 2 => Next::Impossible,
        None => Next::Torn,
    }
}

/// The largest length, with this version behind it if there is a byte.
fn most_length(mistake: Option<Mistake>, version: Option<&u8>) -> usize {
    match mistake {
        Some(Mistake::LengthAboveTaken) => 13_834,
        Some(Mistake::LengthNotMost) => 13_832,
        Some(Mistake::LengthOfBefore | Mistake::RuleOfBefore) => 903,
        Some(Mistake::LengthOfVersionOne) if version == Some(&1) => 903,
        _ => 13_833,
    }
}

/// What is said of a length that cannot be, with so many bytes behind it.
fn impossible(mistake: Option<Mistake>, length: usize, behind: usize) -> Next<'static> {
    let torn = match mistake {
        Some(Mistake::ZeroIsEnd) if length == 0 => return Next::End,
        Some(Mistake::ErasedIsEnd) if length == 0xFFFF => return Next::End,
        Some(Mistake::ImpossibleTorn) => true,
        Some(Mistake::ImpossibleShortTorn) => behind < length,
        Some(Mistake::ImpossibleWholeTorn) => behind >= length,
        Some(Mistake::ImpossibleAloneTorn) => behind == 0,
        Some(Mistake::LengthBelowTorn) => length < 7,
        Some(Mistake::LengthAboveTorn) => length > 13_833,
        _ => false,
    };
    match torn {
        true => Next::Torn,
        false => Next::Impossible,
    }
}

/// The snapshot field, wherever the rest stands.
pub fn snapshot(mistake: Option<Mistake>, part: &[u8], p: u32) -> Option<u32> {
    let bytes: [u8; 4] = part.get(3..7)?.try_into().ok()?;
    Some(match mistake {
        Some(Mistake::LittleEndian) => u32::from_le_bytes(bytes),
        Some(Mistake::LittleEndianClamped) => u32::from_le_bytes(bytes).min(p),
        _ => u32::from_be_bytes(bytes),
    })
}

/// How many bytes a count has in the version of this byte; none for no version.
fn count_width(mistake: Option<Mistake>, version: u8) -> Option<usize> {
    let has = |other| mistake == Some(other);
    let two = match version {
        _ if has(Mistake::VersionIgnored) => false,
        1 => has(Mistake::CountsOfTwoBytes),
        2 if has(Mistake::VersionTwoRefused) || has(Mistake::RuleOfBefore) => return None,
        2 => !has(Mistake::CountsOfOneByte),
        3 if has(Mistake::VersionThreeTaken) => true,
        _ => return None,
    };
    Some(1 + usize::from(two))
}

/// A count of so many bytes at this place.
fn count(mistake: Option<Mistake>, part: &[u8], at: usize, width: usize) -> Option<usize> {
    let bytes = part.get(at..at + width)?;
    let (first, last) = (usize::from(bytes[0]), usize::from(bytes[width - 1]));
    Some(match (width, mistake) {
        (1, _) | (_, Some(Mistake::CountsLastByte)) => last,
        (_, Some(Mistake::CountsLittleEndian)) => last * 256 + first,
        _ => first * 256 + last,
    })
}

/// May a record of this version have so many points and scans?
fn counts_fit(mistake: Option<Mistake>, version: u8, points: usize, scans: usize) -> bool {
    let has = |other| mistake == Some(other);
    let edge = |most: usize, above, below| most + usize::from(has(above)) - usize::from(has(below));
    let most_points = edge(1_024, Mistake::PointsAboveTaken, Mistake::PointsFullRefused);
    let most_scans = edge(64, Mistake::ScansAboveTaken, Mistake::ScansFullRefused);
    if points > most_points || scans > most_scans {
        return false;
    }
    if version == 1 || has(Mistake::VersionIgnored) {
        let (taken, refused) = (
            Mistake::VersionOnePointsTaken,
            Mistake::VersionOnePointsRefused,
        );
        let points_fit = points <= edge(64, taken, refused);
        let (taken, refused) = (
            Mistake::VersionOneScansTaken,
            Mistake::VersionOneScansRefused,
        );
        let scans_fit = scans <= edge(8, taken, refused);
        return points_fit && scans_fit || has(Mistake::VersionOneAlwaysTaken);
    }
    let (refused, taken) = (
        Mistake::VersionTwoPointsRefused,
        Mistake::VersionTwoFromFullPoints,
    );
    let more_points = points > edge(64, refused, taken);
    let (refused, taken) = (
        Mistake::VersionTwoScansRefused,
        Mistake::VersionTwoFromFullScans,
    );
    let more_scans = scans > edge(8, refused, taken);
    match mistake {
        Some(Mistake::VersionTwoAlwaysTaken) => true,
        Some(Mistake::VersionTwoEmptyTaken) if points + scans == 0 => true,
        Some(Mistake::VersionTwoNeedsBoth) => more_points && more_scans,
        _ => more_points || more_scans,
    }
}

/// The record of a part, or none if it is malformed.
pub fn fields(mistake: Option<Mistake>, part: &[u8], p: u32) -> Option<Fields> {
    let has = |other| mistake == Some(other);
    let number = |at: usize| Some(u32::from_be_bytes(part.get(at..at + 4)?.try_into().ok()?));
    let length = u16::from_be_bytes(part.get(..2)?.try_into().ok()?);
    if part.len() != usize::from(length) + 2 {
        return None;
    }
    let version = *part.get(2)?;
    let width = count_width(mistake, version)?;
    let points = count(mistake, part, 7, width)?;
    let scans = count(mistake, part, 7 + width, width)?;
    if !counts_fit(mistake, version, points, scans) {
        return None;
    }
    let mut at = 7 + 2 * width;
    let mut found = Fields {
        snapshot: snapshot(mistake, part, p)?,
        points: vec![],
        scans: vec![],
    };
    for _ in 0..points {
        let mut kind = *part.get(at)?;
        if has(Mistake::KindsAnyTaken) && !(1..=3).contains(&kind) {
            kind = 1;
        }
        let key = number(at + 1)?;
        at += 5;
        let mut payload = 0;
        if kind == 2 {
            payload = u64::from(number(at)?) << 32 | u64::from(number(at + 4)?);
            at += 8;
        }
        found.points.push((kind, key, payload));
    }
    for _ in 0..scans {
        found.scans.push((number(at)?, number(at + 4)?));
        at += 8;
    }
    let whole = at == part.len() || has(Mistake::BytesLeftTaken);
    let nothing = points + scans == 0 && has(Mistake::NothingRefused);
    (whole && !nothing && keeps_rules(mistake, &found)).then_some(found)
}

/// The rules on kinds, keys and scans.
fn keeps_rules(mistake: Option<Mistake>, found: &Fields) -> bool {
    let has = |other| mistake == Some(other);
    let rises = |low: u32, high: u32| match mistake {
        Some(Mistake::KeysSigned) => (low as i32) < high as i32,
        Some(Mistake::KeysEqualTaken) => low <= high,
        Some(Mistake::KeysFallingTaken) => low != high,
        _ => low < high,
    };
    let follows = |high: u32, low: u32| match mistake {
        Some(Mistake::ScansTouchTaken) => high <= low,
        Some(Mistake::ScansNextRefused) => u64::from(high) + 1 < u64::from(low),
        Some(Mistake::ScansAnyOrderTaken) => true,
        _ => high < low,
    };
    let ordered = |found: usize, mistake, first| match has(mistake) {
        true => found.min(first),
        false => found,
    };
    let points = ordered(found.points.len(), Mistake::OrderOfFirstPoints, 64);
    let scans = ordered(found.scans.len(), Mistake::OrderOfFirstScans, 8);
    let one_key = |scan: &(u32, u32)| has(Mistake::ScanOneKeyRefused) && scan.0 == scan.1;
    let backwards = |scan: &(u32, u32)| !has(Mistake::ScanBackwardsTaken) && scan.0 > scan.1;
    let inside = |key: u32| {
        found
            .scans
            .iter()
            .any(|scan| scan.0 <= key && key <= scan.1)
    };
    let overlap = has(Mistake::OverlapRefused) && found.points.iter().any(|point| inside(point.1));
    found.points.iter().all(|point| (1..=3).contains(&point.0))
        && found.points[..points]
            .windows(2)
            .all(|two| rises(two[0].1, two[1].1))
        && !found
            .scans
            .iter()
            .any(|scan| one_key(scan) || backwards(scan))
        && found.scans[..scans]
            .windows(2)
            .all(|two| follows(two[0].1, two[1].0))
        && !overlap
}
