//! The logs from seeds have every edge of docs/RULES.md in them, often.

use std::collections::BTreeMap;

use compare::generate;
use reference::log::parts;
use reference::pages::cut;
use reference::program::split;
use reference::{Answer, Limits, Record, State};

/// How often each edge was met.
type Tally = BTreeMap<&'static str, usize>;

/// Counts the edges of R53 that these bytes meet, by what their counts say.
fn version_edges(part: &[u8], tally: &mut Tally) {
    let mut add = |name, met: bool| *tally.entry(name).or_default() += usize::from(met);
    let number = |at: usize| {
        part.get(at..at + 2)
            .map(|two| usize::from(two[0]) * 256 + usize::from(two[1]))
    };
    let (version, formed) = (part[2], Record::parse(part).is_ok());
    let one = (usize::from(part[7]), usize::from(part[8]));
    let two = (number(7).unwrap_or(0), number(9).unwrap_or(0));
    let whole = |front: usize, (points, scans): (usize, usize)| {
        let (least, most) = (points * 5 + scans * 8, points * 13 + scans * 8);
        (front + least..=front + most).contains(&part.len())
    };
    for (name, points, scans) in [
        ("64 points in version 1", Some(64), None),
        ("8 scans in version 1", None, Some(8)),
        ("65 points in version 1", Some(65), None),
        ("9 scans in version 1", None, Some(9)),
    ] {
        let met =
            points.is_none_or(|points| one.0 == points) && scans.is_none_or(|scans| one.1 == scans);
        add(name, version == 1 && met && whole(9, one));
    }
    let counts =
        |points: usize, scans: usize| version == 2 && two == (points, scans) && whole(11, two);
    add("64 points and 8 scans in version 2", counts(64, 8));
    add("nothing in version 2", counts(0, 0));
    for (name, wanted) in [
        ("65 points in version 2", 65),
        ("256 points in version 2", 256),
        ("1,023 points in version 2", 1_023),
        ("1,024 points in version 2", 1_024),
    ] {
        add(name, formed && version == 2 && two.0 == wanted);
    }
    add(
        "1,025 points in version 2",
        version == 2 && two.0 == 1_025 && whole(11, two),
    );
    for (name, wanted) in [
        ("9 scans in version 2", 9),
        ("63 scans in version 2", 63),
        ("64 scans in version 2", 64),
    ] {
        add(name, formed && version == 2 && two.1 == wanted);
    }
    add(
        "65 scans in version 2",
        version == 2 && two.1 == 65 && whole(11, two),
    );
    add(
        "more points alone in version 2",
        formed && version == 2 && two.1 <= 8,
    );
    add(
        "more scans alone in version 2",
        formed && version == 2 && two.0 <= 64,
    );
    add(
        "more of both in version 2",
        formed && version == 2 && two.0 > 64 && two.1 > 8,
    );
    add(
        "version 3 with more points than version 1",
        version == 3 && two.0 > 64 && whole(11, two),
    );
    add("version 0", version == 0);
    let swapped = (usize::from(part[8]) * 256 + usize::from(part[7]), two.1);
    add(
        "a count with its bytes exchanged",
        version == 2 && two.0 > 1_024 && whole(11, swapped),
    );
    add(
        "version 2 with counts of one byte",
        version == 2 && one != (0, 0) && whole(9, one),
    );
    add(
        "version 1 with counts of two bytes",
        version == 1 && two != (0, 0) && whole(11, two),
    );
    add(
        "version 1 with a length above 903",
        version == 1 && part.len() > 905,
    );
    add(
        "version 1 with a length of 904",
        version == 1 && part.len() == 906,
    );
    add(
        "version 2 with a length up to 903",
        formed && version == 2 && part.len() <= 905,
    );
    add(
        "version 2 with a length above 903",
        formed && version == 2 && part.len() > 905,
    );
}

/// Counts the edges that this record meets at this state.
fn record_edges(state: &State, part: &[u8], tally: &mut Tally) {
    version_edges(part, tally);
    let mut add = |name, met: bool| *tally.entry(name).or_default() += usize::from(met);
    let Ok(record) = Record::parse(part) else {
        return;
    };
    let (p, s) = (i64::from(state.position()), i64::from(record.snapshot));
    let z = i64::from(state.limits().z());
    add("p - s = Z", p - s == z);
    add("p - s = Z + 1", p - s == z + 1);
    add("s = p", s == p);
    add("s = p + 1", s == p + 1);
    add(
        "nothing",
        record.points.is_empty() && record.scans.is_empty(),
    );
    add("key 0", record.points.iter().any(|point| point.key == 0));
    let highest = |point: &reference::Point| point.key == u32::MAX;
    add("key 4,294,967,295", record.points.iter().any(highest));
    let mut scans = record.scans.iter();
    add(
        "scan of one key",
        scans.clone().any(|scan| scan.low == scan.high),
    );
    add(
        "scan to the highest",
        scans.clone().any(|scan| scan.high == u32::MAX),
    );
    let inside = |scan: &reference::Scan| {
        let covered = |point: &reference::Point| (scan.low..=scan.high).contains(&point.key);
        record.points.iter().any(covered)
    };
    add("scan over points", scans.any(inside));
}

/// Counts the edges of room and tombstones that this step meets.
fn room_edges(before: &State, after: &State, answer: Answer, tally: &mut Tally) {
    let mut add = |name, met: bool| *tally.entry(name).or_default() += usize::from(met);
    let (limits, v) = (before.limits(), after.position());
    let tombstones = before
        .kept()
        .iter()
        .filter(|(_, kept)| kept.payload.is_none());
    let gone = |key: &u32| !after.kept().contains_key(key);
    for (key, kept) in tombstones {
        let age = kept.position + limits.z();
        add("tombstone dropped at its age", age == v && gone(key));
        add("tombstone dropped later", age < v && gone(key));
        add("tombstone kept beyond its age", age <= v && !gone(key));
        let refused = answer == Answer::NoRoom;
        add("no room a position early", age == v + 1 && refused);
    }
    add("N keys kept", after.kept().len() == limits.n() as usize);
}

/// Counts the edges of R14 that the end of a log meets: these records, and this behind
/// the last.
fn ending_edges(records: &[&[u8]], rest: &[u8], tally: &mut Tally) {
    let mut add = |name, met: bool| *tally.entry(name).or_default() += usize::from(met);
    add("length 7, all there", records.iter().any(|r| r.len() == 9));
    for (name, wanted) in [
        ("length 903, all there", 903),
        ("length 904, all there", 904),
        ("length 13,833, all there", 13_833),
    ] {
        add(name, records.iter().any(|r| r.len() == wanted + 2));
    }
    add("one byte left", rest.len() == 1);
    add(
        "one byte left that no length begins with",
        rest.len() == 1 && rest[0] > 0x36,
    );
    let length = rest.first_chunk::<2>().map(|two| u16::from_be_bytes(*two));
    let behind = rest.len().saturating_sub(2);
    let torn = length.is_some_and(|length| (7..=13_833).contains(&length));
    let impossible = length.is_some_and(|length| !(7..=13_833).contains(&length));
    add("two bytes left, torn", torn && behind == 0);
    add("two bytes left, impossible", impossible && behind == 0);
    add("three bytes left, torn", torn && behind == 1);
    add("three bytes left, impossible", impossible && behind == 1);
    for (wanted, all, few) in [
        (0, "length 0, all there", None),
        (6, "length 6, all there", Some("length 6, too few")),
        (
            13_834,
            "length 13,834, all there",
            Some("length 13,834, too few"),
        ),
        (
            u16::MAX,
            "length 65,535, all there",
            Some("length 65,535, too few"),
        ),
    ] {
        let met = length == Some(wanted);
        let whole = behind >= usize::from(wanted);
        add(all, met && whole);
        if let Some(few) = few {
            add(few, met && !whole);
        }
    }
    add("length 7, too few", length == Some(7));
    add("length 903, too few", length == Some(903));
    add("length 904, too few", length == Some(904));
    add("length 13,833, too few", length == Some(13_833));
    add(
        "another impossible length",
        impossible && !matches!(length, Some(0 | 6 | 13_834 | u16::MAX)),
    );
    add(
        "an impossible length behind records",
        impossible && !records.is_empty(),
    );
    add(
        "an impossible length first of all",
        impossible && records.is_empty(),
    );
}

/// Counts the edges of one log.
fn log_edges(limits: Limits, log: &[u8], tally: &mut Tally) {
    let (found, rest) = parts(log);
    let mut state = State::new(limits);
    for part in &found {
        let before = state.clone();
        let verdict = state.meld(part);
        record_edges(&before, part, tally);
        room_edges(&before, &state, verdict.answer, tally);
    }
    ending_edges(&found, rest, tally);
    let mut add = |name, met: bool| *tally.entry(name).or_default() += usize::from(met);
    add("empty log", log.is_empty());
    add("N = 1", limits.n() == 1);
    add("N = 2", limits.n() == 2);
    add("N = 3", limits.n() == 3);
    add("N = 1,000", limits.n() == 1_000);
    add("Z = 1", limits.z() == 1);
    add("Z = 4,096", limits.z() == 4_096);
}

#[test]
fn every_edge_is_met() {
    let mut tally = Tally::new();
    for seed in 0..2_000 {
        let input = generate::input(seed);
        *tally.entry("empty input").or_default() += usize::from(input.is_empty());
        match split(&input) {
            Ok((limits, log)) if parts(log).0.len() < 2_000 => log_edges(limits, log, &mut tally),
            Ok((limits, _)) => {
                *tally.entry("Z = 4,096").or_default() += usize::from(limits.z() == 4_096);
            }
            Err(_) => *tally.entry("bad limits").or_default() += 1,
        }
    }
    println!("{tally:#?}");
    for (name, count) in tally {
        assert!(count > 2, "{name} is met only {count} times");
    }
}

/// Counts the edges of one log that is cut into parts of these sizes.
fn cut_edges(log: &[u8], sizes: &[usize], tally: &mut Tally) {
    let mut add = |name, met: bool| *tally.entry(name).or_default() += usize::from(met);
    // How many parts end at each place.
    let mut ends = vec![0; log.len() + 2];
    let mut place = 0;
    for part in cut(log, sizes) {
        place += part.len();
        ends[place] += 1;
    }
    let cut_at = |place: usize| ends[place];
    let (records, tail) = parts(log);
    let mut start = 0;
    for record in &records {
        let end = start + record.len();
        let inside = (start + 1..end).map(cut_at).sum::<usize>();
        add("a length in two parts", cut_at(start + 1) > 0);
        add(
            "an empty part within a length",
            cut_at(start + 1) > 1 && inside > 1,
        );
        add("a length and nothing behind it", cut_at(start + 2) > 0);
        let alone = cut_at(end - 1) > 0 && cut_at(end) > 0;
        add("a last byte alone in its part", alone);
        add("a part that ends with a record", cut_at(end) > 0);
        add("a record in ten parts", inside > 8);
        add("a 9-byte record in parts", record.len() == 9 && inside > 0);
        let longest = record.len() == 905;
        add("a 905-byte record in parts", longest && inside > 0);
        add("a 905-byte record in one part", longest && inside == 0);
        let longest = record.len() == 13_835;
        add("a 13,835-byte record in parts", longest && inside > 0);
        add("a 13,835-byte record in one part", longest && inside == 0);
        let two = record[2] == 2 && Record::parse(record).is_ok();
        add("a record of version 2 in parts", two && inside > 0);
        let within = (start + 8..start + 11).any(|place| cut_at(place) > 0);
        add("a record of version 2 cut within its counts", two && within);
        let flawed = Record::parse(record).is_err();
        add("a malformed record in parts", flawed && inside > 0);
        start = end;
    }
    let length = tail.first_chunk::<2>().map(|two| u16::from_be_bytes(*two));
    let impossible = length.is_some_and(|length| !(7..=13_833).contains(&length));
    add("an impossible length", impossible);
    let halved = impossible && cut_at(start + 1) > 0;
    add("an impossible length in two parts", halved);
    let late = impossible && start > 0 && cut_at(start) == 0;
    add("an impossible length behind a record of its part", late);
    let first = impossible && start > 0 && cut_at(start) > 0;
    add("an impossible length at a part's start", first);
    let whole = length.is_some_and(|length| tail.len() >= usize::from(length) + 2);
    add("an impossible length, all there", impossible && whole);
    add("an impossible length, too few", impossible && !whole);
    let last = impossible && cut_at(start + 2) > 0;
    add("an impossible length that ends a part", last);
    add(
        "an impossible length in parts that go on",
        last && ends[start + 3..].iter().any(|&end| end > 0),
    );
    add("a torn end", !tail.is_empty() && !impossible);
    add("a torn end of one byte", tail.len() == 1);
    add("a torn end of two bytes", !impossible && tail.len() == 2);
    add("a torn end of three bytes", !impossible && tail.len() == 3);
    add("empty parts behind the log", cut_at(log.len()) > 1);
    add("empty parts before the log", cut_at(0) > 1);
    let sum: usize = sizes.iter().sum();
    add("more than the log has", sum > log.len());
    add("less than the log has", sum < log.len());
    add("one part", sizes.is_empty());
    for (name, size) in [("pages of 256", 256), ("pages of 2,048", 2_048)] {
        add(
            name,
            sizes.len() > 1 && sizes.iter().all(|&one| one == size),
        );
    }
    let single = log.len() > 30 && sizes.len() == log.len();
    add(
        "every byte alone",
        single && sizes.iter().all(|&one| one == 1),
    );
}

/// The ends of R14, in few seeds already.
#[test]
fn every_ending_is_met_in_parts_by_200_seeds() {
    let mut tally = Tally::new();
    for seed in 0..200 {
        let input = generate::paged_input(seed);
        if let Ok((_, log)) = split(&input) {
            let (records, rest) = parts(log);
            ending_edges(&records, rest, &mut tally);
        }
    }
    println!("{tally:#?}");
    for (name, count) in tally {
        assert!(count > 0, "{name} is not met");
    }
}

#[test]
fn every_edge_of_parts_is_met_by_500_seeds() {
    let mut tally = Tally::new();
    for seed in 0..500 {
        let trials = generate::in_parts(seed);
        let Ok((_, log)) = split(&trials[0].input) else {
            continue;
        };
        for trial in &trials {
            cut_edges(log, trial.sizes.as_deref().unwrap_or(&[]), &mut tally);
        }
        let every = (0..=log.len()).all(|place| {
            let two = Some(vec![place, 0]);
            trials.iter().any(|trial| trial.sizes == two)
        });
        *tally.entry("short logs cut everywhere").or_default() += usize::from(every);
    }
    println!("{tally:#?}");
    for (name, count) in tally {
        assert!(count > 2, "{name} is met only {count} times");
    }
}
