//! Which cases of R56 and R57 a call of joining is, told from the two records and the output
//! alone.

use reference::joiner::{follows, joined};
use reference::record::{MOST_POINTS, MOST_SCANS};
use reference::{Answer, Kind, Point, Record, Scan, Version};

use super::{Joining, Tally};

/// How many cases there are.
pub const CASES: usize = 94;

/// Counts the cases that this call is, which is answered so.
pub fn count(call: &Joining, answer: Answer, tally: &mut Tally) {
    let (one, other) = (Record::parse(&call.a), Record::parse(&call.b));
    let mut add = |name, met: bool| *tally.entry(name).or_default() += usize::from(met);
    add("a is malformed", one.is_err() && other.is_ok());
    add("b is malformed", one.is_ok() && other.is_err());
    add("both are malformed", one.is_err() && other.is_err());
    let (Ok(a), Ok(b)) = (one, other) else {
        return;
    };
    let j = joined(&a, &b);
    let size = j.to_bytes().len();
    let room = call.output.len();
    let refused = answer == Answer::CannotJoin;
    add(
        "12 with an output that is too short",
        refused && room < size,
    );
    add("12 with an output that is not", refused && room >= size);
    refusals(&a, &b, &j, tally);
    if refused {
        return;
    }
    let mut add = |name, met: bool| *tally.entry(name).or_default() += usize::from(met);
    add("the output is one byte short", room + 1 == size);
    add("the output is shorter than that", room + 1 < size);
    add("the output is empty", room == 0);
    add("the output is as long as the record", room == size);
    add("the output is longer", room > size);
    add("a record of 13,835 bytes", size == 13_835);
    add(
        "the longest record, and one byte short",
        size == 13_835 && room == 13_834,
    );
    if answer == Answer::Committed {
        counts(&a, &b, &j, tally);
        names(&a, &b, &j, tally);
        scans(&a, &b, &j, tally);
    }
}

/// Cases in which one thing alone is in the way.
fn refusals(a: &Record, b: &Record, j: &Record, tally: &mut Tally) {
    let mut add = |name, met: bool| *tally.entry(name).or_default() += usize::from(met);
    let apart = a.snapshot != b.snapshot;
    let many_points = j.points.len() > MOST_POINTS;
    let many_scans = j.scans.len() > MOST_SCANS;
    let held = follows(a, b);
    add(
        "only the snapshots differ",
        apart && !held && !many_points && !many_scans,
    );
    add(
        "1,025 points",
        !apart && !held && j.points.len() == 1_025 && !many_scans,
    );
    add(
        "far more than 1,024 points",
        !apart && !held && j.points.len() > 1_025,
    );
    add(
        "65 scans",
        !apart && !held && j.scans.len() == 65 && !many_points,
    );
    add("more than 65 scans", !apart && !held && j.scans.len() > 65);
    if apart || many_points || many_scans || !held {
        return;
    }
    let written = a.points.iter().filter(|point| point.kind != Kind::Read);
    let touched: Vec<&Point> = written.filter(|point| b.touches(point.key)).collect();
    let [only] = touched[..] else {
        add("several keys that a writes and b touches", true);
        return;
    };
    let deleted = only.kind == Kind::Delete;
    let named = b.points.iter().find(|point| point.key == only.key);
    let scanned = b.scans.iter().find(|scan| covers(scan, only.key));
    match (named.map(|point| point.kind), scanned) {
        (Some(_), Some(_)) => add("b names and scans a key that a writes", true),
        (Some(Kind::Read), _) => {
            add("b reads a key that a puts", !deleted);
            add("b reads a key that a deletes", deleted);
        }
        (Some(Kind::Put(_)), _) => {
            add("b puts a key that a puts", !deleted);
            add("b puts a key that a deletes", deleted);
        }
        (Some(Kind::Delete), _) => {
            add("b deletes a key that a puts", !deleted);
            add("b deletes a key that a deletes", deleted);
        }
        (None, Some(scan)) => {
            add("b scans a key that a puts", !deleted);
            add("b scans a key that a deletes", deleted);
            add(
                "a scan of b begins at a key that a writes",
                scan.low == only.key && scan.low < scan.high,
            );
            add(
                "a scan of b ends at a key that a writes",
                scan.high == only.key && scan.low < scan.high,
            );
            add("a scan of b is a key that a writes", scan.low == scan.high);
        }
        (None, None) => {}
    }
    add("a writes key 0, and b touches it", only.key == 0);
    add(
        "a writes key 4,294,967,295, and b touches it",
        only.key == u32::MAX,
    );
}

/// Counts of what is joined.
fn counts(a: &Record, b: &Record, j: &Record, tally: &mut Tally) {
    let mut add = |name, met: bool| *tally.entry(name).or_default() += usize::from(met);
    let points = (a.points.len(), b.points.len(), j.points.len());
    let scans = (a.scans.len(), b.scans.len(), j.scans.len());
    for (name, wanted) in [
        ("64 + 64 points make 64", (64, 64, 64)),
        ("64 + 64 points make 65", (64, 64, 65)),
        ("64 + 64 points make 128", (64, 64, 128)),
        ("64 + 1 points make 64", (64, 1, 64)),
        ("64 + 1 points make 65", (64, 1, 65)),
        ("1 + 64 points make 65", (1, 64, 65)),
        ("32 + 32 points make 64", (32, 32, 64)),
        ("32 + 33 points make 65", (32, 33, 65)),
        ("255 + 1 points make 256", (255, 1, 256)),
        ("1,024 + 1 points make 1,024", (1_024, 1, 1_024)),
        ("1,023 + 1 points make 1,024", (1_023, 1, 1_024)),
        ("512 + 512 points make 1,024", (512, 512, 1_024)),
        ("1,024 + 1,024 points make 1,024", (1_024, 1_024, 1_024)),
    ] {
        add(name, points == wanted);
    }
    for (name, wanted) in [
        ("8 + 1 scans make 9", (8, 1, 9)),
        ("8 + 1 scans make 8", (8, 1, 8)),
        ("63 + 1 scans make 64", (63, 1, 64)),
        ("64 + 1 scans make 64", (64, 1, 64)),
        ("64 + 64 scans make 64", (64, 64, 64)),
    ] {
        add(name, scans == wanted);
    }
    add(
        "64 and more scans make fewer",
        scans.0.max(scans.1) == 64 && scans.2 < 64,
    );
    let nothing = |record: &Record| record.points.is_empty() && record.scans.is_empty();
    add("both are empty", nothing(a) && nothing(b));
    add("a is empty", nothing(a) && !nothing(b));
    add("b is empty", !nothing(a) && nothing(b));
    let versions = [a, b, j].map(|record| record.version() == Version::Two);
    add(
        "both of version 1, joined of version 2",
        versions == [false, false, true],
    );
    add(
        "both of version 2, joined of version 1",
        versions == [true, true, false],
    );
    add(
        "one of version 2, joined of version 1",
        versions[0] != versions[1] && !versions[2],
    );
    add("both of version 2, joined too", versions == [true; 3]);
    add(
        "more points and more scans than version 1 has",
        points.2 > 64 && scans.2 > 8,
    );
}

/// Keys that both touch, and the keys at both ends.
fn names(a: &Record, b: &Record, j: &Record, tally: &mut Tally) {
    let mut add = |name, met: bool| *tally.entry(name).or_default() += usize::from(met);
    let of_both = |wanted: fn(Kind) -> bool| {
        let mut points = b.points.iter().filter(|point| wanted(point.kind));
        points.any(|point| a.points.iter().any(|other| other.key == point.key))
    };
    let (put, delete) = (
        |kind| matches!(kind, Kind::Put(_)),
        |kind| kind == Kind::Delete,
    );
    add("both read a key", of_both(|kind| kind == Kind::Read));
    add("b puts a key that a reads", of_both(put));
    add("b deletes a key that a reads", of_both(delete));
    let over = |scans: &[Scan], points: &[Point], wanted: fn(Kind) -> bool| {
        let mut points = points.iter().filter(|point| wanted(point.kind));
        points.any(|point| scans.iter().any(|scan| covers(scan, point.key)))
    };
    add("b puts a key that a scans", over(&a.scans, &b.points, put));
    add(
        "b deletes a key that a scans",
        over(&a.scans, &b.points, delete),
    );
    let read = |kind| kind == Kind::Read;
    add(
        "b scans a key that a reads",
        over(&b.scans, &a.points, read),
    );
    add(
        "a writes a key that a scans",
        over(&a.scans, &a.points, |kind| kind != Kind::Read),
    );
    let key = |key: u32| j.points.iter().find(|point| point.key == key);
    add("key 0", key(0).is_some());
    add("key 4,294,967,295", key(u32::MAX).is_some());
    add("keys on both sides of the middle", {
        let high = |point: &Point| point.key >> 31 == 1;
        j.points.iter().any(high) && !j.points.iter().all(high)
    });
    let lasts = |record: &Record| record.points.last().map(|point| point.key);
    let firsts = |record: &Record| record.points.first().map(|point| point.key);
    add(
        "all of a's keys below b's",
        lasts(a) < firsts(b) && lasts(a).is_some(),
    );
    add(
        "all of b's keys below a's",
        lasts(b) < firsts(a) && lasts(b).is_some(),
    );
    add(
        "keys by turns",
        firsts(a) < firsts(b) && firsts(b) < lasts(a) && lasts(a) < lasts(b),
    );
}

fn covers(scan: &Scan, key: u32) -> bool {
    scan.low <= key && key <= scan.high
}

/// How scans come together.
fn scans(a: &Record, b: &Record, j: &Record, tally: &mut Tally) {
    let mut add = |name, met: bool| *tally.entry(name).or_default() += usize::from(met);
    let of_two = |of: fn(&Scan, &Scan) -> bool| {
        let mut firsts = a.scans.iter();
        firsts.any(|one| b.scans.iter().any(|other| of(one, other)))
    };
    let inside = |one: &Scan, other: &Scan| one.low > other.low && one.high < other.high;
    add("a scan of a inside one of b", of_two(inside));
    add(
        "a scan of b inside one of a",
        of_two(|one, other| one.low < other.low && other.high < one.high),
    );
    add("a scan that both have", of_two(|one, other| one == other));
    add(
        "the same low",
        of_two(|one, other| one.low == other.low && one.high != other.high),
    );
    add(
        "the same high",
        of_two(|one, other| one.high == other.high && one.low != other.low),
    );
    let crossing = |one: &Scan, other: &Scan| {
        one.low < other.low && other.low < one.high && one.high < other.high
    };
    add(
        "over each other at several keys, a's first",
        of_two(crossing),
    );
    add(
        "over each other at several keys, b's first",
        of_two(|one, other| other.low < one.low && one.low < other.high && other.high < one.high),
    );
    let at_one = |one: &Scan, other: &Scan| {
        one.low < other.low && one.high == other.low && one.high < other.high
    };
    add("over each other at one key, a's first", of_two(at_one));
    add(
        "over each other at one key, b's first",
        of_two(|one, other| other.low < one.low && other.high == one.low && other.high < one.high),
    );
    // Touching scans that stay two.
    let stays = |low: u32, high: u32| {
        let kept = |end: &dyn Fn(&Scan) -> bool| j.scans.iter().any(end);
        kept(&|scan| scan.high == low) && kept(&|scan| scan.low == high)
    };
    let touching = |ones: &[Scan], others: &[Scan]| {
        ones.iter().any(|one| {
            one.high < u32::MAX
                && others.iter().any(|other| other.low == one.high + 1)
                && stays(one.high, one.high + 1)
        })
    };
    add("b's touches a's", touching(&a.scans, &b.scans));
    add("a's touches b's", touching(&b.scans, &a.scans));
    add("a's touches a's", touching(&a.scans, &a.scans));
    add("b's touches b's", touching(&b.scans, &b.scans));
    for made in &j.scans {
        let within = |record: &Record| {
            let scans = record.scans.iter();
            scans.filter(|scan| covers(made, scan.low)).count()
        };
        let (of_a, of_b) = (within(a), within(b));
        let spans = |record: &Record| {
            let mut scans = record.scans.iter();
            scans.any(|scan| scan == made)
        };
        let chain = !spans(a) && !spans(b);
        add("a chain of three: a, b, a", chain && (of_a, of_b) == (2, 1));
        add("a chain of three: b, a, b", chain && (of_a, of_b) == (1, 2));
        add(
            "a chain of five and more",
            chain && of_a + of_b > 4 && of_a.abs_diff(of_b) < 2,
        );
        add(
            "several inside one",
            !chain && of_a.max(of_b) > 2 && of_a.min(of_b) == 1,
        );
        add("a scan from 0, of two", made.low == 0 && of_a + of_b > 1);
        add(
            "a scan up to 4,294,967,295, of two",
            made.high == u32::MAX && of_a + of_b > 1,
        );
        add(
            "a scan up to 4,294,967,295, of a's alone",
            made.high == u32::MAX && of_b == 0,
        );
        add(
            "a scan up to 4,294,967,295, of b's alone",
            made.high == u32::MAX && of_a == 0,
        );
    }
    let last = |low: u32| j.scans.iter().any(|scan| scan.low == low);
    add("a scan that begins at 4,294,967,295", last(u32::MAX));
}
