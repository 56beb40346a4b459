//! The logs from seeds have every edge of R50 in them, often; and what R50 and R51 say
//! is true of every record of theirs.

use std::collections::{BTreeMap, BTreeSet};

use compare::generate;
use reference::log::parts;
use reference::program::{split_up_to, FULL_N};
use reference::state::{Kept, Write};
use reference::{explain, Answer, Kind, Limits, Point, Reason, Record, State, Touch};

/// How often each edge was met.
type Tally = BTreeMap<&'static str, usize>;

/// The limits and the records of a seed's input for reasons, if its limits are good.
fn log_of(input: &[u8]) -> Option<(Limits, Vec<Vec<u8>>)> {
    let (limits, log) = split_up_to(FULL_N, input).ok()?;
    let found = parts(log).0.iter().map(|part| part.to_vec()).collect();
    Some((limits, found))
}

/// Counts the edges of a conflict.
fn conflict_edges(
    state: &State,
    record: &Record,
    (key, position, touch): (u32, u32, Touch),
    (refused, nothing): (&[Write], &[Write]),
    tally: &mut Tally,
) {
    let mut add = |name, met: bool| *tally.entry(name).or_default() += usize::from(met);
    let writes: Vec<&Write> = state.in_conflict(record).collect();
    let mut keys: Vec<u32> = writes.iter().map(|write| write.key).collect();
    keys.sort_unstable();
    keys.dedup();
    add("several keys in conflict", keys.len() > 1);
    add("ten keys in conflict", keys.len() >= 10);
    let least_signed = keys.iter().copied().min_by_key(|&key| key as i32);
    add(
        "another key is the smallest signed",
        least_signed != Some(key),
    );
    let newest = writes[0].position;
    add("another key was written last", newest > position);
    let oldest = writes[writes.len() - 1];
    add("another key was written first", oldest.key != key);
    let named = |key: u32| record.points.iter().any(|point| point.key == key);
    let covered = |key: u32| {
        record
            .scans
            .iter()
            .any(|scan| (scan.low..=scan.high).contains(&key))
    };
    add(
        "a scan has the key and a point a larger one",
        !named(key) && keys.iter().any(|&key| named(key)),
    );
    add(
        "a point has the key and a scan a larger one",
        named(key) && keys[1..].iter().any(|&key| covered(key)),
    );
    add("both have the key", named(key) && covered(key));
    let above = record.points.iter().any(|point| point.key > key);
    add(
        "a scan has the key and a point stands above",
        !named(key) && above,
    );
    match touch {
        Touch::Point(number) => {
            add("the first point", number == 1);
            add("a later point", number > 1);
            add("point 64", number == 64);
            add("a point behind the 64th", number > 64);
            add("a point behind the 255th", number > 255);
            add("point 1,024", number == 1_024);
            let kind = record.points[number - 1].kind;
            add("a read in conflict", kind == Kind::Read);
            add("a put in conflict", matches!(kind, Kind::Put(_)));
            add("a delete in conflict", kind == Kind::Delete);
        }
        Touch::Scan(number) => {
            add("the first scan", number == 1);
            for (name, wanted) in [
                ("scan 2", 2),
                ("scan 3", 3),
                ("scan 4", 4),
                ("scan 5", 5),
                ("scan 6", 6),
                ("scan 7", 7),
                ("scan 8", 8),
            ] {
                add(name, number == wanted);
            }
            add("a scan behind the 8th", number > 8);
            add("scan 64", number == 64);
            add("a scan behind points", !record.points.is_empty());
            add(
                "a scan above its low end",
                record.scans[number - 1].low < key,
            );
        }
    }
    let lower = |(&kept, _): (&u32, &Kept)| kept < key && record.touches(kept);
    add(
        "a smaller kept key not written since",
        state.kept().iter().any(lower),
    );
    add(
        "a delete was the last write",
        state.kept()[&key].payload.is_none(),
    );
    let count = writes.iter().filter(|write| write.key == key).count();
    add("the key was written twice since", count > 1);
    add("the write right behind s", position == record.snapshot + 1);
    add("the write at p", position == state.position());
    add(
        "neither",
        position > record.snapshot + 1 && position < state.position(),
    );
    let later = |write: &Write| write.key == key && write.position > position;
    add("a refused record wrote it later", refused.iter().any(later));
    add("it was deleted again later", nothing.iter().any(later));
    add("key 0", key == 0);
    add("key 4,294,967,295", key == u32::MAX);
}

/// Counts the edges of a lag.
fn lag_edges(state: &State, record: &Record, lag: u32, tally: &mut Tally) {
    let mut add = |name, met: bool| *tally.entry(name).or_default() += usize::from(met);
    let z = state.limits().z();
    add("too old by one", lag == z + 1);
    add("too old by more", lag > z + 1);
    add("too old by Z and more", lag > 2 * z);
    add("too old with a conflict", state.conflict(record));
}

/// Counts the edges of room.
fn room_edges(state: &State, record: &Record, keys: u32, tally: &mut Tally) {
    let mut add = |name, met: bool| *tally.entry(name).or_default() += usize::from(met);
    let (n, z, v) = (state.limits().n(), state.limits().z(), state.position() + 1);
    add("one key too many", keys == n + 1);
    add("more keys too many", keys > n + 1);
    let written = |key: u32| {
        record
            .points
            .iter()
            .any(|point| point.key == key && state.writes(point))
    };
    let kept =
        |is: &dyn Fn(u32, &Kept) -> bool| state.kept().iter().any(|(&key, kept)| is(key, kept));
    let old = |kept: &Kept| kept.payload.is_none() && kept.position + z <= v;
    let young = |kept: &Kept| kept.payload.is_none() && kept.position + z > v;
    add(
        "no room with a young tombstone",
        kept(&|_, kept| young(kept)),
    );
    add("no room with an old tombstone", kept(&|_, kept| old(kept)));
    add(
        "no room with both",
        kept(&|_, kept| old(kept)) && kept(&|_, kept| young(kept)),
    );
    let at_age = |_, kept: &Kept| old(kept) && kept.position + z == v;
    add("no room with a tombstone at its age", kept(&at_age));
    let before = |_, kept: &Kept| young(kept) && kept.position + z == v + 1;
    add("no room with a tombstone before it", kept(&before));
    add(
        "no room, a live key written",
        kept(&|key, kept| kept.payload.is_some() && written(key)),
    );
    add(
        "no room, a young tombstone's key written",
        kept(&|key, kept| young(kept) && written(key)),
    );
    add(
        "no room, an old tombstone's key written",
        kept(&|key, kept| old(kept) && written(key)),
    );
    let read = |point: &Point| point.kind == Kind::Read && !state.kept().contains_key(&point.key);
    add(
        "no room, an absent key read",
        record.points.iter().any(read),
    );
    let deleted = |point: &Point| point.kind == Kind::Delete;
    add(
        "no room, an absent key deleted",
        record
            .points
            .iter()
            .any(|point| deleted(point) && !state.kept().contains_key(&point.key)),
    );
    let tombstone = |point: &Point, is: &dyn Fn(&Kept) -> bool| {
        deleted(point) && state.kept().get(&point.key).is_some_and(is)
    };
    let mut points = record.points.iter();
    add(
        "no room, an old tombstone deleted",
        points.clone().any(|point| tombstone(point, &old)),
    );
    add(
        "no room, a young tombstone deleted",
        points.any(|point| tombstone(point, &young)),
    );
}

/// Counts the edges of one log.
fn log_edges(limits: Limits, records: &[Vec<u8>], tally: &mut Tally) {
    let mut state = State::new(limits);
    // What refused records would have written, and what committed ones deleted that was
    // not live.
    let (mut refused, mut nothing) = (Vec::new(), Vec::new());
    for part in records {
        let explained = explain(&state, part);
        let position = state.position() + 1;
        if let Ok(record) = Record::parse(part) {
            match explained.reason {
                Reason::Nothing => {}
                Reason::Conflict {
                    key,
                    position,
                    touch,
                } => {
                    let others = (&refused[..], &nothing[..]);
                    conflict_edges(&state, &record, (key, position, touch), others, tally);
                }
                Reason::TooOld { lag } => lag_edges(&state, &record, lag, tally),
                Reason::NoRoom { keys } => room_edges(&state, &record, keys, tally),
            }
            let write = |point: &Point| Write {
                position,
                key: point.key,
            };
            let (writes, others): (Vec<Point>, Vec<Point>) =
                record.points.iter().partition(|point| state.writes(point));
            if explained.verdict.answer == Answer::Committed {
                let deletes = others.iter().filter(|point| point.kind == Kind::Delete);
                nothing.extend(deletes.map(write));
            } else {
                refused.extend(writes.iter().map(write));
            }
        }
        state.meld(part);
    }
}

#[test]
fn every_edge_of_reasons_is_met() {
    let mut tally = Tally::new();
    for seed in 0..500 {
        match log_of(&generate::reasoned_input(seed)) {
            Some((limits, records)) if records.len() < 1_000 => {
                log_edges(limits, &records, &mut tally)
            }
            _ => {}
        }
    }
    println!("{tally:#?}");
    for (name, count) in tally {
        assert!(count > 2, "{name} is met only {count} times");
    }
}

/// R50 by the state: of the kept keys that are named or scanned and were last written
/// above s, this is the smallest, and this its position; and what touches it.
fn is_blamed(state: &State, record: &Record, (key, position, touch): (u32, u32, Touch)) {
    let in_conflict = |(&key, kept): (&u32, &Kept)| {
        let above = kept.position > record.snapshot;
        (above && record.touches(key)).then_some((key, kept.position))
    };
    let smallest = state.kept().iter().find_map(in_conflict);
    assert_eq!(smallest, Some((key, position)));
    match touch {
        Touch::Point(number) => assert_eq!(record.points[number - 1].key, key),
        Touch::Scan(number) => {
            let scan = &record.scans[number - 1];
            assert!((scan.low..=scan.high).contains(&key));
            assert!(record.points.iter().all(|point| point.key != key));
        }
    }
}

/// R50 by the state, and R51 by the log, for every record of logs from seeds.
#[test]
fn every_reason_is_true() {
    for seed in 0..1_000 {
        let Some((limits, records)) = log_of(&generate::reasoned_input(seed)) else {
            continue;
        };
        let mut state = State::new(limits);
        // Who committed, and where: each record's writes, none of a refused one; and the
        // keys that are live after them.
        let mut wrote: Vec<Vec<u32>> = Vec::new();
        let mut live: BTreeSet<u32> = BTreeSet::new();
        for bytes in &records {
            let (p, explained) = (state.position(), explain(&state, bytes));
            let melded = state.clone().meld(bytes);
            assert_eq!(explained.verdict, melded, "seed {seed}");
            let answer = melded.answer;
            match (explained.reason, Record::parse(bytes)) {
                (
                    Reason::Conflict {
                        key,
                        position,
                        touch,
                    },
                    Ok(record),
                ) => {
                    assert_eq!(answer, Answer::Conflict);
                    is_blamed(&state, &record, (key, position, touch));
                    let at = |position: u32| &wrote[position as usize - 1];
                    assert!(record.snapshot < position && position <= p);
                    assert!(at(position).contains(&key));
                    assert!((position + 1..=p).all(|later| !at(later).contains(&key)));
                    let smaller = |&other: &u32| other < key && record.touches(other);
                    let since = record.snapshot + 1..=p;
                    assert!(!since.flat_map(at).any(smaller), "seed {seed}");
                }
                (Reason::TooOld { lag }, Ok(record)) => {
                    assert_eq!(answer, Answer::TooOld);
                    assert_eq!(record.snapshot + lag, p);
                    assert!(lag > limits.z());
                }
                (Reason::NoRoom { keys }, Ok(_)) => {
                    assert_eq!(answer, Answer::NoRoom);
                    assert!(keys > limits.n());
                }
                (Reason::Nothing, _) => {
                    assert!(!matches!(
                        answer,
                        Answer::Conflict | Answer::TooOld | Answer::NoRoom
                    ));
                }
                (_, Err(_)) => panic!("seed {seed}: a reason for bytes that are no record"),
            }
            let committed = Record::parse(bytes)
                .ok()
                .filter(|_| answer == Answer::Committed);
            let points = committed.map_or(Vec::new(), |record| record.points);
            let writes = |point: &&Point| match point.kind {
                Kind::Read => false,
                Kind::Put(_) => live.insert(point.key) || live.contains(&point.key),
                Kind::Delete => live.remove(&point.key),
            };
            let writes = points.iter().filter(writes);
            wrote.push(writes.map(|point| point.key).collect());
            state.meld(bytes);
        }
    }
}
