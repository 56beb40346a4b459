//! The logs from seeds have deletes of every sort in them, often: of keys that are live,
//! of tombstones of every age, of keys that are not kept (R22).

use std::collections::BTreeMap;

use compare::generate;
use reference::log::parts;
use reference::program::split;
use reference::state::{Kept, Write};
use reference::{Answer, Kind, Limits, Point, Record, State};

/// How often each edge was met.
type Tally = BTreeMap<&'static str, usize>;

/// Counts the edges of a delete that commits (R22), by what is kept of its key at p.
fn delete_edges(before: &State, key: u32, kept: Option<&Kept>, tally: &mut Tally) {
    let mut add = |name, met: bool| *tally.entry(name).or_default() += usize::from(met);
    let (z, v) = (before.limits().z(), before.position() + 1);
    let age = |kept: &Kept| kept.position + z;
    let tombstone = kept.filter(|kept| kept.payload.is_none());
    let aged = |is: &dyn Fn(u32) -> bool| tombstone.is_some_and(|kept| is(age(kept)));
    add(
        "a delete of a live key",
        kept.is_some_and(|kept| kept.payload.is_some()),
    );
    add("a delete of a key that is not kept", kept.is_none());
    add("a delete of a young tombstone", aged(&|age| age > v + 1));
    add(
        "a delete of a tombstone a position before its age",
        aged(&|age| age == v + 1),
    );
    add("a delete of a tombstone at its age", aged(&|age| age == v));
    add(
        "a delete of a tombstone beyond its age",
        aged(&|age| age < v),
    );
    add("a delete of 0, not kept", key == 0 && kept.is_none());
    add(
        "a delete of 4,294,967,295, not kept",
        key == u32::MAX && kept.is_none(),
    );
}

/// Counts what deletes of nothing (R22) make of this record: its room, its drop, its
/// conflict.
fn nothing_edges(
    before: &State,
    after: &State,
    record: &Record,
    answer: Answer,
    tally: &mut Tally,
) {
    let mut add = |name, met: bool| *tally.entry(name).or_default() += usize::from(met);
    let n = before.limits().n() as usize;
    let points = record.points.iter();
    let deletes: Vec<&Point> = points.filter(|point| point.kind == Kind::Delete).collect();
    let mut nothing = deletes.clone();
    nothing.retain(|point| !before.writes(point));
    if nothing.is_empty() {
        return;
    }
    let is_kept = |point: &&&Point| before.kept().contains_key(&point.key);
    let absent = nothing.iter().filter(|point| !is_kept(point)).count();
    let tombstones = nothing.len() - absent;
    let needed = before.needed(record);
    let mut written: Vec<u32> = record
        .points
        .iter()
        .filter(|point| before.writes(point))
        .map(|point| point.key)
        .collect();
    let writes = written.len();
    written.retain(|key| !before.kept().contains_key(key));
    let together = before.kept().len() + written.len();
    let gone = |key: &u32| !after.kept().contains_key(key);
    match answer {
        Answer::Committed => {
            add("only deletes of nothing", writes == 0);
            add(
                "only deletes of nothing, in a full pool",
                writes == 0 && needed == n && absent > 0,
            );
            add(
                "deletes of nothing beside a put that takes the last room",
                needed == n && !written.is_empty() && absent > 0,
            );
            add(
                "deletes of nothing that would have found no room",
                needed + absent > n,
            );
            let old = before.kept().values().any(|kept| {
                kept.payload.is_none() && kept.position + before.limits().z() <= after.position()
            });
            add(
                "deletes of nothing that would have dropped a tombstone",
                together <= n && together + absent > n && old,
            );
            add(
                "exactly N together, beside a delete of nothing",
                together == n && !written.is_empty() && old,
            );
            add(
                "a drop beside a delete of nothing",
                before.kept().keys().any(gone),
            );
            add(
                "a drop of a tombstone that the record deletes",
                nothing.iter().filter(is_kept).any(|point| gone(&point.key)),
            );
            add("64 deletes of nothing", nothing.len() == 64);
            add("65 deletes of nothing and more", nothing.len() > 64);
            add("1,024 deletes of nothing", nothing.len() == 1_024);
            add(
                "more than 64 deletes, some of them of live keys",
                deletes.len() > 64 && deletes.len() > nothing.len(),
            );
            add(
                "deletes of nothing of both sorts",
                absent > 0 && tombstones > 0,
            );
        }
        Answer::Conflict => {
            let mut less = record.clone();
            less.points.retain(|point| !nothing.contains(&point));
            add(
                "a conflict by a delete of a tombstone alone",
                !before.conflict(&less),
            );
        }
        Answer::NoRoom => {
            add("no room beside a delete of nothing", true);
            add(
                "no room by one key beside a delete of nothing",
                needed == n + 1,
            );
        }
        _ => {}
    }
}

/// Counts how this record, which commits, touches what was deleted as nothing since its
/// snapshot.
fn since_edges(record: &Record, nothing: &[Write], tally: &mut Tally) {
    let mut add = |name, met: bool| *tally.entry(name).or_default() += usize::from(met);
    let since = nothing
        .iter()
        .rev()
        .take_while(|write| write.position > record.snapshot);
    let mut kinds = [false; 4];
    for write in since {
        let named = record.points.iter().find(|point| point.key == write.key);
        match named.map(|point| point.kind) {
            Some(Kind::Read) => kinds[0] = true,
            Some(Kind::Put(_)) => kinds[1] = true,
            Some(Kind::Delete) => kinds[2] = true,
            None => kinds[3] |= record.touches(write.key),
        }
    }
    add("a read of what was deleted as nothing since", kinds[0]);
    add("a put of what was deleted as nothing since", kinds[1]);
    add("a delete of what was deleted as nothing since", kinds[2]);
    add("a scan of what was deleted as nothing since", kinds[3]);
}

/// Counts the edges of one log.
fn log_edges(limits: Limits, records: &[&[u8]], tally: &mut Tally) {
    let mut state = State::new(limits);
    // What committed records deleted that was not live.
    let mut nothing: Vec<Write> = Vec::new();
    for part in records {
        let before = state.clone();
        let answer = state.meld(part).answer;
        let Ok(record) = Record::parse(part) else {
            continue;
        };
        nothing_edges(&before, &state, &record, answer, tally);
        if answer != Answer::Committed {
            continue;
        }
        since_edges(&record, &nothing, tally);
        let mut points = record.points.clone();
        points.retain(|point| point.kind == Kind::Delete);
        for &Point { key, .. } in &points {
            delete_edges(&before, key, before.kept().get(&key), tally);
        }
        points.retain(|point| !before.writes(point));
        let position = state.position();
        nothing.extend(points.iter().map(|point| Write {
            position,
            key: point.key,
        }));
    }
}

#[test]
fn every_edge_of_deletes_is_met() {
    let mut tally = Tally::new();
    for seed in 0..2_000 {
        let input = generate::input(seed);
        let Ok((limits, log)) = split(&input) else {
            continue;
        };
        let (records, _) = parts(log);
        if records.len() < 2_000 {
            log_edges(limits, &records, &mut tally);
        }
    }
    println!("{tally:#?}");
    for (name, count) in tally {
        assert!(count > 2, "{name} is met only {count} times");
    }
}
