//! Which cases of R58 a group is, told from what the two ways lead to.

use reference::state::Kept;
use reference::{Kind, Record, State};

use super::groups::{BothWays, Group};
use super::Tally;

/// How many cases there are.
pub const CASES: usize = 39;

/// Counts the cases that this group is. Its records can be joined.
pub fn count(group: &Group, joined: &[u8], said: &BothWays, tally: &mut Tally) {
    let [a, b] = [&group.a, &group.b].map(|record| Record::parse(record).unwrap_or_default());
    let mut add = |name, met: bool| *tally.entry(name).or_default() += usize::from(met);
    let pool = &group.pool;
    if !group.spoken_of() {
        let [one, other] = said.in_turn;
        add(
            "beyond v − s = Z: j commits, and b is too old",
            said.joined == 0 && (one, other) == (0, 2),
        );
        add(
            "p = 4,294,967,294: j commits, and b has no position",
            said.joined == 0 && (one, other) == (0, 6),
        );
        return;
    }
    let (p, z) = (pool.position(), pool.limits().z());
    let exactly = u64::from(p) + 1 == u64::from(a.snapshot) + u64::from(z);
    add("a pool that a log has made", group.log.is_some());
    add("a pool that none need have made", group.log.is_none());
    add("p = 4,294,967,293", p == u32::MAX - 2);
    add("p = 0", p == 0);
    add("v − s = Z", exactly);
    add(
        "a full pool",
        pool.kept().len() == pool.limits().n() as usize,
    );
    add("j is ahead", said.joined == 5);
    let larger = joined[2] == 2 && [&group.a, &group.b].iter().all(|record| record[2] == 1);
    let ways = (said.joined, said.in_turn);
    add(
        "j of version 2 from two of version 1 commits",
        larger && said.joined == 0,
    );
    add(
        "j of version 2 conflicts through a",
        larger && ways == (1, [1, 0]),
    );
    add(
        "j of version 2 conflicts through b only",
        larger && ways == (1, [0, 1]),
    );
    match ways {
        (0, _) => committed(group, &a, &b, joined, tally),
        (1, [1, 1]) => add("j conflicts through both", true),
        (1, [1, 0]) => add("j conflicts through a", true),
        (1, [1, 3]) => add("j conflicts through a, and b finds no room", true),
        (1, [0, 1]) => {
            add("j conflicts through b only", true);
            through_b(pool, &group.a, &b, exactly, tally);
        }
        (1, [3, 1]) => add("j conflicts through b, and a finds no room", true),
        (3, [0, 0]) => add("no room for j, and one by one commits", true),
        (3, [0, 3]) => add("no room for j, nor for b behind a", true),
        (3, [3, _]) => add("no room for j, nor for a", true),
        _ => {}
    }
}

/// Where j commits.
fn committed(group: &Group, a: &Record, b: &Record, joined: &[u8], tally: &mut Tally) {
    let mut add = |name, met: bool| *tally.entry(name).or_default() += usize::from(met);
    let pool = &group.pool;
    let (mut at_once, mut in_turn) = (pool.clone(), pool.clone());
    at_once.meld(joined);
    in_turn.meld(&group.a);
    let between = in_turn.clone();
    in_turn.meld(&group.b);
    let full = pool.kept().len() == pool.limits().n() as usize;
    let writes = |record: &Record| record.points.iter().any(|point| pool.writes(point));
    add("j commits", true);
    add("j commits, and both write", writes(a) && writes(b));
    add("j commits, and neither writes", !writes(a) && !writes(b));
    add(
        "j commits in a full pool, and writes",
        full && (writes(a) || writes(b)),
    );
    add(
        "j commits at p = 4,294,967,293, and b writes",
        pool.position() == u32::MAX - 2 && writes(b),
    );
    let kinds = |record: &Record, wanted: fn(Kind) -> bool| {
        let mut points = record.points.iter();
        points.any(|point| wanted(point.kind) && pool.writes(point))
    };
    add(
        "a deletes a live key",
        kinds(a, |kind| kind == Kind::Delete),
    );
    add(
        "b deletes a live key",
        kinds(b, |kind| kind == Kind::Delete),
    );
    let nothing = |record: &Record| {
        let mut points = record.points.iter();
        points.any(|point| point.kind == Kind::Delete && !pool.writes(point))
    };
    add("a deletes what is not live", nothing(a));
    add("b deletes what is not live", nothing(b));
    let reads_first = |wanted: fn(Kind) -> bool| {
        let mut points = b.points.iter().filter(|point| wanted(point.kind));
        points.any(|point| pool.writes(point) && a.touches(point.key))
    };
    add(
        "b puts what a has looked at",
        reads_first(|kind| matches!(kind, Kind::Put(_))),
    );
    add(
        "b deletes what a has looked at",
        reads_first(|kind| kind == Kind::Delete),
    );
    let gone = |before: &State, after: &State| {
        let mut keys = before.kept().keys();
        keys.any(|key| !after.kept().contains_key(key))
    };
    add("j drops tombstones", gone(pool, &at_once));
    add("a drops tombstones", gone(pool, &between));
    add(
        "b drops tombstones that a did not",
        gone(&between, &in_turn),
    );
    add(
        "one way keeps a tombstone that the other drops",
        at_once.kept().len() != in_turn.kept().len(),
    );
    let same = |state: &State| -> Vec<Kept> { state.kept().values().copied().collect() };
    add("positions differ", same(&at_once) != same(&in_turn));
}

/// Where a commits and b is in conflict: is it through a tombstone that was still needed?
fn through_b(pool: &State, a: &[u8], b: &Record, exactly: bool, tally: &mut Tally) {
    let mut add = |name, met: bool| *tally.entry(name).or_default() += usize::from(met);
    let beating = pool.kept().iter();
    let beating = beating.filter(|(&key, kept)| kept.position > b.snapshot && b.touches(key));
    let beating: Vec<&Kept> = beating.map(|(_, kept)| kept).collect();
    let needed = beating.iter().all(|kept| kept.payload.is_none());
    let edge = beating.iter().all(|kept| kept.position == b.snapshot + 1);
    let mut after = pool.clone();
    after.meld(a);
    let dropped = pool
        .kept()
        .keys()
        .any(|key| !after.kept().contains_key(key));
    add("b needs a tombstone", needed);
    add(
        "v − s = Z, and b needs a tombstone at s + 1",
        exactly && needed && edge,
    );
    add(
        "v − s = Z, b needs a tombstone at s + 1, and a drops others",
        exactly && needed && edge && dropped,
    );
}
