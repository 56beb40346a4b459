//! Two records as one, from seeds: what the library says and leaves is what the independent
//! implementation does, and R58 by running it, in pools that a log has made and in pools that
//! none need have made.

mod common;

use common::{fresh, join, lookup, means, meld, raw};
use compare::joins::groups::Group;
use compare::joins::{met, met_often, seen, Joining, Tally};
use emuparasol::MOST_RECORD;
use reference::layout::image_of;

/// Answer, size and every byte of the output, on pairs at every edge.
#[test]
fn calls_from_seeds_say_and_leave_what_the_reference_does() {
    let mut tally = Tally::new();
    for seed in 0..6_000 {
        let call = Joining::of(seed);
        let (answer, size, output) = call.outcome();
        let mut left = call.output.clone();
        let said = raw::join(&call.a, &call.b, &mut left);
        assert_eq!(said, (answer.number(), size), "seed {seed}");
        assert!(left == output, "seed {seed}");
        let by_types = join(&call.a, &call.b, call.output.len());
        assert!(by_types == (answer.number(), output), "seed {seed}");
        met::count(&call, answer, &mut tally);
    }
    met_often(&tally, met::CASES);
}

/// The pool of a group: after its log, or, where it has none, the bytes that mean it.
fn pool_of(group: &Group) -> Vec<u8> {
    let Some(log) = &group.log else {
        return image_of(&group.pool);
    };
    let mut pool = fresh(group.pool.limits());
    for record in log {
        raw::meld(&mut pool, record);
    }
    pool
}

#[test]
fn joined_or_one_by_one() {
    let mut tally = Tally::new();
    for seed in 0..20_000 {
        let group = Group::of(seed);
        let (answer, output) = join(&group.a, &group.b, MOST_RECORD);
        let Some(joined) = group.joined() else {
            assert_eq!(answer, 12, "seed {seed}");
            continue;
        };
        assert_eq!((answer, &output[..joined.len()]), (0, &joined[..]));
        let pool = pool_of(&group);
        means(&pool, &group.pool);
        let said = group.both_ways(
            &pool,
            &joined,
            |pool, record| meld(pool, record).0,
            |pool, key| {
                let (answer, payload, position) = lookup(pool, key);
                assert_eq!(answer, 0);
                (position > 0).then_some(payload)
            },
        );
        assert_eq!(said, group.by_reference(&joined), "seed {seed}");
        if group.spoken_of() {
            assert_eq!(said.broken(), None, "seed {seed}");
        }
        seen::count(&group, &joined, &said, &mut tally);
    }
    met_often(&tally, seen::CASES);
}
