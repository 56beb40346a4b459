//! Two records as one, by single calls and by R58: two ways agree, every case is met often,
//! and every mistake is caught.

use compare::joins::groups::Group;
use compare::joins::{met, met_often, seen, Joined, Joining, Tally};
use compare::mistaken::joiner::{self, JoinMistake};
use reference::record::MOST_LENGTH;
use reference::{Answer, Record};

/// How many calls of joining, and how many groups for R58.
const CALLS: u64 = 6_000;
const GROUPS: u64 = 20_000;

#[test]
fn every_case_of_joining_is_met() {
    let mut tally = Tally::new();
    for seed in 0..CALLS {
        let call = Joining::of(seed);
        met::count(&call, call.outcome().0, &mut tally);
    }
    met_often(&tally, met::CASES);
}

/// What the reference joins is well formed, and says no more and no less than the two.
#[test]
fn what_is_joined_names_and_scans_what_either_does() {
    for seed in 0..CALLS {
        let call = Joining::of(seed);
        let (answer, size, out) = call.outcome();
        if answer != Answer::Committed {
            assert_eq!((size, &out), (0, &call.output), "seed {seed}");
            continue;
        }
        let [a, b, j] = [&call.a[..], &call.b, &out[..size]].map(Record::parse);
        let [a, b, j] = [a, b, j].map(|record| record.expect("it is well formed"));
        assert_eq!(out[size..], call.output[size..]);
        let ends = |record: &Record| -> Vec<u32> {
            let ends = record.scans.iter().flat_map(|scan| [scan.low, scan.high]);
            let keys = record.points.iter().map(|point| point.key);
            keys.chain(ends).collect()
        };
        for end in [&a, &b, &j].into_iter().flat_map(ends) {
            for key in [end.wrapping_sub(1), end, end.wrapping_add(1)] {
                let touched = a.touches(key) || b.touches(key);
                assert_eq!(j.touches(key), touched, "seed {seed}, key {key}");
                let named = |record: &Record| {
                    let point = record.points.iter().find(|point| point.key == key);
                    point.map(|point| point.kind)
                };
                let wanted = match (named(&a), named(&b)) {
                    (None, of_b) => of_b,
                    (of_a, None | Some(reference::Kind::Read)) => of_a,
                    (_, of_b) => of_b,
                };
                assert_eq!(named(&j), wanted, "seed {seed}, key {key}");
            }
        }
    }
}

#[test]
fn every_mistake_in_joining_is_caught_by_single_calls() {
    let calls: Vec<Joining> = (0..CALLS).map(Joining::of).collect();
    let outcomes: Vec<Joined> = calls.iter().map(Joining::outcome).collect();
    for (seed, (call, outcome)) in calls.iter().zip(&outcomes).enumerate() {
        assert_eq!(call.mistaken(None), *outcome, "seed {seed}");
    }
    for answer in [Answer::Committed, Answer::OutputShort, Answer::CannotJoin] {
        let count = outcomes.iter().filter(|outcome| outcome.0 == answer);
        assert!(count.count() > 500, "{answer:?}");
    }
    for &mistake in JoinMistake::ALL {
        let both = calls.iter().zip(&outcomes);
        let differ = both.filter(|(call, outcome)| call.mistaken(Some(mistake)) != **outcome);
        let count = differ.count();
        println!("{mistake:?}: {count} of {} calls", calls.len());
        assert!(count > 2, "not caught: {}", mistake.words());
    }
}

#[test]
fn joined_or_one_by_one() {
    let mut tally = Tally::new();
    for seed in 0..GROUPS {
        let group = Group::of(seed);
        let Some(joined) = group.joined() else {
            continue;
        };
        let said = group.by_reference(&joined);
        seen::count(&group, &joined, &said, &mut tally);
        if group.spoken_of() {
            assert_eq!(said.broken(), None, "seed {seed}");
        }
    }
    met_often(&tally, seen::CASES);
}

/// The mistakes by which R58 does not hold: something is lost or let pass, or what is joined
/// is malformed.
const BREAKING: [JoinMistake; 23] = [
    JoinMistake::OldEntryKept,
    JoinMistake::DeleteNotTaken,
    JoinMistake::PutNotTaken,
    JoinMistake::BothEntriesKept,
    JoinMistake::ReadsDropped,
    JoinMistake::ReadsDroppedWhereBothRead,
    JoinMistake::OlderScansDropped,
    JoinMistake::ScansNotHeld,
    JoinMistake::PointsNotHeld,
    JoinMistake::ReadsNotHeld,
    JoinMistake::DeletesNotHeld,
    JoinMistake::ScannedDeletesNotHeld,
    JoinMistake::PutsNotHeld,
    JoinMistake::LowEndNotHeld,
    JoinMistake::HighEndNotHeld,
    JoinMistake::OneKeyNotShared,
    JoinMistake::ChainLeftAsTwo,
    JoinMistake::InnerHighTaken,
    JoinMistake::EqualScansKept,
    JoinMistake::HighWraps,
    JoinMistake::KeysSigned,
    JoinMistake::SnapshotsNotCompared,
    JoinMistake::LaterSnapshotTaken,
];

#[test]
fn mistakes_break_what_is_said_of_both_ways() {
    let mut groups: Vec<Group> = (0..GROUPS).map(Group::of).collect();
    groups.retain(Group::spoken_of);
    let joined: Vec<Option<Vec<u8>>> = groups.iter().map(Group::joined).collect();
    let mut out = vec![0; MOST_LENGTH + 2];
    for mistake in BREAKING {
        let mut count = 0;
        for (group, joined) in groups.iter().zip(&joined) {
            let (answer, size) = joiner::join(Some(mistake), &group.a, &group.b, &mut out);
            // Where it is joined right, R58 holds.
            let wrong = answer == Answer::Committed && joined.as_deref() != Some(&out[..size]);
            count += usize::from(wrong && group.by_reference(&out[..size]).broken().is_some());
        }
        println!("{mistake:?}: {count} of {} groups", groups.len());
        assert!(count > 2, "not shown: {}", mistake.words());
    }
}
