//! Logs from seeds catch every mistake, and small logs show it.

use compare::calls::{Call, Outcome};
use compare::check::difference;
use compare::generate;
use compare::mistaken::feed::{self, FeedMistake};
use compare::mistaken::reason::{self, ReasonMistake};
use compare::mistaken::writer::WriteMistake;
use compare::mistaken::{lines, Mistake};
use compare::setting::Setting;
use compare::shrink::shrink;
use compare::trial::Trial;
use compare::writes::{Refreshing, Writing, Written};
use reference::program::MOST_N;
use reference::Answer;

/// The page form.
const PARTS: Setting = Setting {
    full: false,
    unread: false,
    parts: true,
    reasons: false,
};

/// The reasons.
const REASONS: Setting = Setting {
    full: false,
    unread: false,
    parts: false,
    reasons: true,
};

/// The page form with this mistake.
fn misfed(mistake: Option<FeedMistake>) -> impl Fn(&Trial) -> Result<String, String> {
    move |trial| {
        let sizes = trial.sizes.as_deref().expect("the log is in parts");
        Ok(feed::lines(mistake, &trial.input, sizes))
    }
}

#[test]
fn without_a_mistake_nothing_differs() {
    for seed in 0..1_500 {
        let found = difference(
            Setting::default(),
            &|trial| Ok(lines(None, &trial.input)),
            &Trial::whole(generate::input(seed)),
        );
        assert_eq!(found, None, "seed {seed}");
    }
}

/// How many logs that show a mistake are cut down; the smallest counts, since from a
/// malformed record points cannot go.
const FEW: usize = 3;

/// Those that show only in a record of 256 points or more, or in one that is malformed behind
/// its 64th point or 8th scan, from which points cannot go.
const LARGE: &[Mistake] = &[
    Mistake::CountsLastByte,
    Mistake::OrderOfFirstPoints,
    Mistake::OrderOfFirstScans,
    Mistake::PointsAboveTaken,
    Mistake::PointsFullRefused,
];

#[test]
fn every_mistake_is_caught_and_cut_down() {
    let trials: Vec<Trial> = (0..2_000)
        .map(|seed| Trial::whole(generate::input(seed)))
        .collect();
    for &mistake in Mistake::ALL {
        let program = |trial: &Trial| Ok(lines(Some(mistake), &trial.input));
        let mut differs = |trial: &Trial| difference(Setting::default(), &program, trial).is_some();
        let found: Vec<usize> = (0..trials.len())
            .filter(|&seed| differs(&trials[seed]))
            .take(FEW)
            .collect();
        let small = found
            .iter()
            .map(|&seed| shrink(MOST_N, &trials[seed], &mut differs).input.len())
            .min()
            .unwrap_or_else(|| panic!("not caught: {}", mistake.words()));
        println!("{mistake:?}: seeds {found:?}, cut down to {small} bytes");
        let most = match LARGE.contains(&mistake) {
            true => 14_000,
            false => 1_000,
        };
        assert!(small < most, "{mistake:?}: {small} bytes");
    }
}

#[test]
fn fed_in_parts_without_a_mistake_nothing_differs() {
    for seed in 0..800 {
        for trial in generate::in_parts(seed) {
            let found = difference(PARTS, &misfed(None), &trial);
            assert_eq!(found, None, "seed {seed}, sizes {:?}", trial.sizes);
        }
    }
}

/// In few logs, and cut down to a few bytes and parts. Those that lines do not
/// show are not caught by any: the list of them says no more than is true.
#[test]
fn every_mistake_of_feeding_is_caught_by_lines_and_cut_down() {
    let trials: Vec<Trial> = (0..200).flat_map(generate::in_parts).collect();
    for &mistake in FeedMistake::ALL {
        let program = misfed(Some(mistake));
        let mut differs = |trial: &Trial| difference(PARTS, &program, trial).is_some();
        let found = trials.iter().filter(|trial| differs(trial));
        let found: Vec<&Trial> = found.take(FEW).collect();
        if FeedMistake::IN_CALLS_ONLY.contains(&mistake) {
            assert!(found.is_empty(), "lines show it: {}", mistake.words());
            continue;
        }
        let small = found
            .iter()
            .map(|trial| shrink(MOST_N, trial, &mut differs))
            .min_by_key(|small| small.input.len())
            .unwrap_or_else(|| panic!("not caught: {}", mistake.words()));
        let (bytes, sizes) = (small.input.len(), small.sizes.unwrap_or_default());
        println!("{mistake:?}: cut down to {bytes} bytes, sizes {sizes:?}");
        let most = match mistake {
            // It takes a record that is longer.
            FeedMistake::CarryOfBefore => 1_000,
            _ => 100,
        };
        assert!(bytes < most, "{mistake:?}: {bytes} bytes");
        assert!(sizes.len() < 4, "{mistake:?}: sizes {sizes:?}");
    }
}

#[test]
fn every_mistake_of_feeding_is_caught_by_single_calls() {
    let calls: Vec<(Call, Outcome)> = (0..3_000)
        .map(Call::of)
        .map(|call| (call.clone(), call.outcome()))
        .collect();
    for (seed, (call, outcome)) in calls.iter().enumerate() {
        assert_eq!(call.mistaken(None), *outcome, "seed {seed}");
    }
    for &mistake in FeedMistake::ALL {
        // It goes wrong only from one call to the next.
        if mistake == FeedMistake::MoreHasLooks {
            continue;
        }
        let differs = |(call, outcome): &&(Call, Outcome)| call.mistaken(Some(mistake)) != *outcome;
        let count = calls.iter().filter(differs).count();
        println!("{mistake:?}: {count} of {} calls", calls.len());
        assert!(count > 2, "not caught: {}", mistake.words());
    }
}

#[test]
fn reasons_by_kept_positions_are_those_by_committed_writes() {
    for seed in 0..1_500 {
        for trial in REASONS.trials(seed) {
            let program = |trial: &Trial| Ok(reason::lines(None, &trial.input));
            assert_eq!(difference(REASONS, &program, &trial), None, "seed {seed}");
        }
    }
}

/// In few logs, and cut down to a few records.
#[test]
fn every_mistake_in_reasons_is_caught_and_cut_down() {
    let trials: Vec<Trial> = (0..150).flat_map(|seed| REASONS.trials(seed)).collect();
    for &mistake in ReasonMistake::ALL {
        let program = |trial: &Trial| Ok(reason::lines(Some(mistake), &trial.input));
        let mut differs = |trial: &Trial| difference(REASONS, &program, trial).is_some();
        let found: Vec<&Trial> = trials.iter().filter(|trial| differs(trial)).collect();
        assert!(found.len() > 2, "not caught: {}", mistake.words());
        let small = found[..FEW]
            .iter()
            .map(|trial| shrink(REASONS.most(), trial, &mut differs).input.len())
            .min()
            .unwrap_or(0);
        println!(
            "{mistake:?}: {} logs, cut down to {small} bytes",
            found.len()
        );
        let most = match mistake {
            // It takes 256 points.
            ReasonMistake::PointInAByte => 3_000,
            _ => 1_000,
        };
        assert!(small < most, "{mistake:?}: {small} bytes");
    }
}

/// How often each answer has to occur among so many calls.
fn frequent(answers: &[Answer], found: &[Answer]) {
    for answer in answers {
        let count = found.iter().filter(|other| *other == answer).count();
        assert!(count > 30, "{answer:?}: {count} times");
    }
}

/// The writer and refresh, by single calls: lines do not show them.
#[test]
fn every_mistake_in_writing_is_caught_by_single_calls() {
    let writes: Vec<Writing> = (0..2_000).map(Writing::of).collect();
    let written: Vec<Written> = writes.iter().map(Writing::outcome).collect();
    for (seed, (call, outcome)) in writes.iter().zip(&written).enumerate() {
        assert_eq!(call.mistaken(None), *outcome, "seed {seed}");
    }
    let answers: Vec<Answer> = written.iter().map(|written| written.0).collect();
    frequent(
        &[Answer::Committed, Answer::Malformed, Answer::OutputShort],
        &answers,
    );
    let mistakes = WriteMistake::ALL.iter().copied();
    for mistake in mistakes.filter(|mistake| !mistake.in_refresh()) {
        let calls = writes.iter().zip(&written);
        let differ = calls.filter(|(call, outcome)| call.mistaken(Some(mistake)) != **outcome);
        let count = differ.count();
        println!("{mistake:?}: {count} of {} calls", writes.len());
        assert!(count > 2, "not caught: {}", mistake.words());
    }
}

#[test]
fn every_mistake_in_refreshing_is_caught_by_single_calls() {
    let calls: Vec<Refreshing> = (0..3_000).map(Refreshing::of).collect();
    let outcomes: Vec<(Answer, Vec<u8>)> = calls.iter().map(Refreshing::outcome).collect();
    for (seed, (call, outcome)) in calls.iter().zip(&outcomes).enumerate() {
        assert_eq!(call.mistaken(None), *outcome, "seed {seed}");
    }
    let answers: Vec<Answer> = outcomes.iter().map(|outcome| outcome.0).collect();
    frequent(
        &[
            Answer::Committed,
            Answer::Conflict,
            Answer::TooOld,
            Answer::Malformed,
            Answer::Ahead,
            Answer::OutputShort,
        ],
        &answers,
    );
    let mistakes = WriteMistake::ALL.iter().copied();
    for mistake in mistakes.filter(|mistake| mistake.in_refresh()) {
        let both = calls.iter().zip(&outcomes);
        let differ = both.filter(|(call, outcome)| call.mistaken(Some(mistake)) != **outcome);
        let count = differ.count();
        println!("{mistake:?}: {count} of {} calls", calls.len());
        assert!(count > 2, "not caught: {}", mistake.words());
    }
}
