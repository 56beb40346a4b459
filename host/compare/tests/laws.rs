//! What docs/RULES.md says of every log, seen on logs from seeds.

use compare::generate;
use compare::mistaken::{self, Mistake};
use reference::log::parts;
use reference::pages::{calls, cut};
use reference::program::{join, lines, run, split};
use reference::random::Random;
use reference::refresh::{in_force, refresh};
use reference::{Answer, Ending, Fed, Kind, Limits, Point, Record, Said, Scan, State, Verdict};

/// The limits and the records of a seed's input, if its limits are good and it
/// is not too long to keep every state of it.
fn short_log(seed: u64) -> Option<(Limits, Vec<Vec<u8>>)> {
    let input = generate::input(seed);
    let (limits, log) = split(&input).ok()?;
    let found: Vec<Vec<u8>> = parts(log).0.iter().map(|part| part.to_vec()).collect();
    (found.len() < 400).then_some((limits, found))
}

/// The states before each record, and after the last.
fn states(limits: Limits, parts: &[Vec<u8>]) -> Vec<State> {
    let mut state = State::new(limits);
    let mut states = vec![state.clone()];
    for part in parts {
        state.meld(part);
        states.push(state.clone());
    }
    states
}

#[test]
fn row_1_agrees_with_the_walk() {
    for seed in 0..2_000 {
        let Some((limits, parts)) = short_log(seed) else {
            continue;
        };
        let mut state = State::new(limits);
        for part in &parts {
            if let Ok(record) = state.admit(part) {
                let (_, found) = state.search(&record);
                assert_eq!(found, state.conflict(&record), "seed {seed}");
            }
            state.meld(part);
        }
    }
}

#[test]
fn at_most_n_keys_are_kept_and_positions_are_in_range() {
    for seed in 0..2_000 {
        let Some((limits, parts)) = short_log(seed) else {
            continue;
        };
        let mut state = State::new(limits);
        for part in &parts {
            state.meld(part);
            assert!(state.kept().len() <= limits.n() as usize, "seed {seed}");
            let range = 1..=state.position();
            let mut kept = state.kept().values();
            assert!(kept.all(|kept| range.contains(&kept.position)));
        }
    }
}

/// The bound of "Looks".
fn looks_bound(record: &Record) -> u32 {
    65 + 64 * (record.points.len() + 2 * record.scans.len()) as u32
}

#[test]
fn the_bounds_of_the_fullest_records_are_5185_and_73793() {
    let fullest = |points, scans| Record {
        snapshot: 0,
        points: vec![Point::read(0); points],
        scans: vec![Scan { low: 0, high: 0 }; scans],
    };
    assert_eq!(looks_bound(&fullest(64, 8)), 5_185);
    assert_eq!(looks_bound(&fullest(1_024, 64)), 73_793);
}

#[test]
fn looks_stay_under_the_bound_on_logs() {
    for seed in 0..2_000 {
        let Some((limits, parts)) = short_log(seed) else {
            continue;
        };
        let mut state = State::new(limits);
        for part in &parts {
            let verdict = state.meld(part);
            let bound = Record::parse(part).map_or(0, |record| looks_bound(&record));
            assert!(verdict.looks <= bound, "seed {seed}");
        }
    }
}

#[test]
fn looks_stay_under_the_bound_on_random_states() {
    let mut random = Random::new(5);
    for _ in 0..300 {
        let mask = random.pick(&[u32::MAX, 0xFFFF, 0x3FF, 0xFF00_00FF, 0x5555_5555]);
        let state = random_state(mask, &mut random);
        let record = missing_record(&state, mask, &mut random);
        let (looks, _) = state.search(&record);
        assert!(looks <= looks_bound(&record));
    }
}

/// A state of some hundred keys, all written above snapshot 0.
fn random_state(mask: u32, random: &mut Random) -> State {
    let mut state = State::new(Limits::new(2_000, 4_096).unwrap());
    for _ in 0..1 + random.below(30) {
        let mut keys: Vec<u32> = (0..64).map(|_| random.word() & mask).collect();
        keys.sort_unstable();
        keys.dedup();
        let record = Record {
            snapshot: state.position(),
            points: keys.iter().map(|&key| Point::put(key, 1)).collect(),
            scans: vec![],
        };
        assert_eq!(state.meld(&record.to_bytes()).answer, Answer::Committed);
    }
    state
}

/// A full record with snapshot 0 that names keys next to kept ones and scans
/// gaps, so that the walk goes deep and mostly finds nothing.
fn missing_record(state: &State, mask: u32, random: &mut Random) -> Record {
    let kept: Vec<u32> = state.kept().keys().copied().collect();
    let misses = |key: &u32| !state.kept().contains_key(key);
    let (points, most_scans) = random.pick(&[(64, 8), (1_024, 64)]);
    let mut keys: Vec<u32> = (0..3 * points)
        .map(|_| (random.pick(&kept) ^ (1 << random.below(32))) & mask)
        .filter(misses)
        .collect();
    keys.sort_unstable();
    keys.dedup();
    keys.truncate(points);
    let gaps = kept.windows(2).filter(|two| two[1] - two[0] > 2);
    let mut scans: Vec<Scan> = gaps
        .map(|two| Scan {
            low: two[0] + 1,
            high: two[1] - 1,
        })
        .collect();
    scans.truncate(random.below(most_scans + 1));
    let points = keys.into_iter().map(Point::read).collect();
    Record {
        snapshot: 0,
        points,
        scans,
    }
}

/// A record refreshed at several stops: the record in force at the end, or the
/// answer that ended the chain.
fn chain(original: &[u8], stops: &[&State]) -> Result<Vec<u8>, Answer> {
    let mut current = original.to_vec();
    for state in stops {
        let mut out = vec![0; current.len()];
        let answer = refresh(state, &current, &mut out);
        let part = in_force(answer, &current, &out);
        if part.is_empty() {
            return Err(answer);
        }
        current = part.to_vec();
    }
    Ok(current)
}

/// A refreshed record has the verdict of the original in no more looks and
/// leaves the same state, unless the original has become too old; a chain that
/// ends early ends with the answer that the original gets, or the original has
/// become too old.
#[test]
fn refresh_chains_keep_the_verdict_in_no_more_looks() {
    let mut random = Random::new(6);
    let mut outcomes = [0; 4];
    let mut of_version_2 = 0;
    for seed in 0..4_000 {
        let Some((limits, parts)) = short_log(seed) else {
            continue;
        };
        // Later on only logs with records of version 2.
        if seed >= 800 && parts.iter().all(|part| part[2] != 2) {
            continue;
        }
        let states = states(limits, &parts);
        for (p, original) in parts.iter().enumerate() {
            let mut places: Vec<usize> = (0..random.below(4))
                .map(|_| p.saturating_sub(random.below(limits.z() as usize + 3)))
                .collect();
            places.sort_unstable();
            let stops: Vec<&State> = places.iter().map(|&place| &states[place]).collect();
            let (mut plain, mut fresh) = (states[p].clone(), states[p].clone());
            let verdict = plain.meld(original);
            match chain(original, &stops) {
                Ok(_) if verdict.answer == Answer::TooOld => outcomes[0] += 1,
                Ok(part) => {
                    let refreshed = fresh.meld(&part);
                    assert_eq!(refreshed.answer, verdict.answer, "seed {seed}");
                    assert!(refreshed.looks <= verdict.looks, "seed {seed}");
                    assert_eq!(fresh, plain, "seed {seed}");
                    outcomes[1] += usize::from(&part != original);
                    of_version_2 += usize::from(&part != original && part[2] == 2);
                }
                Err(_) if verdict.answer == Answer::TooOld => outcomes[2] += 1,
                Err(answer) => {
                    assert_eq!(answer, verdict.answer, "seed {seed}");
                    outcomes[3] += 1;
                }
            }
        }
    }
    assert!(outcomes.iter().all(|&count| count > 100), "{outcomes:?}");
    assert!(of_version_2 > 10, "{of_version_2}");
}

/// R54: a log that led to "end" by the rule of versions and lengths of before, with no 2
/// for a version, has the verdicts and looks that it has by that rule and all others of
/// today; and a log that has one parts from it there.
#[test]
fn a_log_of_before_has_its_verdicts() {
    let (mut same, mut parted, mut stopped) = (0, 0, 0);
    for seed in 0..2_000 {
        let input = generate::input(seed);
        let Ok((_, log)) = split(&input) else {
            continue;
        };
        let (records, _) = parts(log);
        let before = mistaken::lines(Some(Mistake::RuleOfBefore), &input);
        let today = lines(&input);
        let two = records.iter().position(|part| part[2] == 2);
        let longer = records.iter().position(|part| part.len() > 905);
        if before.ends_with("end\n") && two.is_none() {
            assert_eq!(before, today, "seed {seed}");
            same += 1;
        }
        // The lines before the first record of version 2, or with a longer length, are those
        // of today; there the card of before answers 4, or says 11 and stays.
        let first = two.into_iter().chain(longer).min();
        if let Some(place) = first {
            let (then, now): (Vec<&str>, Vec<&str>) =
                (before.lines().collect(), today.lines().collect());
            assert_eq!(then[..place], now[..place], "seed {seed}");
            if records[place].len() > 905 {
                assert_eq!(then[place..], ["11"], "seed {seed}");
                stopped += 1;
            } else {
                assert!(then[place].ends_with(" 4 0"), "seed {seed}");
                parted += usize::from(then[place] != now[place]);
            }
        }
    }
    assert!(
        same > 1_000 && parted > 20 && stopped > 20,
        "{same} {parted} {stopped}"
    );
}

/// R55: where deletes of keys that are not live are written, as they once were, a log has
/// the verdicts and looks of today up to the first of them that commits.
#[test]
fn a_card_that_writes_every_delete_parts_at_the_first_delete_of_nothing() {
    let (mut same, mut parted) = (0, 0);
    for seed in 0..2_000 {
        let input = generate::input(seed);
        let Some((limits, records)) = short_log(seed) else {
            continue;
        };
        let mut state = State::new(limits);
        let first = records.iter().position(|part| {
            let before = state.clone();
            let committed = state.meld(part).answer == Answer::Committed;
            let points = Record::parse(part).map_or(Vec::new(), |record| record.points);
            let nothing = |point: &Point| point.kind == Kind::Delete && !before.writes(point);
            committed && points.iter().any(nothing)
        });
        let before = mistaken::lines(Some(Mistake::DeletesAlwaysWrite), &input);
        let today = lines(&input);
        match first {
            None => {
                assert_eq!(before, today, "seed {seed}");
                same += 1;
            }
            Some(place) => {
                let then = before.lines().take(place);
                assert!(then.eq(today.lines().take(place)), "seed {seed}");
                parted += usize::from(before != today);
            }
        }
    }
    assert!(same > 100 && parted > 1_000, "{same} {parted}");
}

#[test]
fn a_cut_log_keeps_its_verdicts() {
    for seed in 0..100 {
        let input = generate::input(seed);
        let (Ok((limits, log)), Ok(whole)) = (split(&input), run(&input)) else {
            continue;
        };
        if whole.ending != Ending::End || log.len() > 3_000 {
            continue;
        }
        let mut end = 0;
        let mut ends = vec![0];
        for part in parts(log).0 {
            end += part.len();
            ends.push(end);
        }
        for cut in 0..=log.len() {
            let found = run(&join(limits.n(), limits.z(), &log[..cut])).unwrap();
            let count = ends[1..].iter().filter(|&&end| end <= cut).count();
            assert_eq!(found.verdicts, whole.verdicts[..count], "seed {seed}");
            let wanted = match ends.contains(&cut) {
                true => Ending::End,
                false => Ending::Torn,
            };
            assert_eq!(found.ending, wanted, "seed {seed}");
        }
    }
}

#[test]
fn the_same_seed_gives_the_same_log() {
    for seed in 0..200 {
        assert_eq!(generate::input(seed), generate::input(seed));
    }
}

/// Each answer that a log can give is a useful share of what the logs give.
#[test]
fn every_answer_is_frequent() {
    let mut answers = [0; Answer::ALL.len()];
    // "end", 10 and 11.
    let mut ends = [0; 3];
    let mut refused = 0;
    for seed in 0..2_000 {
        match run(&generate::input(seed)) {
            Err(_) => refused += 1,
            Ok(run) if run.verdicts.len() > 400 => {}
            Ok(run) => {
                for verdict in &run.verdicts {
                    answers[usize::from(verdict.answer.number())] += 1;
                }
                ends[match run.ending {
                    Ending::End => 0,
                    Ending::Torn => 1,
                    Ending::Impossible => 2,
                }] += 1;
            }
        }
    }
    let records: usize = answers.iter().sum();
    println!("{answers:?} {ends:?} {refused}");
    for (number, &count) in answers[..6].iter().enumerate() {
        assert!(
            count * 50 > records,
            "answer {number}: {count} of {records}"
        );
    }
    assert!(refused > 30 && ends[0] > 1_000 && ends[1] > 50 && ends[2] > 50);
}

/// The verdict of a call that decided a record.
fn verdict_of(fed: &Fed) -> Option<Verdict> {
    match fed.said {
        Said::Answer(answer) if answer < Answer::UnfitPool => Some(Verdict {
            answer,
            looks: fed.looks,
        }),
        _ => None,
    }
}

/// R49: whatever parts a log is cut into, it has the verdicts, the looks, the
/// ending and the state of the log walked at once.
#[test]
fn a_log_in_parts_is_the_log() {
    for seed in 0..600 {
        for trial in generate::in_parts(seed) {
            let (Ok((limits, log)), Ok(whole)) = (split(&trial.input), run(&trial.input)) else {
                continue;
            };
            let mut state = State::new(limits);
            let sizes = trial.sizes.unwrap_or_default();
            let fed = calls(&mut state, &cut(log, &sizes));
            let verdicts: Vec<Verdict> = fed.iter().filter_map(verdict_of).collect();
            assert_eq!(verdicts, whole.verdicts, "seed {seed}, sizes {sizes:?}");
            let ending = whole.ending.answer().map_or(Said::End, Said::Answer);
            assert_eq!(fed.last().map(|fed| fed.said), Some(ending));
            assert_eq!(state, whole.state);
        }
    }
}
