//! The cases have in them what docs/RULES.md names, and catch what they say.

use std::collections::BTreeSet;

use cases::{all, ideas, sequence, Case, InParts};
use compare::mistaken::feed::{self, FeedMistake};
use compare::mistaken::reason::{self, ReasonMistake};
use compare::mistaken::{lines, Mistake};
use reference::joiner;
use reference::log::parts;
use reference::pages;
use reference::program::{self, run, split};
use reference::{Answer, Flaw, Record};

/// Does a program with this mistake print something else for this case?
fn shows(case: &Case, mistake: Option<Mistake>) -> bool {
    lines(mistake, &case.input) != program::lines(&case.input)
}

#[test]
fn the_conformance_set_catches_every_mistake() {
    let cases = ideas::all();
    for &mistake in Mistake::ALL {
        let caught = cases.iter().filter(|case| shows(case, Some(mistake)));
        let names: Vec<&str> = caught.map(|case| case.name.as_str()).collect();
        println!("{}: {}", mistake.words(), names.join(", "));
        assert!(!names.is_empty(), "not caught: {}", mistake.words());
    }
}

#[test]
fn a_third_way_to_the_answers_agrees_on_every_case() {
    for case in all() {
        assert!(!shows(&case, None), "{}", case.name);
    }
}

/// Does a page form with this mistake print something else for this case?
fn shows_in_parts(InParts { case, sizes }: &InParts, mistake: Option<FeedMistake>) -> bool {
    feed::lines(mistake, &case.input, sizes) != pages::lines(&case.input, sizes)
}

#[test]
fn the_conformance_set_in_parts_catches_every_mistake_that_lines_show() {
    let cases = ideas::parts::all();
    for case in &cases {
        assert!(!shows_in_parts(case, None), "{}", case.case.name);
    }
    for &mistake in FeedMistake::ALL {
        let caught = cases
            .iter()
            .filter(|case| shows_in_parts(case, Some(mistake)));
        let names: Vec<&str> = caught.map(|case| case.case.name.as_str()).collect();
        println!("{}: {}", mistake.words(), names.join(", "));
        let shown = !FeedMistake::IN_CALLS_ONLY.contains(&mistake);
        assert_eq!(!names.is_empty(), shown, "{}", mistake.words());
    }
}

/// The cases of torn logs and impossible lengths, and the mistake that each is made for.
const ENDINGS: &[(&str, Mistake)] = &[
    ("log-length-904-past-the-end", Mistake::LengthOfBefore),
    ("log-length-6-short", Mistake::LengthBelowTorn),
    ("log-length-6-alone", Mistake::ImpossibleAloneTorn),
    ("log-length-0-alone", Mistake::ZeroIsEnd),
    ("log-length-65535", Mistake::ErasedIsEnd),
    ("log-length-903-alone", Mistake::LengthAloneImpossible),
    ("log-three-bytes-left", Mistake::TornRecordImpossible),
    ("log-three-bytes-left-impossible", Mistake::LengthOfBefore),
    ("log-one-byte-left-ff", Mistake::LastByteJudged),
    ("log-impossible-first", Mistake::LengthOfBefore),
    ("log-impossible-behind-refusals", Mistake::MalformedTorn),
];

/// The same in parts.
const ENDINGS_IN_PARTS: &[(&str, FeedMistake)] = &[
    ("parts-impossible-past-the-end", FeedMistake::LengthOfBefore),
    ("parts-impossible-last", FeedMistake::ImpossibleLate),
    ("parts-erased", FeedMistake::FirstByteJudged),
    ("parts-one-byte-left-ff", FeedMistake::OneByteImpossible),
    ("parts-length-alone", FeedMistake::TornImpossible),
    ("parts-three-bytes-left", FeedMistake::TornIsEnd),
    ("parts-torn-903", FeedMistake::TornForgotten),
];

/// The cases of version 2, and the mistakes that each is made for.
const LARGER: &[(&str, &[Mistake])] = &[
    (
        "version-2-unknown-before",
        &[Mistake::VersionTwoRefused, Mistake::RuleOfBefore],
    ),
    (
        "version-2-impossible-before",
        &[Mistake::LengthOfBefore, Mistake::RuleOfBefore],
    ),
    ("version-2-65-points", &[Mistake::VersionTwoPointsRefused]),
    ("version-2-9-scans", &[Mistake::VersionTwoScansRefused]),
    ("version-2-one-is-enough", &[Mistake::VersionTwoNeedsBoth]),
    (
        "version-2-64-points-8-scans",
        &[
            Mistake::VersionTwoAlwaysTaken,
            Mistake::VersionTwoFromFullPoints,
            Mistake::VersionTwoFromFullScans,
        ],
    ),
    ("version-2-nothing", &[Mistake::VersionTwoEmptyTaken]),
    (
        "version-1-255-points",
        &[Mistake::VersionOneAlwaysTaken, Mistake::LengthOfVersionOne],
    ),
    ("version-3", &[Mistake::VersionThreeTaken]),
    (
        "version-2-counts-of-one-byte",
        &[Mistake::CountsOfOneByte, Mistake::CountsOfTwoBytes],
    ),
    ("version-2-256-points", &[Mistake::CountsLittleEndian]),
    ("version-2-last-byte-of-a-count", &[Mistake::CountsLastByte]),
    (
        "version-2-1024-points",
        &[Mistake::PointsAboveTaken, Mistake::PointsFullRefused],
    ),
    (
        "version-2-64-scans",
        &[Mistake::ScansAboveTaken, Mistake::ScansFullRefused],
    ),
    ("version-2-counts-beyond", &[Mistake::MalformedTorn]),
    (
        "version-2-bytes-missing-or-left",
        &[Mistake::BytesLeftTaken],
    ),
    ("version-2-longest", &[Mistake::LengthNotMost]),
    ("version-2-keys-in-order", &[Mistake::OrderOfFirstPoints]),
    ("version-2-scans-in-order", &[Mistake::OrderOfFirstScans]),
    ("version-2-kinds", &[Mistake::KindsAnyTaken]),
    (
        "version-2-conflict-behind-64-points",
        &[Mistake::LaterPointsLeftOut],
    ),
    (
        "version-2-conflict-behind-8-scans",
        &[Mistake::LaterScansLeftOut],
    ),
    (
        "version-2-writes-behind-64-points",
        &[Mistake::LaterWritesLost],
    ),
    ("version-2-room", &[Mistake::RoomForOneMore]),
    (
        "version-2-looks",
        &[Mistake::LaterPointsLeftOut, Mistake::StopsNotCounted],
    ),
    (
        "version-1-length-904",
        &[Mistake::LengthOfVersionOne, Mistake::LengthOfBefore],
    ),
    ("log-length-13833", &[Mistake::LengthNotMost]),
    ("log-length-13833-torn", &[Mistake::TornRecordImpossible]),
    ("log-length-13833-alone", &[Mistake::LengthAloneImpossible]),
    ("log-length-13834", &[Mistake::LengthAboveTaken]),
    (
        "log-length-13834-past-the-end",
        &[Mistake::ImpossibleShortTorn],
    ),
    (
        "log-length-13834-alone",
        &[Mistake::ImpossibleAloneTorn, Mistake::LengthAboveTaken],
    ),
    ("log-length-13834-three-bytes", &[Mistake::LengthAboveTorn]),
    ("log-length-13834-first", &[Mistake::ImpossibleTorn]),
];

/// The same in parts.
const LARGER_IN_PARTS: &[(&str, FeedMistake)] = &[
    ("parts-version-2", FeedMistake::PartDropped),
    ("parts-version-2-carry-of-905", FeedMistake::CarryOfBefore),
    ("parts-version-2-longest", FeedMistake::LengthNotMost),
    ("parts-torn-13833", FeedMistake::TornForgotten),
    ("parts-length-13834", FeedMistake::ImpossibleLate),
    (
        "parts-length-13834-past-the-end",
        FeedMistake::LengthAboveTaken,
    ),
    ("parts-length-13833-alone", FeedMistake::LengthNotMost),
];

/// The cases of deletes that write nothing, and the mistakes that each is made for.
const NOTHING: &[(&str, &[Mistake])] = &[
    (
        "nothing-eight-rows",
        &[
            Mistake::DeletesAlwaysWrite,
            Mistake::TombstonesWrittenAgain,
            Mistake::TombstonesRenewed,
            Mistake::NothingNotNamed,
            Mistake::AbsentDeletesNeedRoom,
        ],
    ),
    ("nothing-beats-no-scan", &[Mistake::DeletesAlwaysWrite]),
    ("nothing-beats-no-point", &[Mistake::DeletesAlwaysWrite]),
    (
        "nothing-tombstone-keeps-its-position",
        &[Mistake::TombstonesWrittenAgain, Mistake::TombstonesRenewed],
    ),
    (
        "nothing-tombstone-dropped-at-its-first-age",
        &[Mistake::TombstonesWrittenAgain, Mistake::TombstonesRenewed],
    ),
    (
        "nothing-old-tombstone",
        &[Mistake::TombstonesWrittenAgain, Mistake::TombstonesRenewed],
    ),
    (
        "nothing-in-a-full-pool",
        &[Mistake::DeletesAlwaysWrite, Mistake::AbsentDeletesNeedRoom],
    ),
    ("nothing-beside-a-put", &[Mistake::AbsentDeletesNeedRoom]),
    (
        "nothing-old-tombstone-needs-no-room",
        &[
            Mistake::TombstoneDeletesNeedRoom,
            Mistake::TombstonesWrittenAgain,
        ],
    ),
    (
        "nothing-when-it-was-written",
        &[Mistake::DeletesDoNotConflict, Mistake::DeletesWriteNothing],
    ),
    (
        "nothing-still-conflicts",
        &[Mistake::NothingNotNamed, Mistake::DeletesDoNotConflict],
    ),
    (
        "nothing-has-its-looks",
        &[Mistake::AbsentDeleteNotNamed, Mistake::NothingNotNamed],
    ),
    (
        "nothing-takes-a-position",
        &[Mistake::NothingTakesNoPosition],
    ),
    (
        "nothing-only-if-not-live",
        &[Mistake::DeletesWriteNothing, Mistake::DeleteRemoves],
    ),
    ("nothing-drops-nothing", &[Mistake::DroppedForNothing]),
    (
        "nothing-at-exactly-n",
        &[Mistake::DroppedForNothing, Mistake::NeverDropped],
    ),
    ("nothing-after-a-drop", &[Mistake::AbsentDeletesNeedRoom]),
    ("nothing-64-keys", &[Mistake::DeletesAlwaysWrite]),
    ("nothing-1024-keys", &[Mistake::AbsentDeletesNeedRoom]),
    (
        "nothing-but-two-of-65-keys",
        &[Mistake::LaterWritesLost, Mistake::DeletesAlwaysWrite],
    ),
    ("nothing-of-a-refused-put", &[Mistake::DeletesAlwaysWrite]),
    (
        "nothing-the-second-time",
        &[Mistake::TombstonesWrittenAgain, Mistake::TombstonesRenewed],
    ),
    (
        "nothing-of-keys-0-and-highest",
        &[Mistake::DeletesAlwaysWrite],
    ),
    (
        "tombstones-make-exactly-enough",
        &[Mistake::NeverDropped, Mistake::DroppedEarly],
    ),
    ("tombstones-are-leaves", &[Mistake::DeleteRemoves]),
    (
        "tombstones-dropped-with-their-node",
        &[Mistake::NeverDropped],
    ),
    ("tombstones-behind-64-points", &[Mistake::LaterWritesLost]),
];

#[test]
fn each_case_of_deletes_catches_the_mistakes_that_it_is_made_for() {
    let cases = ideas::nothing::all();
    assert_eq!(cases.len(), NOTHING.len());
    for (case, (name, mistakes)) in cases.iter().zip(NOTHING) {
        assert_eq!(case.name, *name);
        for &mistake in *mistakes {
            assert!(shows(case, Some(mistake)), "{name}: {}", mistake.words());
        }
    }
}

/// The cases of joined records, and the mistakes that each is made for.
const JOINED: &[(&str, &[Mistake])] = &[
    ("one-by-one-scan-then-put", &[Mistake::ReadsWrite]),
    (
        "joined-scan-then-put",
        &[
            Mistake::OverlapRefused,
            Mistake::ScansNextRefused,
            Mistake::SnapshotInZone,
        ],
    ),
    (
        "one-by-one-tombstone-needed",
        &[
            Mistake::TombstonesDoNotConflict,
            Mistake::DroppedEarly,
            Mistake::OldAtZ,
        ],
    ),
    (
        "joined-tombstone-needed",
        &[Mistake::TombstonesDoNotConflict, Mistake::AbortedWriter],
    ),
    (
        "one-by-one-room-a-position-later",
        &[Mistake::NeverDropped, Mistake::DroppedLate],
    ),
    (
        "joined-room-a-position-later",
        &[
            Mistake::DroppedEarly,
            Mistake::DroppedLate,
            Mistake::RoomForOneMore,
        ],
    ),
];

#[test]
fn each_case_of_joined_records_catches_the_mistakes_that_it_is_made_for() {
    let cases = ideas::joined::all();
    assert_eq!(cases.len(), JOINED.len());
    for (case, (name, mistakes)) in cases.iter().zip(JOINED) {
        assert_eq!(case.name, *name);
        for &mistake in *mistakes {
            assert!(shows(case, Some(mistake)), "{name}: {}", mistake.words());
        }
    }
}

/// What stands in the second log of each pair is what joining makes of the two in the first.
#[test]
fn the_second_of_each_pair_has_the_two_as_one() {
    for pair in ideas::joined::all().chunks_exact(2) {
        let [one_by_one, as_one] = [&pair[0], &pair[1]].map(|case| {
            let (_, log) = split(&case.input).expect("good limits");
            parts(log).0
        });
        let place = one_by_one
            .iter()
            .zip(&as_one)
            .position(|(one, other)| one != other)
            .expect("they differ");
        let mut out = vec![0; 13_835];
        let (a, b) = (one_by_one[place], one_by_one[place + 1]);
        let (answer, size) = joiner::join(a, b, &mut out);
        assert_eq!(answer, Answer::Committed);
        assert_eq!(as_one[place], &out[..size], "{}", pair[1].name);
    }
}

/// R55: what a card of before makes of 210, where it parts at the third record.
#[test]
fn a_card_that_writes_every_delete_parts_at_the_first_delete_of_nothing() {
    let rows = &ideas::nothing::all()[0].input;
    assert_eq!(
        lines(Some(Mistake::DeletesAlwaysWrite), rows),
        "1 0 0\n2 0 1\n3 1 4\n4 3 1\n5 0 1\n6 0 1\n7 0 1\n8 3 1\nend\n"
    );
}

#[test]
fn each_case_of_version_2_catches_the_mistakes_that_it_is_made_for() {
    let cases = ideas::larger::all();
    assert_eq!(cases.len(), LARGER.len());
    for (case, (name, mistakes)) in cases.iter().zip(LARGER) {
        assert_eq!(case.name, *name);
        for &mistake in *mistakes {
            assert!(shows(case, Some(mistake)), "{name}: {}", mistake.words());
        }
    }
    let cases = ideas::parts::larger();
    assert_eq!(cases.len(), LARGER_IN_PARTS.len());
    for (case, (name, mistake)) in cases.iter().zip(LARGER_IN_PARTS) {
        assert_eq!(case.case.name, *name);
        assert!(shows_in_parts(case, Some(*mistake)), "{name}");
    }
}

/// R54: what a card of before makes of 167 and 168, and what a card makes of them today.
#[test]
fn a_card_of_before_parts_at_the_first_record_of_version_2() {
    let cases = ideas::larger::all();
    let before = |case: &Case| lines(Some(Mistake::RuleOfBefore), &case.input);
    assert_eq!(before(&cases[0]), "1 4 0\n2 0 0\n3 1 1\nend\n");
    assert_eq!(
        program::lines(&cases[0].input),
        "1 0 0\n2 1 1\n3 0 1\nend\n"
    );
    assert_eq!(before(&cases[1]), "11\n");
    assert_eq!(
        program::lines(&cases[1].input),
        "1 0 0\n2 1 11\n3 0 1\nend\n"
    );
}

#[test]
fn each_ending_catches_the_mistake_that_it_is_made_for() {
    let cases = ideas::log::endings();
    assert_eq!(cases.len(), ENDINGS.len());
    for (case, (name, mistake)) in cases.iter().zip(ENDINGS) {
        assert_eq!(case.name, *name);
        assert!(shows(case, Some(*mistake)), "{name}");
    }
    let cases = ideas::parts::torn_or_impossible();
    assert_eq!(cases.len(), ENDINGS_IN_PARTS.len());
    for (case, (name, mistake)) in cases.iter().zip(ENDINGS_IN_PARTS) {
        assert_eq!(case.case.name, *name);
        assert!(shows_in_parts(case, Some(*mistake)), "{name}");
    }
}

/// The numbers of the files never change: the first and the last ones of each kind, as they
/// were when they came.
#[test]
fn numbers_do_not_change() {
    let files = cases::conformance::files();
    let names: BTreeSet<&str> = files.iter().map(|(name, _)| name.as_str()).collect();
    for name in [
        "01-little-endian-snapshot.input",
        "99-limits-short.input",
        "100-parts-one-a-record.input",
        "117-parts-limits.input",
        "118-reason-smallest-key.input",
        "148-reason-changes-nothing.input",
        "149-log-length-904-past-the-end.input",
        "160-parts-impossible-past-the-end.input",
        "166-parts-torn-903.input",
        "167-version-2-unknown-before.input",
        "168-version-2-impossible-before.input",
        "200-log-length-13834-first.input",
        "201-parts-version-2.input",
        "208-reason-point-numbers-above-255.input",
        "209-reason-scan-numbers-above-8.input",
        "210-nothing-eight-rows.input",
        "236-tombstones-behind-64-points.input",
        "237-reason-first-delete.input",
        "242-reason-reads-not-counted.input",
    ] {
        assert!(names.contains(name), "{name}");
    }
}

/// Do the reasons with this mistake differ for this case?
fn shows_in_reasons(case: &Case, mistake: Option<ReasonMistake>) -> bool {
    reason::lines(mistake, &case.input) != reference::reason::lines(&case.input)
}

#[test]
fn a_second_way_to_the_reasons_agrees_on_every_case() {
    for case in all().iter().chain(&ideas::reason::all()) {
        assert!(!shows_in_reasons(case, None), "{}", case.name);
    }
}

/// The mistakes, and the case that is made for each.
const MADE_FOR: &[(ReasonMistake, &str)] = &[
    (ReasonMistake::LargestKey, "reason-smallest-key"),
    (ReasonMistake::NewestKey, "reason-smallest-key"),
    (ReasonMistake::OldestKey, "reason-smallest-key"),
    (ReasonMistake::PointsFirst, "reason-smallest-in-a-scan"),
    (ReasonMistake::ScansFirst, "reason-smallest-in-a-point"),
    (ReasonMistake::SignedKey, "reason-smallest-unsigned"),
    (ReasonMistake::LiveKey, "reason-deleted-key"),
    (ReasonMistake::KeptKey, "reason-key-written-before"),
    (ReasonMistake::KeyZeroIsNone, "reason-keys-0-and-highest"),
    (ReasonMistake::ScanLowTold, "reason-key-in-a-scan"),
    (ReasonMistake::ScanBeforePoint, "reason-point-before-scan"),
    (ReasonMistake::BothTold, "reason-point-before-scan"),
    (ReasonMistake::PointAtOrAbove, "reason-point-beside"),
    (ReasonMistake::PointsFromZero, "reason-point-numbers"),
    (ReasonMistake::PointsOfItsKind, "reason-point-numbers"),
    (ReasonMistake::ScansFromZero, "reason-scan-numbers"),
    (ReasonMistake::ScansBehindPoints, "reason-scan-numbers"),
    (
        ReasonMistake::PointInAByte,
        "reason-point-numbers-above-255",
    ),
    (
        ReasonMistake::PointsUpTo64,
        "reason-point-numbers-above-255",
    ),
    (ReasonMistake::ScansUpTo8, "reason-scan-numbers-above-8"),
    (ReasonMistake::OwnPosition, "reason-writers-position"),
    (ReasonMistake::LastPosition, "reason-writers-position"),
    (ReasonMistake::SnapshotTold, "reason-writers-position"),
    (ReasonMistake::FirstWrite, "reason-last-write"),
    (ReasonMistake::FirstWriteSince, "reason-last-write"),
    (ReasonMistake::NewestInConflict, "reason-newest-of-others"),
    (ReasonMistake::NewestOfAll, "reason-newest-of-others"),
    (ReasonMistake::RefusedWriter, "reason-refused-is-no-writer"),
    (ReasonMistake::ReadWriter, "reason-reads-do-not-write"),
    (ReasonMistake::LagFromV, "reason-lag"),
    (ReasonMistake::LagIsZ, "reason-lag"),
    (ReasonMistake::LagBeyondZ, "reason-lag"),
    (
        ReasonMistake::LagWithConflict,
        "reason-lag-only-when-too-old",
    ),
    (ReasonMistake::LagWithAhead, "reason-lag-only-when-too-old"),
    (ReasonMistake::OldHasConflict, "reason-old-before-conflict"),
    (
        ReasonMistake::WrittenNotCounted,
        "reason-keys-kept-and-written",
    ),
    (ReasonMistake::CountedTwice, "reason-keys-kept-and-written"),
    (ReasonMistake::KeysBeyondN, "reason-keys-beyond-n"),
    (ReasonMistake::KeysIsN, "reason-keys-beyond-n"),
    (
        ReasonMistake::KeysWithCommitted,
        "reason-keys-deleted-and-read",
    ),
    (ReasonMistake::NothingBlamed, "reason-first-delete"),
    (ReasonMistake::FirstWrite, "reason-first-delete"),
    (
        ReasonMistake::DeletesAlwaysWrite,
        "reason-nothing-passed-over",
    ),
    (ReasonMistake::PointsOfItsKind, "reason-deletes-in-conflict"),
    (ReasonMistake::NothingCounted, "reason-nothing-not-counted"),
    (
        ReasonMistake::NothingCounted,
        "reason-old-tombstone-deleted",
    ),
    (
        ReasonMistake::OldTombstonesCounted,
        "reason-old-tombstone-deleted",
    ),
    (ReasonMistake::ReadsCounted, "reason-reads-not-counted"),
    (
        ReasonMistake::TombstonesNotCounted,
        "reason-young-tombstones",
    ),
    (
        ReasonMistake::TombstonesCountedShort,
        "reason-young-tombstones",
    ),
    (ReasonMistake::OldTombstonesCounted, "reason-old-tombstones"),
    (
        ReasonMistake::TombstonesCountedLong,
        "reason-old-tombstones",
    ),
    (
        ReasonMistake::OldTombstonesCounted,
        "reason-old-and-young-tombstones",
    ),
    (
        ReasonMistake::TombstonesNotCounted,
        "reason-old-and-young-tombstones",
    ),
    (
        ReasonMistake::OldRewrittenLost,
        "reason-old-tombstone-written",
    ),
    (ReasonMistake::KeysWithCommitted, "reason-none"),
    (ReasonMistake::LagWithAhead, "reason-none"),
    (
        ReasonMistake::KeysWithConflict,
        "reason-conflict-before-room",
    ),
    (ReasonMistake::LooksMissing, "reason-looks"),
    (ReasonMistake::LooksGoOn, "reason-looks"),
    (ReasonMistake::ExplainingMelds, "reason-changes-nothing"),
    (ReasonMistake::ImpossibleTorn, "log-length-6-alone"),
    (
        ReasonMistake::ImpossibleShortTorn,
        "log-length-13834-past-the-end",
    ),
    (ReasonMistake::TornImpossible, "log-three-bytes-left"),
];

#[test]
fn every_mistake_in_reasons_is_caught_by_the_case_made_for_it() {
    let cases = ideas::reason::all();
    let endings = [ideas::log::endings(), ideas::larger::all()].concat();
    for (mistake, name) in MADE_FOR {
        let mut all = cases.iter().chain(&endings);
        let made = all.find(|case| case.name == *name);
        let made = made.unwrap_or_else(|| panic!("there is no case {name}"));
        let caught = shows_in_reasons(made, Some(*mistake));
        assert!(caught, "{name} does not catch: {}", mistake.words());
    }
    for mistake in ReasonMistake::ALL {
        let made = MADE_FOR.iter().any(|(other, _)| other == mistake);
        assert!(made, "no case is made for: {}", mistake.words());
    }
    for case in cases {
        let made = MADE_FOR.iter().any(|(_, name)| *name == case.name);
        assert!(made, "{} is made for nothing", case.name);
    }
}

/// What is decided in parts is what is decided of the log walked at once.
#[test]
fn cases_in_parts_have_the_verdicts_of_the_whole_log() {
    for InParts { case, sizes } in ideas::parts::all() {
        let printed = pages::lines(&case.input, &sizes);
        let calls: Vec<&str> = printed.lines().collect();
        let (last, calls) = calls.split_last().expect("there is a line");
        let decided = calls.iter().filter(|line| !line.starts_with("more"));
        let verdicts: Vec<Vec<&str>> = decided
            .map(|line| line.split(' ').take(2).collect())
            .collect();
        let whole = program::lines(&case.input);
        let lines: Vec<&str> = whole.lines().collect();
        let (ending, records) = lines.split_last().expect("there is a line");
        let wanted: Vec<Vec<&str>> = records
            .iter()
            .map(|line| line.split(' ').skip(1).collect())
            .collect();
        assert_eq!(verdicts, wanted, "{}", case.name);
        assert_eq!(last.split(' ').next(), Some(*ending), "{}", case.name);
    }
}

#[test]
fn every_answer_and_every_end_is_there() {
    let mut seen = BTreeSet::new();
    for case in all() {
        match run(&case.input) {
            Err(answer) => drop(seen.insert(answer.number())),
            Ok(run) => {
                seen.extend(run.verdicts.iter().map(|verdict| verdict.answer.number()));
                seen.insert(run.ending.answer().map_or(100, |answer| answer.number()));
            }
        }
    }
    assert_eq!(
        seen.into_iter().collect::<Vec<_>>(),
        [0, 1, 2, 3, 4, 5, 9, 10, 11, 100]
    );
}

/// All but the length, which a log reader hands out right.
#[test]
fn every_flaw_is_there() {
    let mut seen = BTreeSet::new();
    for case in all() {
        let Ok((_, log)) = split(&case.input) else {
            continue;
        };
        let flaws = parts(log).0.into_iter().map(Record::parse);
        seen.extend(flaws.filter_map(Result::err));
    }
    let handed_out = Flaw::ALL.into_iter().filter(|&flaw| flaw != Flaw::Length);
    assert!(handed_out.into_iter().all(|flaw| seen.contains(&flaw)));
}

#[test]
fn names_differ_and_fit_a_file() {
    let mut seen = BTreeSet::new();
    let in_parts = ideas::parts::all().into_iter().map(|parts| parts.case);
    let reasons = ideas::reason::all();
    for case in all().into_iter().chain(in_parts).chain(reasons) {
        let fits =
            |letter: char| letter.is_ascii_lowercase() || letter.is_ascii_digit() || letter == '-';
        assert!(case.name.chars().all(fits), "{}", case.name);
        assert!(seen.insert(case.name.clone()), "{} twice", case.name);
    }
}

#[test]
fn the_whole_sequence_reads_back() {
    let cases = all();
    let bytes = sequence::write(cases.iter().map(|case| &case.input[..]));
    let inputs = sequence::read(&bytes).unwrap();
    assert!(cases
        .iter()
        .zip(&inputs)
        .all(|(case, input)| case.input == *input));
    let expected = sequence::expect(&inputs);
    let numbered = expected.lines().filter(|line| line.starts_with("case "));
    assert_eq!(numbered.count(), cases.len());
    println!("{} cases, {} bytes", cases.len(), bytes.len());
}
