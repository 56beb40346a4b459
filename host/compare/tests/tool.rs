//! The tool itself, run on a program with and without a mistake.

use std::process::{Command, Output};

/// `compare` with these arguments, the program under it with this mistake.
fn compare(mistake: Option<&str>, arguments: &[&str]) -> Output {
    let mut command = Command::new(env!("CARGO_BIN_EXE_compare"));
    command.args(arguments).env_remove("MISTAKE");
    if let Some(mistake) = mistake {
        command.env("MISTAKE", mistake);
    }
    command.output().expect("the tool runs")
}

const PROGRAM: [&str; 2] = ["--program", env!("CARGO_BIN_EXE_mistaken")];

#[test]
fn agreement_has_status_0() {
    for seeds in [["--seeds", "0..60"], ["--fresh", "40"]] {
        let output = compare(None, &[PROGRAM, seeds].concat());
        assert_eq!(output.status.code(), Some(0));
        let text = String::from_utf8(output.stdout).unwrap();
        assert!(text.starts_with("seeds "));
        assert!(text.contains("no difference in "));
    }
}

#[test]
fn torn_logs_and_impossible_lengths_are_counted_each() {
    let output = compare(None, &[PROGRAM, ["--seeds", "0..60"]].concat());
    let text = String::from_utf8(output.stdout).unwrap();
    for what in [
        " logs 10 torn log\n",
        " logs 11 impossible length\n",
        " logs end\n",
    ] {
        assert!(text.contains(what), "{text}");
    }
}

#[test]
fn a_difference_between_10_and_11_shows_the_two_bytes() {
    let arguments = [PROGRAM, ["--seeds", "0..60"], ["--jobs", "1"]].concat();
    let output = compare(Some("ImpossibleShortTorn"), &arguments);
    assert_eq!(output.status.code(), Some(1));
    let text = String::from_utf8(output.stdout).unwrap();
    assert!(text.contains("then 11 impossible length\n"), "{text}");
    assert!(text.contains("line 1 is to be `11`"), "{text}");
    assert!(text.contains("the program has  `10`"), "{text}");
}

#[test]
fn a_difference_has_status_1_and_shows_a_small_log() {
    let arguments = [PROGRAM, ["--seeds", "0..60"], ["--jobs", "1"]].concat();
    let output = compare(Some("AheadLate"), &arguments);
    assert_eq!(output.status.code(), Some(1));
    let text = String::from_utf8(output.stdout).unwrap();
    assert!(
        text.contains("1: s 1, nothing -> 5 ahead, looks 0"),
        "{text}"
    );
    assert!(text.contains("00 07 01 00 00 00 01 00 00"));
    assert!(text.contains("line 1 is to be `1 5 0`"));
    assert!(text.contains("the program has  `1 0 0`"));
}

#[test]
fn a_missing_program_or_option_has_status_2() {
    for arguments in [&["--program", "there/is/none"][..], &[], &["--jobs"]] {
        assert_eq!(compare(None, arguments).status.code(), Some(2));
    }
}

#[test]
fn a_program_that_stops_at_1000_differs_from_the_full_one() {
    let arguments = [&PROGRAM[..], &["--full", "--seeds", "1..20"]].concat();
    let output = compare(None, &arguments);
    assert_eq!(output.status.code(), Some(1));
    let text = String::from_utf8(output.stdout).unwrap();
    assert!(text.contains("the program has  `9`"), "{text}");
}

#[test]
fn a_program_that_prints_nothing_of_an_input_it_cannot_read_on_differs() {
    let arguments = [&PROGRAM[..], &["--unread", "--seeds", "0..20"]].concat();
    let output = compare(None, &arguments);
    assert_eq!(output.status.code(), Some(1));
    let text = String::from_utf8(output.stdout).unwrap();
    assert!(text.contains("the program has  ``"), "{text}");
}

const PAGE_FORM: [&str; 3] = ["--parts", "--program", env!("CARGO_BIN_EXE_misfed")];

#[test]
fn agreement_in_parts_has_status_0() {
    for seeds in [["--seeds", "0..20"], ["--fresh", "10"]] {
        let output = compare(None, &[&PAGE_FORM[..], &seeds].concat());
        assert_eq!(output.status.code(), Some(0));
        let text = String::from_utf8(output.stdout).unwrap();
        assert!(text.contains(" calls more\n"), "{text}");
        assert!(text.contains("no difference in "));
    }
}

#[test]
fn a_difference_in_parts_shows_a_small_log_and_its_sizes() {
    let more = ["--argument", "RestLost", "--seeds", "0..60", "--jobs", "1"];
    let output = compare(None, &[&PAGE_FORM[..], &more].concat());
    assert_eq!(output.status.code(), Some(1));
    let text = String::from_utf8(output.stdout).unwrap();
    assert!(text.contains("the sizes of the parts: \n"), "{text}");
    assert!(text.contains("line 1 is to be `"), "{text}");
    let small = compare(
        Some("LengthFromPart"),
        &[&PAGE_FORM[..], &more[2..]].concat(),
    );
    let text = String::from_utf8(small.stdout).unwrap();
    assert!(text.contains("the sizes of the parts: 1\n"), "{text}");
}

#[test]
fn no_file_of_sizes_is_left_behind() {
    let folder = std::env::temp_dir().join(format!("compare-test-{}", std::process::id()));
    std::fs::create_dir(&folder).unwrap();
    let mut command = Command::new(env!("CARGO_BIN_EXE_compare"));
    command.args(PAGE_FORM).args(["--seeds", "0..5"]);
    let output = command.env("TMPDIR", &folder).output().unwrap();
    let left = std::fs::read_dir(&folder).unwrap().count();
    std::fs::remove_dir_all(&folder).unwrap();
    assert_eq!((output.status.code(), left), (Some(0), 0));
}

const EXPLAINED: [&str; 3] = ["--reasons", "--program", env!("CARGO_BIN_EXE_misexplained")];

#[test]
fn agreement_in_reasons_has_status_0() {
    for more in [
        &["--seeds", "0..40"][..],
        &["--fresh", "20"],
        &["--full", "--seeds", "1..4"],
    ] {
        let output = compare(None, &[&EXPLAINED[..], more].concat());
        assert_eq!(output.status.code(), Some(0));
        let text = String::from_utf8(output.stdout).unwrap();
        assert!(text.contains(" reasons "), "{text}");
        assert!(text.contains("no difference in "));
    }
}

#[test]
fn a_difference_in_reasons_shows_a_small_log_and_its_reasons() {
    let more = [
        "--argument",
        "SnapshotTold",
        "--seeds",
        "0..60",
        "--jobs",
        "1",
    ];
    let output = compare(None, &[&EXPLAINED[..], &more].concat());
    assert_eq!(output.status.code(), Some(1));
    let text = String::from_utf8(output.stdout).unwrap();
    assert!(text.contains(", written at 1, point 1\n"), "{text}");
    assert!(text.contains("line 2 is to be `2 1 1 "), "{text}");
    assert!(
        text.contains(" 1 1 0 0 0`\nthe program has  `2 1 1 "),
        "{text}"
    );
    assert!(text.contains(" 0 1 0 0 0`\n"), "{text}");
}
