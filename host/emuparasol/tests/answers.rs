//! The answers have the numbers and names of R3, as docs/RULES.md prints them.

use emuparasol::{Error, NoRecord, Records, Verdict};
use std::error::Error as AnyError;

/// The answers of the table of R3, by number.
fn of_rules() -> Vec<(u8, String)> {
    let rules = include_str!("../../../docs/RULES.md");
    let (_, from) = rules.split_once("**R3. Answers.**").expect("R3");
    let (table, _) = from.split_once("**R4").unwrap_or((from, ""));
    let mut answers = Vec::new();
    for line in table.lines().filter(|line| line.starts_with("| ")) {
        let cells: Vec<&str> = line.split('|').map(str::trim).collect();
        for pair in cells[1..].chunks_exact(2) {
            if let Ok(number) = pair[0].parse() {
                answers.push((number, pair[1].to_string()));
            }
        }
    }
    answers.sort();
    answers
}

#[test]
fn r3_has_thirteen_answers() {
    let numbers: Vec<u8> = of_rules().into_iter().map(|(number, _)| number).collect();
    assert_eq!(numbers, (0..=12).collect::<Vec<u8>>());
}

#[test]
fn errors_are_the_answers_1_to_12() {
    assert_eq!(Error::from_number(0), None);
    for (number, name) in of_rules().into_iter().skip(1) {
        let error = Error::from_number(number).expect("a refusal");
        assert!(!matches!(error, Error::Unknown(_)), "{name}");
        assert_eq!(error.number(), number);
        assert_eq!(error.name(), name);
        assert_eq!(error.to_string(), name);
        // The name of the case is that of the answer.
        let case = format!("{error:?}").to_lowercase();
        assert_eq!(case, name.replace(' ', ""));
    }
    for number in 13..=255 {
        let error = Error::from_number(number).expect("a refusal");
        assert_eq!(error, Error::Unknown(number));
        assert_eq!(error.number(), number);
        assert_eq!(error.name(), "unknown answer");
        assert_eq!(error.to_string(), format!("unknown answer {number}"));
    }
}

#[test]
fn verdicts_are_the_answers_0_to_5() {
    for (number, name) in of_rules() {
        let Some(verdict) = Verdict::from_number(number) else {
            assert!(number > 5, "{name}");
            continue;
        };
        assert!(number <= 5, "{name}");
        assert_eq!(verdict.number(), number);
        assert_eq!(verdict.name(), name);
        assert_eq!(verdict.to_string(), name);
        let case = format!("{verdict:?}").to_lowercase();
        assert_eq!(case, name.replace(' ', ""));
        assert_eq!(verdict.committed().err(), Error::from_number(number));
    }
    assert!((6..=255).all(|number| Verdict::from_number(number).is_none()));
}

#[test]
fn they_pass_as_errors_of_any_kind() {
    fn meld_all(log: &[u8]) -> Result<(), Box<dyn AnyError>> {
        for record in Records::new(log) {
            emuparasol::check(record?)?;
        }
        Ok(())
    }
    let said = |log: &[u8]| meld_all(log).expect_err("a refusal").to_string();
    assert_eq!(said(&[0, 7, 1, 0, 0, 0, 0, 0, 1]), "malformed");
    // A whole record, and one byte or two of what comes behind it.
    for (behind, why) in [
        (&[0xFF][..], Error::TornLog),
        (&[0, 7], Error::TornLog),
        (&[0, 6], Error::ImpossibleLength),
        (&[0xFF, 0xFF], Error::ImpossibleLength),
    ] {
        let log = [&[0, 7, 1, 0, 0, 0, 0, 0, 0][..], behind].concat();
        assert_eq!(said(&log), format!("{why} at byte 9"));
        let step = Records::at(&log, 9).next();
        let stopped: NoRecord = step.and_then(Result::err).expect("no record");
        assert_eq!((stopped.place, stopped.why), (9, why));
        assert_eq!(Error::from(stopped), why);
    }
    assert_eq!(said(&[0]), "torn log at byte 0");
    assert_eq!(said(&[0, 0]), "impossible length at byte 0");
}

#[test]
fn names_are_padded_as_asked() {
    assert_eq!(
        format!("{:>8}|{:<8}", Verdict::TooOld, Error::Ahead),
        " too old|ahead   "
    );
}
