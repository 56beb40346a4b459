//! The committed files agree, and a change of any one of them is noticed.
#![forbid(unsafe_code)]

use std::path::Path;

use interface::Sources;

fn committed() -> Sources {
    let top = Path::new(env!("CARGO_MANIFEST_DIR")).join("../..");
    Sources::read(&top).expect("the files are there")
}

/// `from` stands in the text, and `to` in its place.
fn change(text: &mut String, from: &str, to: &str) {
    assert!(text.contains(from), "{from} is not there");
    *text = text.replacen(from, to, 1);
}

/// Does the change make a difference that names `name`?
fn noticed(name: &str, edit: impl FnOnce(&mut Sources)) {
    let mut sources = committed();
    edit(&mut sources);
    let (found, _, _) = sources.differences().expect("known forms");
    assert!(
        found.iter().any(|line| line.starts_with(name)),
        "{name}: {found:?}"
    );
}

#[test]
fn the_committed_files_agree() {
    let (found, functions, answers) = committed().differences().expect("known forms");
    assert_eq!(found, Vec::<String>::new());
    assert_eq!((functions, answers), (13, 13));
}

#[test]
fn a_changed_header_is_noticed() {
    let edits = [
        (
            "emuparasol_create",
            "uint32_t n, uint32_t z",
            "uint32_t z, uint32_t n",
        ),
        (
            "emuparasol_lookup",
            "uint64_t *payload",
            "uint32_t *payload",
        ),
        (
            "emuparasol_meld",
            "uint32_t *looks",
            "const uint32_t *looks",
        ),
        (
            "emuparasol_refresh",
            "const uint8_t *original,",
            "uint8_t *original,",
        ),
        (
            "emuparasol_in_force",
            "bool emuparasol_in_force",
            "uint8_t emuparasol_in_force",
        ),
        (
            "emuparasol_check",
            "emuparasol_check(const uint8_t *record, uint64_t record_length)",
            "emuparasol_check(const uint8_t *record)",
        ),
        ("emuparasol_cut", "uint64_t place, ", ""),
        (
            "emuparasol_status",
            "uint32_t *n, uint32_t *z",
            "uint32_t *z, uint32_t *n",
        ),
        ("TOO_OLD = 2", "\"too old\"", "\"out of date\""),
        (
            "AHEAD = 5",
            "\"malformed\",\n        \"ahead\"",
            "\"ahead\",\n        \"malformed\"",
        ),
        ("TORN_LOG = 10", "\"torn log\"", "\"cut log\""),
        (
            "TORN_LOG = 10",
            "\"torn log\",\n        \"impossible length\"",
            "\"impossible length\",\n        \"torn log\"",
        ),
        ("CANNOT_JOIN = 12", ",\n        \"cannot join\"", ""),
        (
            "IMPOSSIBLE_LENGTH = 11",
            ",\n        \"impossible length\"",
            "",
        ),
        (
            "IMPOSSIBLE_LENGTH = 11",
            "EMUPARASOL_IMPOSSIBLE_LENGTH = 11",
            "EMUPARASOL_IMPOSSIBLE_LENGTH = 10",
        ),
        (
            "version",
            "EMUPARASOL_VERSION \"0.1.0\"",
            "EMUPARASOL_VERSION \"0.1.1\"",
        ),
        (
            "version",
            "EMUPARASOL_VERSION_PATCH 0",
            "EMUPARASOL_VERSION_PATCH 1",
        ),
        (
            "emuparasol_write",
            "emuparasol_write(",
            "emuparasol_writes(",
        ),
    ];
    for (name, from, to) in edits {
        noticed(name, |sources| change(&mut sources.header, from, to));
    }
}

#[test]
fn changed_rust_declarations_are_noticed() {
    let edits = [
        ("emuparasol_create", "n: u32,", "n: u64,"),
        ("emuparasol_meld", "looks: *mut u32", "steps: *mut u32"),
        (
            "emuparasol_check",
            "pub fn emuparasol_check(",
            "pub fn emuparasol_checks(",
        ),
    ];
    for (name, from, to) in edits {
        noticed(name, |sources| change(&mut sources.declared, from, to));
    }
}

#[test]
fn a_changed_proved_source_is_noticed() {
    let edits = [
        ("emuparasol_create", "n: u32, z: u32", "z: u32, n: u32"),
        ("emuparasol_lookup", "key: u32", "key: u64"),
        ("emuparasol_meld", "looks: &mut u32", "looks: &mut [u32]"),
        ("emuparasol_meld", "record: &[u8]", "record: &mut [u8]"),
        (
            "emuparasol_check",
            "fn emuparasol_check(",
            "fn emuparasol_well_formed(",
        ),
    ];
    for (name, from, to) in edits {
        noticed(name, |sources| change(&mut sources.rattle, from, to));
    }
}

#[test]
fn a_changed_record_part_is_noticed() {
    let edits = [
        ("emuparasol_check", "record: &[u8]", "record: &mut [u8]"),
        ("emuparasol_read", "points: &mut usize", "points: &mut u32"),
        ("emuparasol_write", "snapshot: u32", "snapshot: u64"),
        ("emuparasol_cut", "place: usize, ", ""),
        (
            "emuparasol_cuts",
            "fn emuparasol_cut(",
            "fn emuparasol_cuts(",
        ),
    ];
    for (name, from, to) in edits {
        noticed(name, |sources| {
            change(&mut sources.rattle_records, from, to)
        });
    }
}

#[test]
fn changed_answers_are_noticed() {
    noticed("TOO_OLD", |it| {
        change(&mut it.header, "TOO_OLD = 2", "TOO_OLD = 3")
    });
    noticed("AHEAD", |it| {
        change(&mut it.header, "EMUPARASOL_AHEAD", "EMUPARASOL_EARLY")
    });
    noticed("NO_ROOM", |it| {
        change(&mut it.rust_answers, "NoRoom = 3", "Full = 3")
    });
    noticed("AHEAD", |it| change(&mut it.rust_answers, "Ahead = 5,", ""));
    noticed("UNFIT_POOL", |it| {
        let (from, to) = ("Error::UnfitPool => 7", "Error::UnfitPool => 6");
        change(&mut it.rust_answers, from, to)
    });
    noticed("OUTPUT_SHORT", |it| {
        change(&mut it.rust_answers, "Error::OutputShort => 8,", "")
    });
    // The two that a log stops with are told apart everywhere.
    noticed("TORN_LOG", |it| {
        change(&mut it.rattle_answers, "number: 10", "number: 11")
    });
    noticed("IMPOSSIBLE_LENGTH", |it| {
        change(&mut it.rattle_answers, "number: 11", "number: 10")
    });
    noticed("TORN_LOG", |it| {
        let (from, to) = ("Error::TornLog => 10", "Error::TornLog => 11");
        change(&mut it.rust_answers, from, to)
    });
    noticed("IMPOSSIBLE_LENGTH", |it| {
        let (from, to) = ("Error::ImpossibleLength => 11,", "");
        change(&mut it.rust_answers, from, to)
    });
}

#[test]
fn a_changed_feed_is_noticed() {
    noticed("emuparasol_feed", |it| {
        change(&mut it.header, "uint64_t *carried", "uint64_t carried")
    });
    noticed("emuparasol_feed", |it| {
        change(&mut it.declared, "over: bool", "over: u8")
    });
    noticed("emuparasol_feed", |it| {
        change(&mut it.rattle, "over: bool", "over: u8")
    });
}

#[test]
fn a_changed_explain_is_noticed() {
    noticed("emuparasol_explain", |it| {
        let (from, to) = (
            "uint64_t *point, uint64_t *scan",
            "uint64_t *scan, uint64_t *point",
        );
        change(&mut it.header, from, to)
    });
    noticed("emuparasol_explain", |it| {
        change(&mut it.header, "uint32_t *lag", "uint64_t *lag")
    });
    noticed("emuparasol_explain", |it| {
        change(&mut it.declared, "scan: *mut u64", "scan: *mut u32")
    });
    noticed("emuparasol_explain", |it| {
        change(&mut it.declared, "lag: *mut u32", "delay: *mut u32")
    });
    noticed("emuparasol_explain", |it| {
        change(&mut it.rattle, "point: &mut usize", "point: &mut u32")
    });
    noticed("emuparasol_explain", |it| {
        change(&mut it.rattle, "keys: &mut u32", "keys: u32")
    });
}

#[test]
fn a_changed_join_is_noticed() {
    noticed("emuparasol_join", |it| {
        let (from, to) = (
            "const uint8_t *a, uint64_t a_length",
            "const uint8_t *b, uint64_t b_length",
        );
        change(&mut it.header, from, to)
    });
    noticed("emuparasol_join", |it| {
        change(&mut it.declared, "b: *const u8", "b: *mut u8")
    });
    noticed("emuparasol_join", |it| {
        change(&mut it.rattle, "a: &[u8], b: &[u8]", "b: &[u8], a: &[u8]")
    });
    noticed("emuparasol_join", |it| {
        let (from, to) = (
            "fn emuparasol_join(a: &[u8]",
            "fn emuparasol_join(a: &mut [u8]",
        );
        change(&mut it.rattle_records, from, to)
    });
    noticed("CANNOT_JOIN", |it| {
        change(&mut it.header, "CANNOT_JOIN = 12", "CANNOT_JOIN = 13")
    });
    noticed("CANNOT_JOIN", |it| {
        change(&mut it.rust_answers, "Error::CannotJoin => 12,", "")
    });
    noticed("CANNOT_JOIN", |it| {
        change(&mut it.rattle_answers, "number: 12", "number: 11")
    });
}

#[test]
fn changed_numbers_of_what_happened_are_noticed() {
    noticed("MORE = 2", |it| {
        change(&mut it.header, "EMUPARASOL_MORE = 2", "EMUPARASOL_MORE = 3")
    });
    noticed("DECIDED", |it| {
        change(&mut it.header, "EMUPARASOL_DECIDED", "EMUPARASOL_JUDGED")
    });
    noticed("END", |it| {
        change(&mut it.declared, "END: u8 = 3", "END: u8 = 4")
    });
    noticed("REFUSED", |it| {
        change(&mut it.declared, "pub const REFUSED: u8 = 0;", "")
    });
    noticed("END", |it| {
        change(&mut it.rattle, "END: u8 = 3", "END: u8 = 2")
    });
}

#[test]
fn changed_sizes_are_noticed() {
    noticed("CARRY_BYTES = 13835", |it| {
        let (from, to) = ("CARRY_BYTES EMUPARASOL_MOST_RECORD", "CARRY_BYTES 905");
        change(&mut it.header, from, to)
    });
    noticed("CARRY_BYTES = 13835", |it| {
        let (from, to) = (
            "CARRY_BYTES: usize = MOST_RECORD",
            "CARRY_BYTES: usize = 1_000",
        );
        change(&mut it.rust_sizes, from, to)
    });
    noticed("CARRY_BYTES = 13833", |it| {
        let (from, to) = ("carry.len() != MAX_SIZE", "carry.len() != MAX_LENGTH");
        change(&mut it.rattle_pages, from, to)
    });
    noticed("MOST_RECORD = 13835", |it| {
        change(&mut it.header, "MOST_RECORD 13835", "MOST_RECORD 905")
    });
    noticed("MOST_SCANS = 64", |it| {
        change(&mut it.header, "MOST_SCANS 64", "MOST_SCANS 8")
    });
    noticed("MOST_POINTS = 1024", |it| {
        let (from, to) = ("MOST_POINTS: usize = 1_024", "MOST_POINTS: usize = 64");
        change(&mut it.rust_sizes, from, to)
    });
    noticed("LEAST_RECORD = 9", |it| {
        let (from, to) = ("LEAST_RECORD: usize = 9", "LEAST_RECORD: usize = 7");
        change(&mut it.rust_sizes, from, to)
    });
    // A digit more in front, whatever the number is.
    noticed("MOST_POINTS = 1", |it| {
        let (from, to) = ("MAX_POINTS: usize = ", "MAX_POINTS: usize = 1");
        change(&mut it.rattle_limits, from, to)
    });
}

#[test]
fn a_length_of_another_width_is_noticed() {
    // On a 32-bit core `size_t` and `usize` are 32 bits wide; the proved code's lengths are 64.
    let mut sources = committed();
    change(
        &mut sources.header,
        "uint64_t pool_length",
        "size_t pool_length",
    );
    assert!(sources.differences().is_err());
    noticed("emuparasol_create", |sources| {
        change(
            &mut sources.declared,
            "pool_length: u64",
            "pool_length: usize",
        )
    });
}
