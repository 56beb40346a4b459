//! The committed files are what the tools make.

use std::collections::BTreeSet;
use std::fs;
use std::path::PathBuf;

use cases::conformance;
use reference::program::lines;
use reference::table;

/// A folder beside `host`.
fn folder(name: &str) -> PathBuf {
    let host = concat!(env!("CARGO_MANIFEST_DIR"), "/../..");
    PathBuf::from(host).join(name)
}

#[test]
fn conformance_files_are_as_made() {
    for (name, bytes) in conformance::files() {
        let path = folder("conformance").join(&name);
        let found = fs::read(path).unwrap_or_else(|error| panic!("{name}: {error}"));
        assert!(
            found == bytes,
            "{name} is not what `cases conformance` makes"
        );
    }
}

#[test]
fn there_are_no_other_conformance_files() {
    let made = conformance::files().into_iter().map(|(name, _)| name);
    let mut known: BTreeSet<String> = made.collect();
    known.extend([".gitattributes", "CHECK.md", "check"].map(str::to_string));
    for entry in fs::read_dir(folder("conformance")).unwrap() {
        let name = entry.unwrap().file_name().into_string().unwrap();
        assert!(known.contains(&name), "{name} is not of the set");
    }
}

#[test]
fn the_sample_is_the_log_to_check_by() {
    let found = fs::read(folder("samples").join("document.log")).unwrap();
    assert_eq!(found, table::input());
    assert!(lines(&found).ends_with("11 0 1\nend\n"));
}
