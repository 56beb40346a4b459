//! The crate's sources: only `core`, `unsafe` in one file, and nothing that panics.
//! (`cargo clippy` holds them to the same; this needs no clippy.)

use std::fs;
use std::path::{Path, PathBuf};

/// The files of `src/`, without comments and attributes.
fn sources() -> Vec<(String, String)> {
    let folder = Path::new(env!("CARGO_MANIFEST_DIR")).join("src");
    let mut paths: Vec<PathBuf> = fs::read_dir(folder)
        .expect("src/")
        .map(|entry| entry.expect("an entry").path())
        .collect();
    paths.sort();
    paths
        .iter()
        .map(|path| {
            let name = path.file_name().expect("a name").to_string_lossy();
            let text = fs::read_to_string(path).expect("a text file");
            (name.into_owned(), code(&text))
        })
        .collect()
}

/// The text without comments.
fn code(text: &str) -> String {
    let line = |line: &str| line.split("//").next().unwrap_or_default().to_string();
    text.lines().map(line).collect::<Vec<_>>().join("\n")
}

/// What in this code can panic, if anything: a word, an operator that can overflow,
/// or an index.
fn panics(code: &str) -> Option<String> {
    let words = [
        ".unwrap()",
        ".unwrap_err()",
        ".expect(",
        ".expect_err(",
        "panic!",
        "unreachable!",
        "todo!",
        "unimplemented!",
        "assert!",
        "assert_eq!",
        "assert_ne!",
        "split_at(",
        "split_at_mut(",
        "copy_from_slice(",
        "copy_within(",
        ".swap(",
        "chunks(",
        "windows(",
        " + ",
        " - ",
        " * ",
        " / ",
        " % ",
        " << ",
        " >> ",
        " += ",
        " -= ",
        " *= ",
    ];
    if let Some(word) = words.iter().find(|&&word| code.contains(word)) {
        return Some((*word).to_string());
    }
    let before = code.match_indices('[').filter_map(|(at, _)| {
        let last = code[..at].chars().next_back()?;
        let indexed = last.is_ascii_alphanumeric() || "_)]?\"".contains(last);
        indexed.then(|| format!("an index: {}", &code[at.saturating_sub(20)..=at]))
    });
    before.into_iter().next()
}

#[test]
fn what_panics_is_found() {
    for code in [
        "let x = list[0];",
        "self.points[..3]",
        "front(list)[1]",
        "list[1][2]",
        "number.unwrap()",
        "number.expect(\"one\")",
        "unreachable!()",
        "let y = x + 1;",
        "x += 1;",
    ] {
        assert!(panics(code).is_some(), "{code}");
    }
    for code in [
        "fn f(list: &[u8], more: &'a mut [u8]) -> [u8; 3] {",
        "#[derive(Debug)]",
        "(0, Some([])) => 1,",
        "list.get(..3).unwrap_or_default()",
        "*payload = *key;",
    ] {
        assert_eq!(panics(code), None, "{code}");
    }
    assert_eq!(panics(&code("1 // list[0]")), None);
}

#[test]
fn nothing_panics() {
    let sources = sources();
    assert!(sources.len() > 5);
    for (name, code) in sources {
        assert_eq!(panics(&code), None, "{name}");
    }
}

#[test]
fn only_core() {
    for (name, code) in sources() {
        for word in ["std::", "alloc::", "extern crate", "cfg("] {
            let found = code.contains(word);
            assert!(!found, "{name}: {word}");
        }
        if name == "lib.rs" {
            assert!(code.contains("\n#![no_std]\n"));
        }
    }
    let manifest = include_str!("../Cargo.toml");
    assert!(!manifest.contains("\n[dependencies"));
    assert!(!manifest.contains("\n[build-dependencies"));
}

#[test]
fn unsafe_stands_in_one_file() {
    for (name, code) in sources() {
        assert_eq!(code.contains("unsafe {"), name == "calls.rs", "{name}");
        for word in ["unsafe fn", "unsafe impl", "unsafe trait", "static mut"] {
            assert!(!code.contains(word), "{name}: {word}");
        }
    }
}
