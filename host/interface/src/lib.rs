//! The interface of the library is said three times: in the proved source
//! (`crates/abi_c`; the record part alone again in `crates/record_abi_c`), in
//! `include/emuparasol.h` and in the Rust declarations
//! (`emuparasol/src/declared.rs`); the answers also in `crates/record` and in the
//! Rust enums, their names in the header's `emuparasol_answer_name`; what a call of
//! `emuparasol_feed` has done in the first three; the sizes of records and of a carry
//! in `crates/record` and `crates/pages`, in the header and in the Rust crate; the
//! version in the header and in `host/Cargo.toml`. This crate reads each of them and
//! says where two differ.
//!
//! It reads the few forms these files use and refuses what it does not know,
//! so that nothing is passed over.
#![forbid(unsafe_code)]

pub mod answers;
pub mod functions;
pub mod sizes;
pub mod sources;
pub mod versions;

pub use answers::{compare_answers, Answer};
pub use functions::{compare_functions, Function, Parameter};
pub use sources::Sources;

/// The text without comments: `//` to the end of its line, and `/*` to `*/`.
pub fn without_comments(text: &str) -> String {
    let mut kept = String::new();
    let mut rest = text;
    while let Some(at) = rest.find('/') {
        kept += &rest[..at];
        rest = &rest[at..];
        let end = if rest.starts_with("//") {
            rest.find('\n').unwrap_or(rest.len())
        } else if rest.starts_with("/*") {
            rest.find("*/").map_or(rest.len(), |end| end + 2)
        } else {
            kept.push('/');
            1
        };
        rest = &rest[end..];
    }
    kept + rest
}

/// The text from `open` to `close` behind it, both left out.
pub(crate) fn between<'a>(text: &'a str, open: &str, close: &str) -> Option<&'a str> {
    let from = text.find(open)? + open.len();
    let to = text[from..].find(close)?;
    Some(&text[from..from + to])
}
