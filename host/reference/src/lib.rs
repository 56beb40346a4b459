//! The rules written straight from docs/RULES.md: a second implementation that
//! shares nothing with the proved one. Obvious before quick. R and a number is
//! a rule of that page.
//!
//! From the bottom up: `answer`, `flaw`, `version`, `record`, `lists`, `joiner`, `log`, `tree`, `state`,
//! `refresh`, `feed`, `program`, `pages`, `reason`; `layout` for the bytes of a pool.
//! `table` has the eleven rows of R44 and the eight of R55, `words` puts inputs into words,
//! `random` is for tests and for the tool that compares.
#![forbid(unsafe_code)]

pub mod answer;
pub mod feed;
pub mod flaw;
pub mod joiner;
pub mod layout;
pub mod lists;
pub mod log;
pub mod pages;
pub mod program;
pub mod random;
pub mod reason;
pub mod record;
pub mod refresh;
pub mod state;
pub mod table;
pub mod tree;
pub mod version;
pub mod words;

pub use answer::Answer;
pub use feed::{feed, Fed, Said};
pub use flaw::Flaw;
pub use log::{Ending, LogReader, Step};
pub use reason::{explain, Explained, Reason, Touch};
pub use record::{Kind, Point, Record, Scan};
pub use state::{Limits, State, Status, Verdict};
pub use version::Version;
