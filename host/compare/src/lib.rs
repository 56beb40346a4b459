//! Logs from seeds, whole and in parts, a program run on them, and the comparison
//! with the reference, down to the smallest log that still differs; single calls from
//! seeds, of feed, the writer, refresh and joining.
#![forbid(unsafe_code)]

pub mod calls;
pub mod check;
pub mod generate;
pub mod joins;
pub mod mistaken;
pub mod options;
mod pieces;
pub mod process;
pub mod setting;
pub mod shrink;
pub mod trial;
pub mod writes;
