#![doc = include_str!("../README.md")]
#![no_std]
#![deny(missing_docs, missing_debug_implementations)]
#![deny(
    clippy::arithmetic_side_effects,
    clippy::cast_possible_truncation,
    clippy::expect_used,
    clippy::indexing_slicing,
    clippy::panic,
    clippy::undocumented_unsafe_blocks,
    clippy::unreachable,
    clippy::unwrap_used
)]

mod answer;
#[doc(hidden)]
pub mod calls;
#[allow(missing_docs)]
mod declared;
mod feed;
mod log;
mod pool;
mod reason;
mod record;

pub use answer::{Error, Verdict};
pub use feed::{Carry, Fed, CARRY_BYTES};
pub use log::{NoRecord, Records};
pub use pool::{in_force, pool_bytes, Found, Limits, Melded, Pool, Status};
pub use reason::{Explained, Reason, Touch};
pub use record::{
    check, join, Point, Record, RecordBuffer, Scan, LEAST_RECORD, MOST_POINTS, MOST_RECORD,
    MOST_SCANS,
};
