//! The calls as they are, with lent slices and numbers, and the answers as numbers.
//! A slice or a reference of Rust is never null and aligned, its length is the one
//! passed, and a `&mut` overlaps nothing: that is all the archive asks (see the head
//! of `include/emuparasol.h`), so each call is sound, whatever is lent.
//!
//! Not a part of the documented surface, which stands above it.
#![allow(unsafe_code)]

use crate::declared::*;

/// See `emuparasol_create`.
pub fn create(pool: &mut [u8], n: u32, z: u32) -> u8 {
    // SAFETY: slices and references, as the head of this file says.
    unsafe { emuparasol_create(pool.as_mut_ptr(), pool.len() as u64, n, z) }
}

/// See `emuparasol_status`.
pub fn status(
    pool: &[u8],
    n: &mut u32,
    z: &mut u32,
    position: &mut u32,
    kept: &mut u32,
    tombstones: &mut u32,
) -> u8 {
    // SAFETY: slices and references, as the head of this file says.
    unsafe {
        emuparasol_status(
            pool.as_ptr(),
            pool.len() as u64,
            n,
            z,
            position,
            kept,
            tombstones,
        )
    }
}

/// See `emuparasol_lookup`.
pub fn lookup(pool: &[u8], key: u32, payload: &mut u64, position: &mut u32) -> u8 {
    // SAFETY: slices and references, as the head of this file says.
    unsafe { emuparasol_lookup(pool.as_ptr(), pool.len() as u64, key, payload, position) }
}

/// See `emuparasol_meld`.
pub fn meld(pool: &mut [u8], record: &[u8], looks: &mut u32) -> u8 {
    // SAFETY: slices and references, as the head of this file says.
    unsafe {
        emuparasol_meld(
            pool.as_mut_ptr(),
            pool.len() as u64,
            record.as_ptr(),
            record.len() as u64,
            looks,
        )
    }
}

/// See `emuparasol_feed`.
#[allow(clippy::too_many_arguments)]
pub fn feed(
    pool: &mut [u8],
    carry: &mut [u8],
    carried: &mut u64,
    part: &[u8],
    over: bool,
    happened: &mut u8,
    looks: &mut u32,
    taken: &mut u64,
) -> u8 {
    // SAFETY: slices and references, as the head of this file says.
    unsafe {
        emuparasol_feed(
            pool.as_mut_ptr(),
            pool.len() as u64,
            carry.as_mut_ptr(),
            carry.len() as u64,
            carried,
            part.as_ptr(),
            part.len() as u64,
            over,
            happened,
            looks,
            taken,
        )
    }
}

/// See `emuparasol_explain`.
#[allow(clippy::too_many_arguments)]
pub fn explain(
    pool: &[u8],
    record: &[u8],
    looks: &mut u32,
    key: &mut u32,
    position: &mut u32,
    point: &mut u64,
    scan: &mut u64,
    lag: &mut u32,
    keys: &mut u32,
) -> u8 {
    // SAFETY: slices and references, as the head of this file says.
    unsafe {
        emuparasol_explain(
            pool.as_ptr(),
            pool.len() as u64,
            record.as_ptr(),
            record.len() as u64,
            looks,
            key,
            position,
            point,
            scan,
            lag,
            keys,
        )
    }
}

/// See `emuparasol_refresh`.
pub fn refresh(pool: &[u8], original: &[u8], output: &mut [u8]) -> u8 {
    // SAFETY: slices and references, as the head of this file says.
    unsafe {
        emuparasol_refresh(
            pool.as_ptr(),
            pool.len() as u64,
            original.as_ptr(),
            original.len() as u64,
            output.as_mut_ptr(),
            output.len() as u64,
        )
    }
}

/// See `emuparasol_in_force`.
pub fn in_force(
    answer: u8,
    original: &[u8],
    refreshed: &[u8],
    offset: &mut u64,
    length: &mut u64,
) -> bool {
    // SAFETY: slices and references, as the head of this file says.
    unsafe {
        emuparasol_in_force(
            answer,
            original.as_ptr(),
            original.len() as u64,
            refreshed.as_ptr(),
            refreshed.len() as u64,
            offset,
            length,
        )
    }
}

/// See `emuparasol_check`.
pub fn check(record: &[u8]) -> u8 {
    // SAFETY: slices and references, as the head of this file says.
    unsafe { emuparasol_check(record.as_ptr(), record.len() as u64) }
}

/// See `emuparasol_read`.
#[allow(clippy::too_many_arguments)]
pub fn read(
    record: &[u8],
    kinds: &mut [u8],
    keys: &mut [u32],
    payloads: &mut [u64],
    lows: &mut [u32],
    highs: &mut [u32],
    snapshot: &mut u32,
    points: &mut u64,
    scans: &mut u64,
) -> u8 {
    // SAFETY: slices and references, as the head of this file says.
    unsafe {
        emuparasol_read(
            record.as_ptr(),
            record.len() as u64,
            kinds.as_mut_ptr(),
            kinds.len() as u64,
            keys.as_mut_ptr(),
            keys.len() as u64,
            payloads.as_mut_ptr(),
            payloads.len() as u64,
            lows.as_mut_ptr(),
            lows.len() as u64,
            highs.as_mut_ptr(),
            highs.len() as u64,
            snapshot,
            points,
            scans,
        )
    }
}

/// See `emuparasol_write`.
#[allow(clippy::too_many_arguments)]
pub fn write(
    snapshot: u32,
    kinds: &[u8],
    keys: &[u32],
    payloads: &[u64],
    lows: &[u32],
    highs: &[u32],
    output: &mut [u8],
    size: &mut u64,
) -> u8 {
    // SAFETY: slices and references, as the head of this file says.
    unsafe {
        emuparasol_write(
            snapshot,
            kinds.as_ptr(),
            kinds.len() as u64,
            keys.as_ptr(),
            keys.len() as u64,
            payloads.as_ptr(),
            payloads.len() as u64,
            lows.as_ptr(),
            lows.len() as u64,
            highs.as_ptr(),
            highs.len() as u64,
            output.as_mut_ptr(),
            output.len() as u64,
            size,
        )
    }
}

/// See `emuparasol_join`.
pub fn join(a: &[u8], b: &[u8], output: &mut [u8], size: &mut u64) -> u8 {
    // SAFETY: slices and references, as the head of this file says.
    unsafe {
        emuparasol_join(
            a.as_ptr(),
            a.len() as u64,
            b.as_ptr(),
            b.len() as u64,
            output.as_mut_ptr(),
            output.len() as u64,
            size,
        )
    }
}

/// See `emuparasol_cut`.
pub fn cut(log: &[u8], place: u64, next: &mut u64) -> u8 {
    // SAFETY: slices and references, as the head of this file says.
    unsafe { emuparasol_cut(log.as_ptr(), log.len() as u64, place, next) }
}
