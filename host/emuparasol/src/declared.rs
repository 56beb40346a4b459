//! The functions of the static archive, declared as `include/emuparasol.h` does;
//! that header says what each answers and what it leaves behind. The gate holds
//! names, parameters and numbers to the header and to the proved source (`interface`).

extern "C" {
    pub fn emuparasol_create(pool: *mut u8, pool_length: u64, n: u32, z: u32) -> u8;
    pub fn emuparasol_status(
        pool: *const u8,
        pool_length: u64,
        n: *mut u32,
        z: *mut u32,
        position: *mut u32,
        kept: *mut u32,
        tombstones: *mut u32,
    ) -> u8;
    pub fn emuparasol_lookup(
        pool: *const u8,
        pool_length: u64,
        key: u32,
        payload: *mut u64,
        position: *mut u32,
    ) -> u8;
    pub fn emuparasol_meld(
        pool: *mut u8,
        pool_length: u64,
        record: *const u8,
        record_length: u64,
        looks: *mut u32,
    ) -> u8;
    pub fn emuparasol_feed(
        pool: *mut u8,
        pool_length: u64,
        carry: *mut u8,
        carry_length: u64,
        carried: *mut u64,
        part: *const u8,
        part_length: u64,
        over: bool,
        happened: *mut u8,
        looks: *mut u32,
        taken: *mut u64,
    ) -> u8;
    pub fn emuparasol_explain(
        pool: *const u8,
        pool_length: u64,
        record: *const u8,
        record_length: u64,
        looks: *mut u32,
        key: *mut u32,
        position: *mut u32,
        point: *mut u64,
        scan: *mut u64,
        lag: *mut u32,
        keys: *mut u32,
    ) -> u8;
    pub fn emuparasol_refresh(
        pool: *const u8,
        pool_length: u64,
        original: *const u8,
        original_length: u64,
        output: *mut u8,
        output_length: u64,
    ) -> u8;
    pub fn emuparasol_in_force(
        answer: u8,
        original: *const u8,
        original_length: u64,
        refreshed: *const u8,
        refreshed_length: u64,
        offset: *mut u64,
        length: *mut u64,
    ) -> bool;
    pub fn emuparasol_check(record: *const u8, record_length: u64) -> u8;
    pub fn emuparasol_read(
        record: *const u8,
        record_length: u64,
        kinds: *mut u8,
        kinds_length: u64,
        keys: *mut u32,
        keys_length: u64,
        payloads: *mut u64,
        payloads_length: u64,
        lows: *mut u32,
        lows_length: u64,
        highs: *mut u32,
        highs_length: u64,
        snapshot: *mut u32,
        points: *mut u64,
        scans: *mut u64,
    ) -> u8;
    pub fn emuparasol_write(
        snapshot: u32,
        kinds: *const u8,
        kinds_length: u64,
        keys: *const u32,
        keys_length: u64,
        payloads: *const u64,
        payloads_length: u64,
        lows: *const u32,
        lows_length: u64,
        highs: *const u32,
        highs_length: u64,
        output: *mut u8,
        output_length: u64,
        size: *mut u64,
    ) -> u8;
    pub fn emuparasol_join(
        a: *const u8,
        a_length: u64,
        b: *const u8,
        b_length: u64,
        output: *mut u8,
        output_length: u64,
        size: *mut u64,
    ) -> u8;
    pub fn emuparasol_cut(log: *const u8, log_length: u64, place: u64, next: *mut u64) -> u8;
}

// What `emuparasol_feed` has done.
pub const REFUSED: u8 = 0;
pub const DECIDED: u8 = 1;
pub const MORE: u8 = 2;
pub const END: u8 = 3;
