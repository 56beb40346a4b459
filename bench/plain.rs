//! Plain Rust on the same pools as the library: the same answers, looks and bytes, as bench/plain.c has them, in slices whose bounds are checked, with
//! no proof. For comparison only (bench/time). The two functions at the end are what C calls.
const HEAD: usize = 64;
const NODE: usize = 32;
const NONE: u32 = u32::MAX;
const MARK: u32 = 0x454D_5031;

// The answers (R3).
const COMMITTED: u8 = 0;
const CONFLICT: u8 = 1;
const TOO_OLD: u8 = 2;
const NO_ROOM: u8 = 3;
const MALFORMED: u8 = 4;
const AHEAD: u8 = 5;
const POSITIONS_USED_UP: u8 = 6;
const UNFIT_POOL: u8 = 7;

// The most points and scans of a record, and of one of version 1 (R6, R7, R53).
const MOST_POINTS: usize = 1024;
const MOST_SCANS: usize = 64;
const FEW_POINTS: usize = 64;
const FEW_SCANS: usize = 8;

// The words of a node, and those of the header, by their offsets.
const HEIGHT: usize = 0;
const LOW: usize = 4;
const NEWEST: usize = 8;
const OLDEST: usize = 12;
const LEFT: usize = 16;
const RIGHT: usize = 20;
const KIND: usize = 24;
const LIMIT: usize = 4;
const ZONE: usize = 8;
const POSITION: usize = 12;
const KEPT: usize = 16;
const ROOT: usize = 20;
const FREE: usize = 24;

#[inline]
fn get(bytes: &[u8], at: usize) -> u32 {
    u32::from_be_bytes(bytes[at..at + 4].try_into().unwrap())
}

#[inline]
fn get_two(bytes: &[u8], at: usize) -> u64 {
    u64::from_be_bytes(bytes[at..at + 8].try_into().unwrap())
}

#[inline]
fn set(bytes: &mut [u8], at: usize, x: u32) {
    bytes[at..at + 4].copy_from_slice(&x.to_be_bytes());
}

/// Where node i begins.
#[inline]
fn node(i: u32) -> usize {
    HEAD + NODE * i as usize
}

/// What the fitness check carries along.
struct Check<'a> {
    pool: &'a [u8],
    nodes: u32,
    position: u32,
    leaves: u32,
}

impl Check<'_> {
    /// Newest (high half) and oldest of the tree at node i, which has to cover a part of the 2^top numbers from low on.
    #[inline(always)]
    fn sums(&mut self, i: u32, low: u32, top: u32) -> Option<u64> {
        if i >= self.nodes {
            return None;
        }
        let n: &[u8; NODE] = self.pool[node(i)..][..NODE].try_into().unwrap();
        let (height, own) = (get(n, HEIGHT), get(n, LOW));
        if u64::from(own ^ low) >> top != 0 {
            return None;
        }
        if height > 0 {
            return if height > top {
                None
            } else {
                self.inner_sums(n, height, own)
            };
        }
        let (both, kind) = (get_two(n, NEWEST), get_two(n, KIND));
        let (newest, oldest) = ((both >> 32) as u32, both as u32);
        self.leaves += 1;
        if newest.wrapping_sub(1) >= self.position {
            return None;
        }
        let fits = match kind >> 32 {
            1 => oldest == NONE,
            2 => oldest == newest && get_two(n, LEFT) == 0,
            _ => false,
        };
        (fits && kind as u32 == 0).then_some(both)
    }

    #[inline(never)]
    fn inner_sums(&mut self, n: &[u8; NODE], height: u32, low: u32) -> Option<u64> {
        let half = 1_u32 << (height - 1);
        if get_two(n, KIND) != 0 || low & (half | (half - 1)) != 0 {
            return None;
        }
        let left = self.sums(get(n, LEFT), low, height - 1)?;
        let right = self.sums(get(n, RIGHT), low | half, height - 1)?;
        let both = left.max(right) >> 32 << 32 | u64::from((left as u32).min(right as u32));
        (get_two(n, NEWEST) == both).then_some(both)
    }
}

/// Whether from node i on there is a chain of exactly so many free nodes.
fn free_fit(pool: &[u8], nodes: u32, mut i: u32, count: u32) -> bool {
    for rank in (1..=count).rev() {
        if i >= nodes {
            return false;
        }
        let n: &[u8; NODE] = pool[node(i)..][..NODE].try_into().unwrap();
        if get(n, HEIGHT) != NONE
            || get(n, NEWEST) != rank
            || get(n, OLDEST) != 0
            || get_two(n, LEFT) | get_two(n, KIND) != 0
        {
            return false;
        }
        i = get(n, LOW);
    }
    i == NONE
}

fn fits(pool: &[u8]) -> bool {
    if pool.len() < HEAD || get(pool, 0) != MARK {
        return false;
    }
    let (limit, zone, kept, root) = (
        get(pool, LIMIT),
        get(pool, ZONE),
        get(pool, KEPT),
        get(pool, ROOT),
    );
    if !(1..=65536).contains(&limit)
        || !(1..=4096).contains(&zone)
        || pool.len() != HEAD + 64 * limit as usize
        || kept > limit
    {
        return false;
    }
    if pool[28..HEAD].iter().any(|&byte| byte != 0) {
        return false;
    }
    let mut check = Check {
        pool,
        nodes: 2 * limit,
        position: get(pool, POSITION),
        leaves: 0,
    };
    let tree = if kept == 0 {
        root == NONE
    } else {
        check.sums(root, 0, 32).is_some()
    };
    let free = if kept == 0 {
        2 * limit
    } else {
        2 * limit + 1 - 2 * kept
    };
    tree && check.leaves == kept && free_fit(pool, 2 * limit, get(pool, FREE), free)
}

#[inline]
fn covers(pool: &[u8], i: u32, key: u32) -> bool {
    u64::from(key ^ get(pool, node(i) + LOW)) >> get(pool, node(i) + HEIGHT) == 0
}

/// The offset of the child of an inner node on the key's side.
#[inline]
fn side(height: u32, key: u32) -> usize {
    if key >> (height - 1) & 1 == 1 {
        RIGHT
    } else {
        LEFT
    }
}

/// The leaf of a key.
fn leaf_of(pool: &[u8], key: u32) -> Option<usize> {
    let mut i = get(pool, ROOT);
    while i != NONE && covers(pool, i, key) {
        let height = get(pool, node(i) + HEIGHT);
        if height == 0 {
            return Some(node(i));
        }
        i = get(pool, node(i) + side(height, key));
    }
    None
}

/// A record's lists, with room for so many points and scans: those of version 1, or of version 2.
/// So a short record does not pay for the room of a long one.
struct Record<const POINTS: usize, const SCANS: usize> {
    snapshot: u32,
    points: usize,
    scans: usize,
    kinds: [u8; POINTS],
    keys: [u32; POINTS],
    payloads: [u64; POINTS],
    lows: [u32; SCANS],
    highs: [u32; SCANS],
}

impl<const POINTS: usize, const SCANS: usize> Record<POINTS, SCANS> {
    const EMPTY: Self = Record {
        snapshot: 0,
        points: 0,
        scans: 0,
        kinds: [0; POINTS],
        keys: [0; POINTS],
        payloads: [0; POINTS],
        lows: [0; SCANS],
        highs: [0; SCANS],
    };
}

/// So many bytes, and the rest, if there are so many.
fn front(bytes: &[u8], count: usize) -> Option<(&[u8], &[u8])> {
    (bytes.len() >= count).then(|| bytes.split_at(count))
}

/// Points, scans and the bytes behind their numbers, if the version and the numbers fit each other.
fn counts(bytes: &[u8]) -> Option<(usize, usize, &[u8])> {
    let few = |points, scans| points <= FEW_POINTS && scans <= FEW_SCANS;
    if bytes[2] == 1 {
        let (points, scans) = (bytes[7].into(), bytes[8].into());
        return few(points, scans).then_some((points, scans, &bytes[9..]));
    }
    let (head, rest) = front(bytes, 11)?;
    let two = |at: usize| usize::from(head[at]) << 8 | usize::from(head[at + 1]);
    let (points, scans) = (two(7), two(9));
    let second = head[2] == 2 && !few(points, scans);
    (second && points <= MOST_POINTS && scans <= MOST_SCANS).then_some((points, scans, rest))
}

/// Takes a record apart; none if it is malformed.
fn parse<const POINTS: usize, const SCANS: usize>(
    bytes: &[u8],
    r: &mut Record<POINTS, SCANS>,
) -> Option<()> {
    if bytes.len() < 9 || bytes.len() != 2 + (usize::from(bytes[0]) << 8 | usize::from(bytes[1])) {
        return None;
    }
    r.snapshot = get(bytes, 3);
    let mut rest;
    (r.points, r.scans, rest) = counts(bytes)?;
    for i in 0..r.points {
        let (head, behind) = front(rest, 5)?;
        rest = behind;
        if !(1..=3).contains(&head[0]) {
            return None;
        }
        r.kinds[i] = head[0];
        r.keys[i] = get(head, 1);
        if i > 0 && r.keys[i] <= r.keys[i - 1] {
            return None;
        }
        if head[0] == 2 {
            let (payload, behind) = front(rest, 8)?;
            rest = behind;
            r.payloads[i] = get_two(payload, 0);
        }
    }
    if rest.len() != 8 * r.scans {
        return None;
    }
    for i in 0..r.scans {
        r.lows[i] = get(rest, 8 * i);
        r.highs[i] = get(rest, 8 * i + 4);
        if r.lows[i] > r.highs[i] || (i > 0 && r.lows[i] <= r.highs[i - 1]) {
            return None;
        }
    }
    Some(())
}

/// The conflict walk: from left to right, with a cursor into the points and one into the scans.
struct Walk<'a, const POINTS: usize, const SCANS: usize> {
    pool: &'a [u8],
    record: &'a Record<POINTS, SCANS>,
    point: usize,
    scan: usize,
    looks: u32,
}

impl<const POINTS: usize, const SCANS: usize> Walk<'_, POINTS, SCANS> {
    fn conflict(&mut self, i: u32) -> bool {
        let (n, r) = (&self.pool[node(i)..][..NODE], self.record);
        self.looks += 1;
        if get(n, NEWEST) <= r.snapshot {
            return false;
        }
        let (low, height) = (get(n, LOW), get(n, HEIGHT));
        let to = u64::from(low) + (1_u64 << height);
        while self.point < r.points && r.keys[self.point] < low {
            self.point += 1;
        }
        while self.scan < r.scans && r.highs[self.scan] < low {
            self.scan += 1;
        }
        let named = self.point < r.points && u64::from(r.keys[self.point]) < to;
        if !named && !(self.scan < r.scans && u64::from(r.lows[self.scan]) < to) {
            return false;
        }
        height == 0 || self.conflict(get(n, LEFT)) || self.conflict(get(n, RIGHT))
    }
}

/// Old tombstones in the tree at node i.
fn count_old(pool: &[u8], i: u32, limit: u32) -> u32 {
    let n = node(i);
    if get(pool, n + OLDEST) > limit || get(pool, n + KIND) == 1 {
        return 0;
    }
    if get(pool, n + KIND) == 2 {
        return 1;
    }
    count_old(pool, get(pool, n + LEFT), limit) + count_old(pool, get(pool, n + RIGHT), limit)
}

#[inline]
fn write_node(pool: &mut [u8], i: u32, words: [u32; 7]) {
    let n = &mut pool[node(i)..][..NODE];
    for (at, word) in words.into_iter().enumerate() {
        set(n, 4 * at, word);
    }
    set(n, 28, 0);
}

/// Newest and oldest of an inner node from its children.
#[inline]
fn mend(pool: &mut [u8], n: usize) {
    let (left, right) = (node(get(pool, n + LEFT)), node(get(pool, n + RIGHT)));
    let newest = get(pool, left + NEWEST).max(get(pool, right + NEWEST));
    let oldest = get(pool, left + OLDEST).min(get(pool, right + OLDEST));
    set(pool, n + NEWEST, newest);
    set(pool, n + OLDEST, oldest);
}

/// The free nodes while tombstones are dropped.
struct Freed {
    first: u32,
    rank: u32,
}

fn free_node(pool: &mut [u8], i: u32, instead: u32, f: &mut Freed) -> u32 {
    f.rank += 1;
    write_node(pool, i, [NONE, f.first, f.rank, 0, 0, 0, 0]);
    f.first = i;
    instead
}

/// Drops the old tombstones of the tree at node i; the node that stands there then, or none.
fn drop_old(pool: &mut [u8], i: u32, limit: u32, f: &mut Freed) -> u32 {
    let n = node(i);
    if get(pool, n + OLDEST) > limit || get(pool, n + KIND) == 1 {
        return i;
    }
    if get(pool, n + KIND) == 2 {
        return free_node(pool, i, NONE, f);
    }
    let left = drop_old(pool, get(pool, n + LEFT), limit, f);
    let right = drop_old(pool, get(pool, n + RIGHT), limit, f);
    if left == NONE {
        return free_node(pool, i, right, f);
    }
    if right == NONE {
        return free_node(pool, i, left, f);
    }
    set(pool, n + LEFT, left);
    set(pool, n + RIGHT, right);
    mend(pool, n);
    i
}

/// Stores a leaf for the key: one descent, then newest and oldest mended on the way back. A
/// tombstone only where the descent ends at a live leaf: a delete of any other key writes
/// nothing (R22).
fn put(pool: &mut [u8], key: u32, v: u32, payload: u64, kind: u32) {
    let (mut i, mut link, mut depth, mut path) = (get(pool, ROOT), ROOT, 0, [0_usize; 33]);
    let oldest = if kind == 2 { v } else { NONE };
    let leaf = [
        0,
        key,
        v,
        oldest,
        (payload >> 32) as u32,
        payload as u32,
        kind,
    ];
    while i != NONE && covers(pool, i, key) && get(pool, node(i) + HEIGHT) > 0 {
        path[depth] = node(i);
        depth += 1;
        link = node(i) + side(get(pool, node(i) + HEIGHT), key);
        i = get(pool, link);
    }
    let found = i != NONE && covers(pool, i, key);
    if kind == 2 && !(found && get(pool, node(i) + KIND) == 1) {
        return;
    }
    if found {
        write_node(pool, i, leaf);
    } else {
        let first = get(pool, FREE);
        let mut at = first;
        if i != NONE {
            at = get(pool, node(first) + LOW);
            let free = get(pool, node(at) + LOW);
            set(pool, FREE, free);
            let n = node(i);
            let other = get(pool, n + LOW);
            let height = 32 - (other ^ key).leading_zeros();
            let low = if height == 32 {
                0
            } else {
                key >> height << height
            };
            let (newest, eldest) = (
                v.max(get(pool, n + NEWEST)),
                oldest.min(get(pool, n + OLDEST)),
            );
            let (left, right) = if key < other { (at, i) } else { (i, at) };
            write_node(pool, first, [height, low, newest, eldest, left, right, 0]);
        } else {
            let free = get(pool, node(first) + LOW);
            set(pool, FREE, free);
        }
        write_node(pool, at, leaf);
        set(pool, link, first);
        let kept = get(pool, KEPT) + 1;
        set(pool, KEPT, kept);
    }
    for &n in path[..depth].iter().rev() {
        mend(pool, n);
    }
}

/// Row 3. A delete that is found here to write nothing is a read from then on: nobody looks
/// for its key again.
enum Room {
    Enough,
    AfterDrop,
    TooLittle,
}

fn room<const POINTS: usize, const SCANS: usize>(
    pool: &[u8],
    r: &mut Record<POINTS, SCANS>,
    limit: u32,
) -> Room {
    let (n, kept) = (get(pool, LIMIT), get(pool, KEPT));
    if kept + r.points as u32 <= n {
        return Room::Enough;
    }
    let (mut absent, mut revived) = (0, 0);
    for i in 0..r.points {
        if r.kinds[i] == 1 {
            continue;
        }
        match leaf_of(pool, r.keys[i]) {
            Some(leaf) if get(pool, leaf + KIND) == 1 => {}
            _ if r.kinds[i] == 3 => r.kinds[i] = 1,
            None => absent += 1,
            Some(leaf) => revived += u32::from(get(pool, leaf + NEWEST) <= limit),
        }
    }
    if kept + absent <= n {
        return Room::Enough;
    }
    let old = if kept > 0 {
        count_old(pool, get(pool, ROOT), limit)
    } else {
        0
    };
    if kept + absent + revived - old <= n {
        Room::AfterDrop
    } else {
        Room::TooLittle
    }
}

fn meld(pool: &mut [u8], record: &[u8], looks: &mut u32) -> u8 {
    *looks = 0;
    if !fits(pool) {
        return UNFIT_POOL;
    }
    match record.get(2) {
        Some(2) => meld_fit::<MOST_POINTS, MOST_SCANS>(pool, record, looks),
        _ => meld_fit::<FEW_POINTS, FEW_SCANS>(pool, record, looks),
    }
}

/// Melds into a pool that is fit, with room for so many points and scans.
#[inline(never)]
fn meld_fit<const POINTS: usize, const SCANS: usize>(
    pool: &mut [u8],
    record: &[u8],
    looks: &mut u32,
) -> u8 {
    let (p, zone) = (get(pool, POSITION), get(pool, ZONE));
    if p == NONE {
        return POSITIONS_USED_UP;
    }
    let v = p + 1;
    set(pool, POSITION, v);
    let mut r = Record::<POINTS, SCANS>::EMPTY;
    if parse(record, &mut r).is_none() {
        return MALFORMED;
    }
    if r.snapshot > p {
        return AHEAD;
    }
    if p - r.snapshot > zone {
        return TOO_OLD;
    }
    let mut walk = Walk {
        pool,
        record: &r,
        point: 0,
        scan: 0,
        looks: 0,
    };
    let root = get(walk.pool, ROOT);
    let found = root != NONE && walk.conflict(root);
    *looks = walk.looks;
    if found {
        return CONFLICT;
    }
    let limit = v.saturating_sub(zone);
    match room(pool, &mut r, limit) {
        Room::TooLittle => return NO_ROOM,
        Room::AfterDrop => {
            let first = get(pool, FREE);
            let mut f = Freed {
                first,
                rank: get(pool, node(first) + NEWEST),
            };
            let root = drop_old(pool, root, limit, &mut f);
            let kept = (2 * get(pool, LIMIT) + 1 - f.rank) / 2;
            set(pool, ROOT, root);
            set(pool, FREE, f.first);
            set(pool, KEPT, kept);
        }
        Room::Enough => {}
    }
    for i in (0..r.points).filter(|&i| r.kinds[i] != 1) {
        put(
            pool,
            r.keys[i],
            v,
            r.payloads[i],
            if r.kinds[i] == 2 { 1 } else { 2 },
        );
    }
    COMMITTED
}

fn lookup(pool: &[u8], key: u32) -> (u8, u64, u32) {
    if !fits(pool) {
        return (7, 0, 0);
    }
    match leaf_of(pool, key) {
        Some(leaf) if get(pool, leaf + KIND) == 1 => {
            (0, get_two(pool, leaf + LEFT), get(pool, leaf + NEWEST))
        }
        _ => (0, 0, 0),
    }
}

/// # Safety
/// As `emuparasol_meld` asks.
#[no_mangle]
pub unsafe extern "C" fn rust_meld(
    pool: *mut u8,
    pool_length: u64,
    record: *const u8,
    record_length: u64,
    looks: *mut u32,
) -> u8 {
    let pool = std::slice::from_raw_parts_mut(pool, pool_length as usize);
    meld(
        pool,
        std::slice::from_raw_parts(record, record_length as usize),
        &mut *looks,
    )
}

/// # Safety
/// As `emuparasol_lookup` asks.
#[no_mangle]
pub unsafe extern "C" fn rust_lookup(
    pool: *const u8,
    pool_length: u64,
    key: u32,
    payload: *mut u64,
    position: *mut u32,
) -> u8 {
    let (answer, found, at) = lookup(std::slice::from_raw_parts(pool, pool_length as usize), key);
    *payload = found;
    *position = at;
    answer
}
