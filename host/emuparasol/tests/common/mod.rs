//! Every call twice, as it is and by the types above it, with guard elements around
//! everything that is lent: after each call the guards, and what was lent to be read,
//! are as before, and both ways say and leave the same.
#![allow(dead_code)]

pub mod raw;

use emuparasol::{
    Error, Point, Pool, Reason, Record, RecordBuffer, Records, Scan, Touch, MOST_POINTS,
    MOST_RECORD, MOST_SCANS,
};
use reference::layout::state_of;
use reference::program::split;
use reference::{Answer, Kind, Limits, State};
use std::sync::OnceLock;

/// Elements before and behind each lent list; odd, so that bytes stand anywhere.
const GUARD: usize = 33;

/// A list between guards.
pub struct Guarded<T> {
    all: Vec<T>,
    guard: T,
}

impl<T: Copy + PartialEq> Guarded<T> {
    /// The list between guard elements of this value.
    pub fn new(list: &[T], guard: T) -> Guarded<T> {
        let around = [guard; GUARD];
        Guarded {
            all: [&around[..], list, &around[..]].concat(),
            guard,
        }
    }

    /// What is lent.
    pub fn lent(&mut self) -> &mut [T] {
        let end = self.all.len() - GUARD;
        &mut self.all[GUARD..end]
    }

    /// The list with its guards.
    pub fn whole(&mut self) -> &mut [T] {
        &mut self.all
    }

    /// The list, once the guards are seen to be as before.
    pub fn back(self) -> Vec<T> {
        let (before, rest) = self.all.split_at(GUARD);
        let (list, behind) = rest.split_at(rest.len() - GUARD);
        let kept = |around: &[T]| around.iter().all(|&one| one == self.guard);
        assert!(kept(before), "an element before a lent list was written");
        assert!(kept(behind), "an element behind a lent list was written");
        list.to_vec()
    }

    /// The guards and the list are as before.
    pub fn same(self, list: &[T]) {
        assert!(self.back() == list, "what was lent to be read was written");
    }

    /// The one number of a list of one.
    pub fn number(self) -> T {
        self.back()[0]
    }
}

pub fn bytes(list: &[u8]) -> Guarded<u8> {
    Guarded::new(list, 0x5A)
}

pub fn words(list: &[u32]) -> Guarded<u32> {
    Guarded::new(list, 0x5A5A_5A5A)
}

pub fn longs(list: &[u64]) -> Guarded<u64> {
    Guarded::new(list, 0x5A5A_5A5A_5A5A_5A5A)
}

/// A number that is lent to be written; what it is before must not matter.
pub fn size() -> Guarded<u64> {
    Guarded::new(&[u64::MAX - 7], 0x5A5A_5A5A)
}

/// A number of the archive as a length or a place.
pub fn place(number: u64) -> usize {
    usize::try_from(number).expect("no more than was lent")
}

/// The number of what a call says, which has to be one of R3.
pub fn number<T>(said: &Result<T, Error>) -> u8 {
    match said {
        Ok(_) => 0,
        Err(Error::Unknown(number)) => panic!("unknown answer {number}"),
        Err(error) => error.number(),
    }
}

/// `create` in these bytes: the answer.
pub fn create(pool: &mut Vec<u8>, n: u32, z: u32) -> u8 {
    let mut lent = bytes(pool);
    let limits = emuparasol::Limits { n, z };
    let answer = number(&Pool::create(lent.lent(), limits));
    let mut again = bytes(pool);
    let recreated = Pool::from_bytes(again.lent()).recreate(limits);
    assert_eq!(number(&recreated), answer);
    assert_eq!(raw::create(pool, n, z), answer);
    lent.same(pool);
    again.same(pool);
    answer
}

/// `status`: the answer, N, Z, the position, the kept keys and the tombstones.
pub fn status(pool: &[u8]) -> (u8, [u32; 5]) {
    let mut lent = bytes(pool);
    let said = Pool::from_bytes(lent.lent()).status();
    lent.same(pool);
    let told = said.map(|it| {
        let emuparasol::Limits { n, z } = it.limits;
        [n, z, it.position, it.kept, it.tombstones]
    });
    let told = (number(&said), told.unwrap_or_default());
    assert_eq!(raw::status(pool), told);
    told
}

/// `lookup`: the answer, the payload and the position.
pub fn lookup(pool: &[u8], key: u32) -> (u8, u64, u32) {
    let mut lent = bytes(pool);
    let said = Pool::from_bytes(lent.lent()).lookup(key);
    lent.same(pool);
    let found = match said {
        Ok(Some(found)) => (0, found.payload, found.position),
        Ok(None) => (0, 0, 0),
        Err(_) => (number(&said), 0, 0),
    };
    assert_eq!(raw::lookup(pool, key), found);
    found
}

/// `meld`: the answer and the looks. It is an error exactly if no position was taken.
pub fn meld(pool: &mut Vec<u8>, record: &[u8]) -> (u8, u32) {
    let (mut lent, mut named) = (bytes(pool), bytes(record));
    let said = Pool::from_bytes(lent.lent()).meld(named.lent());
    named.same(record);
    let melded = match said {
        Ok(melded) => (melded.verdict.number(), melded.looks),
        Err(_) => (number(&said), 0),
    };
    assert_eq!(said.is_err(), melded.0 > 5);
    assert_eq!(raw::meld(pool, record), melded);
    lent.same(pool);
    melded
}

/// The six numbers of a reason: key, position, point, scan, lag and keys.
fn numbers(reason: Option<Reason>) -> [u64; 6] {
    let of = |key: u32, position: u32, [point, scan]: [usize; 2], lag: u32, keys: u32| {
        let [point, scan] = [point, scan].map(|number| number as u64);
        let [key, position, lag, keys] = [key, position, lag, keys].map(u64::from);
        [key, position, point, scan, lag, keys]
    };
    match reason {
        None => of(0, 0, [0, 0], 0, 0),
        Some(Reason::Conflict {
            key,
            position,
            touch: Touch::Point(number),
        }) => of(key, position, [number, 0], 0, 0),
        Some(Reason::Conflict {
            key,
            position,
            touch: Touch::Scan(number),
        }) => of(key, position, [0, number], 0, 0),
        Some(Reason::TooOld { lag }) => of(0, 0, [0, 0], lag, 0),
        Some(Reason::NoRoom { keys }) => of(0, 0, [0, 0], 0, keys),
    }
}

/// `explain`: the answer, the looks and the six numbers of the reason. It is what
/// melding says, and melding is not done.
pub fn explain(pool: &[u8], record: &[u8]) -> (u8, u32, [u64; 6]) {
    let (mut lent, mut named) = (bytes(pool), bytes(record));
    let said = Pool::from_bytes(lent.lent()).explain(named.lent());
    lent.same(pool);
    named.same(record);
    let told = match said {
        Ok(said) => (said.verdict.number(), said.looks, numbers(said.reason)),
        Err(_) => (number(&said), 0, [0; 6]),
    };
    assert_eq!(said.is_err(), told.0 > 5);
    assert_eq!(raw::explain(pool, record), told);
    assert_eq!(meld(&mut pool.to_vec(), record), (told.0, told.1));
    told
}

/// `refresh`: the answer. What is given is the front of the output.
pub fn refresh(pool: &[u8], original: &[u8], output: &mut Vec<u8>) -> u8 {
    let (mut lent, mut named, mut filled) = (bytes(pool), bytes(original), bytes(output));
    let said = Pool::from_bytes(lent.lent()).refresh(named.lent(), filled.lent());
    let answer = number(&said);
    let given = said.map(<[u8]>::to_vec);
    lent.same(pool);
    named.same(original);
    assert_eq!(raw::refresh(pool, original, output), answer);
    filled.same(output);
    if let Ok(given) = given {
        assert_eq!(given, output[..original.len()]);
    }
    answer
}

/// `in_force` after a refresh that left this output: whether the part is in the output,
/// and the part.
pub fn in_force(answer: u8, original: &[u8], output: &[u8]) -> (bool, Vec<u8>) {
    let refreshed = match Error::from_number(answer) {
        None => Ok(output),
        Some(error) => Err(error),
    };
    let part = emuparasol::in_force(refreshed, original);
    assert_ne!(part, Some(&[][..]));
    let (found, raw_part) = raw::in_force(answer, original, output);
    assert_eq!(part.unwrap_or_default(), raw_part);
    if let Some(part) = part {
        let from = if found { output } else { original };
        assert_eq!(part.as_ptr(), from.as_ptr());
    }
    (found, raw_part)
}

/// `check`: the answer.
pub fn check(record: &[u8]) -> u8 {
    let mut lent = bytes(record);
    let answer = number(&emuparasol::check(lent.lent()));
    lent.same(record);
    assert_eq!(raw::check(record), answer);
    answer
}

/// `cut`: the answer and the next place.
pub fn cut(log: &[u8], from: usize) -> (u8, usize) {
    let mut lent = bytes(log);
    let mut records = Records::at(lent.lent(), from);
    let said = records.next();
    let found = match said {
        Some(Ok(record)) => {
            assert_eq!(record, &log[from..records.place()]);
            assert!(!record.is_empty());
            0
        }
        None => 0,
        Some(Err(stopped)) => {
            assert_eq!(stopped.place, from);
            assert!([Error::TornLog, Error::ImpossibleLength].contains(&stopped.why));
            stopped.why.number()
        }
    };
    let found = (found, records.place());
    if !matches!(said, Some(Ok(_))) {
        assert_eq!((records.next(), records.next()), (None, None));
    }
    lent.same(log);
    assert_eq!(raw::cut(log, from), found);
    found
}

/// A point of the reference's as one of the crate's.
pub fn point(point: &reference::Point) -> Point {
    let key = point.key;
    match point.kind {
        Kind::Read => Point::Read { key },
        Kind::Put(payload) => Point::Put { key, payload },
        Kind::Delete => Point::Delete { key },
    }
}

/// Does the crate's record say what the reference's does?
pub fn same_record(one: &Record<'_>, other: &reference::Record) -> bool {
    let points: Vec<Point> = other.points.iter().map(point).collect();
    let scans: Vec<Scan> = other.scans.iter().map(scan).collect();
    *one == Record {
        snapshot: other.snapshot,
        points: &points,
        scans: &scans,
    }
}

/// A scan of the reference's as one of the crate's.
pub fn scan(&reference::Scan { low, high }: &reference::Scan) -> Scan {
    Scan { low, high }
}

/// `Record::write` into so much room: the answer, and the whole output. A refusal
/// leaves the output as it was, and what is given is its front.
pub fn write(record: &Record<'_>, room: usize) -> (u8, Vec<u8>) {
    let mut filled = bytes(&vec![0xC3; room]);
    let said = record.write(filled.lent());
    let (answer, given) = (number(&said), said.map(<[u8]>::to_vec));
    let output = filled.back();
    match given {
        Ok(given) => {
            assert_eq!(given, output[..given.len()]);
            let rest = &output[given.len()..];
            assert!(rest.iter().all(|&byte| byte == 0xC3));
        }
        Err(_) => assert_eq!(output, vec![0xC3; room]),
    }
    (answer, output)
}

/// `join` into so much room: the answer, and the whole output. A refusal leaves the output as
/// it was, and what is given is its front.
pub fn join(a: &[u8], b: &[u8], room: usize) -> (u8, Vec<u8>) {
    let (mut first, mut second) = (bytes(a), bytes(b));
    let mut filled = bytes(&vec![0xC3; room]);
    let said = emuparasol::join(first.lent(), second.lent(), filled.lent());
    let (answer, given) = (number(&said), said.map(<[u8]>::to_vec));
    first.same(a);
    second.same(b);
    let output = filled.back();
    let mut by_call = vec![0xC3; room];
    let size = given.as_ref().map_or(0, Vec::len);
    assert_eq!(raw::join(a, b, &mut by_call), (answer, size));
    assert_eq!(by_call, output);
    assert_eq!(given.unwrap_or_default(), output[..size]);
    assert!(output[size..].iter().all(|&byte| byte == 0xC3));
    (answer, output)
}

/// A buffer that holds the fullest record: 1,024 points and 64 scans, no number 0.
pub fn full_buffer() -> Box<RecordBuffer> {
    static FULL: OnceLock<Box<RecordBuffer>> = OnceLock::new();
    FULL.get_or_init(filled).clone()
}

fn filled() -> Box<RecordBuffer> {
    let keys = 1..=MOST_POINTS as u32;
    let points: Vec<Point> = keys.map(|key| Point::put(key, u64::MAX)).collect();
    let lows = 1..=MOST_SCANS as u32;
    let scans: Vec<Scan> = lows.map(|low| Scan { low, high: low }).collect();
    let record = Record {
        snapshot: 77,
        points: &points,
        scans: &scans,
    };
    let mut output = [0; MOST_RECORD];
    let mut buffer = Box::new(RecordBuffer::new());
    let written = record.write(&mut output).expect("room for any record");
    assert_eq!(written.len(), MOST_RECORD);
    assert_eq!(buffer.read(written), Ok(record));
    buffer
}

/// A new pool for these limits, in bytes that were anything before.
pub fn fresh(limits: Limits) -> Vec<u8> {
    let mut pool = vec![0xEE; emuparasol::pool_bytes(limits.n())];
    assert_eq!(create(&mut pool, limits.n(), limits.z()), 0);
    pool
}

/// The limits and the records of a seed's log; none if its limits are bad.
pub fn seeded(seed: u64) -> Option<(Limits, Vec<Vec<u8>>)> {
    let input = compare::generate::input(seed);
    let (limits, log) = split(&input).ok()?;
    let (parts, _) = reference::log::parts(log);
    Some((limits, parts.into_iter().map(<[u8]>::to_vec).collect()))
}

/// The pool means this state, and no other bytes than a fit pool's are there.
pub fn means(pool: &[u8], state: &State) {
    let meant = state_of(pool).expect("a fit pool");
    assert_eq!(meant.limits(), state.limits());
    assert_eq!(meant.position(), state.position());
    assert_eq!(meant.kept(), state.kept());
    let told = state.status();
    let (n, z) = (told.limits.n(), told.limits.z());
    let numbers = [n, z, told.position, told.kept, told.tombstones];
    assert_eq!(status(pool), (0, numbers));
}

/// Melds one record into the pool and into the state, and compares answer, looks
/// and what is left behind.
pub fn meld_both(pool: &mut Vec<u8>, state: &mut State, record: &[u8]) -> Answer {
    let verdict = state.meld(record);
    let melded = meld(pool, record);
    assert_eq!(melded, (verdict.answer.number(), verdict.looks));
    means(pool, state);
    verdict.answer
}

/// Looks a key up in both, and compares.
pub fn lookup_both(pool: &[u8], state: &State, key: u32) {
    let (payload, position) = state.lookup(key).unwrap_or((0, 0));
    assert_eq!(lookup(pool, key), (0, payload, position), "key {key}");
}

/// Explains a record to both, and compares; the six numbers of the reason.
pub fn explain_both(pool: &[u8], state: &State, record: &[u8]) -> [u64; 6] {
    let wanted = reference::reason::explain(state, record);
    let (answer, looks) = (wanted.verdict.answer.number(), wanted.verdict.looks);
    let numbers = wanted.reason.numbers();
    assert_eq!(explain(pool, record), (answer, looks, numbers));
    numbers
}

/// Refreshes in both, with so many bytes of output, and compares the answer, the
/// output and the record in force.
pub fn refresh_both(pool: &[u8], state: &State, original: &[u8], room: usize) -> Answer {
    let (mut expected, mut output) = (vec![0xC3; room], vec![0xC3; room]);
    let answer = reference::refresh::refresh(state, original, &mut expected);
    assert_eq!(refresh(pool, original, &mut output), answer.number());
    assert_eq!(output, expected);
    let in_force = reference::refresh::in_force(answer, original, &expected);
    let (found, part) = self::in_force(answer.number(), original, &output);
    assert_eq!(part, in_force);
    assert_eq!(found, answer == Answer::Committed);
    answer
}
