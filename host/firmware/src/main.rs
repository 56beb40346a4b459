//! The program of R41 (docs/RULES.md) as firmware is written: `no_std`, no heap, all
//! memory of fixed size. N and Z and a log come in on standard input; a line goes out
//! for each record, then `end`, `10` for a torn log or `11` for an impossible length; only
//! `9` for bad limits; nothing where the input cannot be read to its end, or is longer than
//! there is room for.
//!
//! Along the way each record is taken apart and written again, joined, refreshed, explained and
//! looked up, and the log is fed page by page into a second pool, which must say and become the
//! same; where anything is not as it must be, a line `DIFFERS` goes out.
//!
//! What a panic would call is not there to be linked. So the program is built (with
//! `--release`) only if nothing in it can panic: neither here nor in the crate. With
//! the feature `panics` it is not.
#![no_std]
#![no_main]

mod system;

use emuparasol::{
    check, in_force, join, pool_bytes, Carry, Error, Fed, Limits, Melded, Point, Pool, Reason,
    Record, RecordBuffer, Records, Touch, Verdict, LEAST_RECORD, MOST_RECORD,
};
use system::{read_all, say, say_number};

/// The largest N of the program.
const MOST_N: u32 = 1_000;
/// The longest input.
const MOST_INPUT: usize = 1 << 21;
/// The bytes of a page.
const PAGE: usize = 256;

/// The number in four bytes, most significant first.
fn word(bytes: &[u8; 4]) -> u32 {
    u32::from_be_bytes(*bytes)
}

/// The limits and the log of an input.
fn split(input: &[u8]) -> Option<(Limits, &[u8])> {
    #[cfg(feature = "panics")]
    let input = &input[1..];
    let (n, rest) = input.split_first_chunk()?;
    let (z, log) = rest.split_first_chunk()?;
    let (n, z) = (word(n), word(z));
    (n <= MOST_N).then_some((Limits { n, z }, log))
}

/// Is the record, if it is well formed, written again as the same bytes?
fn there_and_back(bytes: &[u8], buffer: &mut RecordBuffer, output: &mut [u8]) -> bool {
    match buffer.read(bytes) {
        Ok(record) => check(bytes).is_ok() && record.write(output) == Ok(bytes),
        Err(error) => check(bytes) == Err(error) && error == Error::Malformed,
    }
}

/// Does explaining before the meld say what it said, and name what the record has (R50)?
fn explained_alike<B: AsRef<[u8]>>(
    pool: &Pool<B>,
    bytes: &[u8],
    melded: Melded,
    record: Record<'_>,
) -> bool {
    let Ok(explained) = pool.explain(bytes) else {
        return false;
    };
    let named = match explained.reason {
        Some(Reason::Conflict {
            position, touch, ..
        }) => {
            let there = match touch {
                Touch::Point(number) => (1..=record.points.len()).contains(&number),
                Touch::Scan(number) => (1..=record.scans.len()).contains(&number),
            };
            there && position > record.snapshot
        }
        _ => true,
    };
    let told = explained.reason.is_some();
    let refused = [Verdict::Conflict, Verdict::TooOld, Verdict::NoRoom].contains(&melded.verdict);
    named
        && told == refused
        && (explained.verdict, explained.looks) == (melded.verdict, melded.looks)
}

/// A card that meets only small records lends less: does it get the same record, or is it
/// told that there is no room exactly for the others?
fn small_alike(bytes: &[u8], small: &mut RecordBuffer<64, 8>, buffer: &RecordBuffer) -> bool {
    let Record { points, scans, .. } = buffer.record();
    match small.read(bytes) {
        Ok(record) => record == buffer.record(),
        Err(Error::OutputShort) => points.len() > 64 || scans.len() > 8,
        Err(error) => check(bytes) == Err(error),
    }
}

/// Is the record, joined with one that has its snapshot and nothing in it, the record itself,
/// and with itself too if it writes nothing (R57)? One that is malformed cannot be joined, and
/// one that writes not with itself (R56).
fn joined_alike(bytes: &[u8], record: Record<'_>, output: &mut [u8]) -> bool {
    if check(bytes).is_err() {
        return join(bytes, bytes, output) == Err(Error::CannotJoin);
    }
    let mut room = [0; LEAST_RECORD];
    let nothing = Record {
        snapshot: record.snapshot,
        ..Record::default()
    };
    let Ok(nothing) = nothing.write(&mut room) else {
        return false;
    };
    let read = |point: &Point| matches!(point, Point::Read { .. });
    let itself = match record.points.iter().all(read) {
        true => Ok(bytes),
        false => Err(Error::CannotJoin),
    };
    join(bytes, nothing, output) == Ok(bytes)
        && join(nothing, bytes, output) == Ok(bytes)
        && join(bytes, bytes, output) == itself
}

/// Does a refresh before the meld agree with its verdict (R38)?
fn refreshed_alike<B: AsRef<[u8]>>(
    pool: &Pool<B>,
    bytes: &[u8],
    verdict: Verdict,
    output: &mut [u8],
) -> bool {
    let refreshed = pool.refresh(bytes, output);
    let appended = in_force(refreshed, bytes).is_some();
    match verdict {
        // Refresh does not ask for room.
        Verdict::Committed | Verdict::NoRoom => refreshed.is_ok() && appended,
        refused => {
            let ahead = refused == Verdict::Ahead;
            refused.committed() == refreshed.map(|_| ()) && appended == ahead
        }
    }
}

/// After a commit at this position, is each write of the record seen (R28)?
fn stored<B: AsRef<[u8]>>(pool: &Pool<B>, record: Record<'_>, position: u32) -> bool {
    let seen = |point: &Point| match (*point, pool.lookup(point.key())) {
        (Point::Read { .. }, found) => found.is_ok(),
        (Point::Delete { .. }, found) => found == Ok(None),
        (Point::Put { payload, .. }, Ok(Some(found))) => {
            found.payload == payload && found.position == position
        }
        (Point::Put { .. }, _) => false,
    };
    record.points.iter().all(seen)
}

/// A log that comes in pages, and a pool that is fed with them.
struct Paged<'a> {
    pool: Pool<&'a mut [u8]>,
    carry: Carry,
    /// What was read of the log and is not taken yet.
    page: &'a [u8],
    /// The log behind it.
    log: &'a [u8],
}

impl Paged<'_> {
    /// The next record decided; none at the log's end.
    fn next(&mut self) -> Result<Option<Melded>, Error> {
        loop {
            let over = self.log.is_empty();
            match self.pool.feed(&mut self.carry, self.page, over)? {
                Fed::Decided { melded, taken } => {
                    self.page = self.page.get(taken..).unwrap_or_default();
                    return Ok(Some(melded));
                }
                Fed::More => {
                    let (page, log) = self.log.split_at_checked(PAGE).unwrap_or((self.log, &[]));
                    (self.page, self.log) = (page, log);
                }
                Fed::End => return Ok(None),
            }
        }
    }
}

/// Melds a log into a new pool in these bytes, and says a line for each record.
fn meld_log(bytes: &mut [u8], limits: Limits, log: &[u8]) -> Result<(), Error> {
    let mut second = [0; pool_bytes(MOST_N)];
    let second = second.get_mut(..bytes.len()).unwrap_or_default();
    let mut paged = Paged {
        pool: Pool::create(second, limits)?,
        carry: Carry::new(),
        page: &[],
        log,
    };
    let mut pool = Pool::create(bytes, limits)?;
    let mut before = [0; pool_bytes(MOST_N)];
    // The room of the longest record, made once and used for each.
    let mut buffer = RecordBuffer::new();
    let mut small = RecordBuffer::with_room();
    let mut output = [0; MOST_RECORD];
    for part in Records::new(log) {
        let part = match part {
            Ok(part) => part,
            Err(stopped) => {
                // Torn or an impossible length: in pages the same, however often it is asked.
                let why = stopped.why;
                if paged.next() != Err(why) || paged.next() != Err(why) {
                    say("DIFFERS\n");
                }
                return Err(why);
            }
        };
        // A copy of the pool as it was, to be asked after the verdict is known.
        for (to, from) in before.iter_mut().zip(pool.as_bytes()) {
            *to = *from;
        }
        let before = before.get(..pool_bytes(limits.n)).unwrap_or_default();
        let melded = pool.meld(part)?;
        let status = pool.status()?;
        say_number(status.position);
        say(" ");
        say_number(melded.verdict.number().into());
        say(" ");
        say_number(melded.looks);
        say("\n");
        let committed = melded.verdict == Verdict::Committed;
        let right = paged.next() == Ok(Some(melded))
            && paged.pool.as_bytes() == pool.as_bytes()
            && there_and_back(part, &mut buffer, &mut output)
            && small_alike(part, &mut small, &buffer)
            && joined_alike(part, buffer.record(), &mut output)
            && part.len() >= LEAST_RECORD
            && status.limits == limits
            && status.tombstones <= status.kept
            && status.kept <= limits.n
            && refreshed_alike(&Pool::from_bytes(before), part, melded.verdict, &mut output)
            && explained_alike(&Pool::from_bytes(before), part, melded, buffer.record())
            && (!committed || stored(&pool, buffer.record(), status.position));
        if !right {
            say("DIFFERS\n");
        }
    }
    if paged.next() != Ok(None) {
        say("DIFFERS\n");
    }
    Ok(())
}

/// What the C library's start-up code calls.
#[no_mangle]
extern "C" fn main() -> i32 {
    let mut input = [0; MOST_INPUT];
    let mut bytes = [0; pool_bytes(MOST_N)];
    let Some(input) = read_all(&mut input) else {
        return 1;
    };
    let said = match split(input) {
        Some((limits, log)) => match bytes.get_mut(..pool_bytes(limits.n)) {
            Some(bytes) => meld_log(bytes, limits, log),
            None => Err(Error::BadLimits),
        },
        None => Err(Error::BadLimits),
    };
    match said {
        Ok(()) => say("end"),
        Err(error) => say_number(error.number().into()),
    }
    say("\n");
    0
}
