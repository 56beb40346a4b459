//! Logs fed in parts: cut at every byte, in pages, byte by byte, with empty parts, against
//! the whole log walked by the reference; and every row of R47 by itself.

mod common;

use common::raw::{self, Fed};
use common::{fresh, means, seeded};
use emuparasol::{Carry, Error, Pool, Verdict, CARRY_BYTES};
use reference::program::split;
use reference::random::Random;
use reference::{Limits, LogReader, Point, Record, Scan, State, Step};

/// What happened, as the header numbers it.
const REFUSED: u8 = 0;
const DECIDED: u8 = 1;
const MORE: u8 = 2;
const END: u8 = 3;

/// A card that is fed by the call as it is and by the types above it: both must say and
/// leave the same.
struct Feeder {
    pool: Vec<u8>,
    carry: Vec<u8>,
    carried: u64,
    typed: Pool<Vec<u8>>,
    typed_carry: Carry,
}

impl Feeder {
    fn new(limits: Limits) -> Feeder {
        Feeder::on(fresh(limits))
    }

    /// With nothing carried, and any bytes in the carry.
    fn on(pool: Vec<u8>) -> Feeder {
        Feeder {
            typed: Pool::from_bytes(pool.clone()),
            typed_carry: Carry::new(),
            carry: vec![0xC3; CARRY_BYTES],
            carried: 0,
            pool,
        }
    }

    /// One call each way.
    fn feed(&mut self, part: &[u8], over: bool) -> Fed {
        let before = (self.pool.clone(), self.carry.clone(), self.carried);
        let fed = raw::feed(&mut self.pool, &mut self.carry, self.carried, part, over);
        self.carried = fed.carried;
        let said = self.typed.feed(&mut self.typed_carry, part, over);
        let expected = match (fed.happened, fed.answer) {
            (DECIDED, number @ 0..=5) => {
                let verdict = Verdict::from_number(number).expect("0 to 5");
                Ok((1, Some((verdict, fed.looks, fed.taken))))
            }
            (MORE, 0) => Ok((2, None)),
            (END, 0) => Ok((3, None)),
            (DECIDED, 6) | (REFUSED, 7 | 10 | 11) => {
                Err(Error::from_number(fed.answer).expect("not 0"))
            }
            other => panic!("{other:?}"),
        };
        let said = said.map(|fed| match fed {
            emuparasol::Fed::Decided { melded, taken } => {
                (1, Some((melded.verdict, melded.looks, taken)))
            }
            emuparasol::Fed::More => (2, None),
            emuparasol::Fed::End => (3, None),
        });
        assert_eq!(said, expected);
        assert_eq!(self.typed.as_bytes(), self.pool);
        assert_eq!(self.typed_carry.as_bytes(), self.front());
        self.left(before, part, fed);
        fed
    }

    /// The bytes carried.
    fn front(&self) -> &[u8] {
        &self.carry[..common::place(self.carried)]
    }

    /// What every call leaves: the carry behind what was put there, and the pool unless a
    /// record was decided.
    fn left(&self, (pool, carry, carried): (Vec<u8>, Vec<u8>, u64), part: &[u8], fed: Fed) {
        let from = common::place(carried);
        let in_place = fed.happened == DECIDED && from == 0;
        let put = if in_place { 0 } else { fed.taken };
        assert_eq!(self.carry[..from], carry[..from]);
        assert_eq!(self.carry[from..from + put], part[..put]);
        assert_eq!(self.carry[from + put..], carry[from + put..]);
        if fed.happened != DECIDED {
            assert_eq!(self.pool, pool);
            assert_eq!(fed.looks, 0);
        }
        let carried_then = match (fed.happened, fed.taken) {
            (DECIDED, _) | (END, _) => 0,
            (_, taken) => from + taken,
        };
        assert_eq!(fed.carried, carried_then as u64);
        assert!(fed.taken <= part.len());
    }
}

/// What a walk over a log says: a verdict and looks for each record, and the ending, 10, 11
/// or `END` for the end.
type Walk = (Vec<(u8, u32)>, u8);

/// The whole log by the reference.
fn walk(limits: Limits, log: &[u8]) -> (Walk, State) {
    let (parts, rest) = reference::log::parts(log);
    let mut state = State::new(limits);
    let verdict = |state: &mut State, part: &[u8]| {
        let verdict = state.meld(part);
        (verdict.answer.number(), verdict.looks)
    };
    let verdicts = parts.iter().map(|part| verdict(&mut state, part)).collect();
    let ending = match LogReader::at(log, log.len() - rest.len()).step() {
        Step::End => END,
        Step::Torn => 10,
        Step::Impossible => 11,
        Step::Part(part) => panic!("a record behind the last: {part:?}"),
    };
    ((verdicts, ending), state)
}

/// The log fed in these parts, each until it is taken, and then an empty one that says
/// that the log is over.
fn fed<'a>(feeder: &mut Feeder, parts: impl IntoIterator<Item = &'a [u8]>) -> Walk {
    let mut verdicts = Vec::new();
    for part in parts {
        let mut rest = part;
        loop {
            let fed = feeder.feed(rest, false);
            match fed.happened {
                DECIDED => verdicts.push((fed.answer, fed.looks)),
                MORE => break assert_eq!(fed.taken, rest.len()),
                // The log is not over, so it is not torn; and every later part is told the same.
                REFUSED => break assert_eq!(fed.answer, 11),
                other => panic!("{other}"),
            }
            rest = &rest[fed.taken..];
        }
    }
    let last = feeder.feed(&[], true);
    let ending = match last.happened {
        REFUSED => last.answer,
        other => other,
    };
    (verdicts, ending)
}

/// The limits and the log of a seed, of at most so many bytes.
fn logs(seeds: std::ops::Range<u64>, most: usize) -> Vec<(Limits, Vec<u8>)> {
    let log = |seed| {
        let input = compare::generate::input(seed);
        let (limits, log) = split(&input).ok()?;
        Some((limits, log[..log.len().min(most)].to_vec()))
    };
    seeds.filter_map(log).collect()
}

#[test]
fn cut_at_every_byte() {
    for (limits, log) in logs(0..40, 200) {
        let (expected, state) = walk(limits, &log);
        for cut in 0..=log.len() {
            let mut feeder = Feeder::new(limits);
            let parts = [&log[..cut], &[], &log[cut..]];
            assert_eq!(fed(&mut feeder, parts), expected, "cut at {cut}");
            if cut % 50 == 0 {
                means(&feeder.pool, &state);
            }
        }
    }
}

#[test]
fn in_parts_of_any_size() {
    let mut random = Random::new(21);
    let (mut whole, mut torn, mut impossible) = (0, 0, 0);
    for (limits, log) in logs(0..120, 6_000) {
        let (expected, state) = walk(limits, &log);
        match expected.1 {
            END => whole += 1,
            10 => torn += 1,
            _ => impossible += 1,
        }
        for size in [1, 2, 3, 256, 905, 2_048, CARRY_BYTES, usize::MAX] {
            let mut feeder = Feeder::new(limits);
            assert_eq!(
                fed(&mut feeder, log.chunks(size)),
                expected,
                "parts of {size}"
            );
            means(&feeder.pool, &state);
        }
        let (mut parts, mut rest) = (Vec::new(), &log[..]);
        while !rest.is_empty() {
            let size = random.pick(&[0, 0, 1, 2, 9, 22, 300, 1_000]);
            let (part, behind) = rest.split_at(random.below(size + 1).min(rest.len()));
            parts.push(part);
            rest = behind;
        }
        let mut feeder = Feeder::new(limits);
        assert_eq!(fed(&mut feeder, parts), expected);
        means(&feeder.pool, &state);
    }
    assert!(
        whole > 10 && torn > 5 && impossible > 5,
        "{whole} {torn} {impossible}"
    );
}

#[test]
fn the_log_is_over_with_its_last_part() {
    for (limits, log) in logs(0..40, 2_000) {
        let ((verdicts, ending), _) = walk(limits, &log);
        let mut feeder = Feeder::new(limits);
        let (mut rest, mut said) = (&log[..], Vec::new());
        let last = loop {
            let fed = feeder.feed(rest, true);
            rest = &rest[fed.taken..];
            match (fed.happened, fed.answer) {
                (DECIDED, answer) => said.push((answer, fed.looks)),
                (REFUSED, answer) => break answer,
                (happened, _) => break happened,
            }
        };
        assert_eq!((said, last), (verdicts, ending));
    }
}

#[test]
fn records_of_version_2_in_parts() {
    let limits = Limits::new(1_600, 8).expect("good limits");
    let put = |snapshot, first: u32, points: u32, scans: u32| {
        let scan = |low| Scan { low, high: low };
        let record = Record {
            snapshot,
            points: (first..first + points)
                .map(|key| Point::put(key, 7))
                .collect(),
            scans: (10_000..10_000 + scans).map(scan).collect(),
        };
        record.written().expect("it keeps the rules")
    };
    let records = [
        put(0, 1, 3, 0),
        put(1, 100, 65, 0),     // the shortest of version 2 that has only puts
        put(0, 200, 1, 9),      // by its scans
        put(3, 500, 1_024, 64), // the longest that there is
        put(3, 1_400, 64, 8),   // in conflict with it
        put(4, 2_000, 400, 0),
        put(6, 1, 1_024, 0), // no room
    ];
    let log = records.concat();
    let (expected, state) = walk(limits, &log);
    let verdicts: Vec<u8> = expected.0.iter().map(|it| it.0).collect();
    assert_eq!(verdicts, [0, 0, 0, 0, 1, 0, 3]);
    for size in [
        1,
        255,
        256,
        2_048,
        4_096,
        13_834,
        13_835,
        13_836,
        usize::MAX,
    ] {
        let mut feeder = Feeder::new(limits);
        // Byte by byte only the first records: each call copies pool and carry here.
        let log = if size == 1 { &log[..1_100] } else { &log };
        let (expected, state) = walk(limits, log);
        assert_eq!(fed(&mut feeder, log.chunks(size)), expected, "{size}");
        means(&feeder.pool, &state);
    }
    // Cut at each byte of a head, and about each record's end.
    let mut ends = vec![0];
    for record in &records {
        ends.push(ends[ends.len() - 1] + record.len());
    }
    for end in ends {
        for cut in end.saturating_sub(3)..=(end + 14).min(log.len()) {
            let mut feeder = Feeder::new(limits);
            let parts = [&log[..cut], &log[cut..]];
            assert_eq!(fed(&mut feeder, parts), expected, "cut at {cut}");
            means(&feeder.pool, &state);
        }
    }
}

/// A pool for three keys, and the empty record of 9 bytes.
fn small() -> Limits {
    Limits::new(3, 4).expect("good limits")
}
const EMPTY: [u8; 9] = [0, 7, 1, 0, 0, 0, 0, 0, 0];

/// Can a record have this length?
fn can_be(length: u16) -> bool {
    (7..=13_833).contains(&length)
}

#[test]
fn of_every_length_it_is_said_whether_it_can_be() {
    let mut pool = fresh(small());
    let mut carry = vec![0; CARRY_BYTES];
    for length in 0..=u16::MAX {
        let bytes = length.to_be_bytes();
        let (mut carried, mut happened, mut looks, mut taken) = (0, 9, 9, 9);
        let answer = emuparasol::calls::feed(
            &mut pool,
            &mut carry,
            &mut carried,
            &bytes,
            false,
            &mut happened,
            &mut looks,
            &mut taken,
        );
        let expected = if can_be(length) {
            (MORE, 0)
        } else {
            (REFUSED, 11)
        };
        assert_eq!((happened, answer), expected, "{length}");
        assert_eq!((looks, taken, carried), (0, 2, 2));
        assert_eq!(carry[..2], bytes);
    }
}

#[test]
fn an_impossible_length_is_said_as_soon_as_it_is_in() {
    let about = (0..=20).chain(890..=920).chain(13_800..=13_900);
    for length in about.chain((0..=u16::MAX).step_by(50)) {
        let bytes = length.to_be_bytes();
        let possible = can_be(length);
        for cut in [0, 1, 2] {
            if length % 100 != 0 && cut != 1 {
                continue;
            }
            let mut feeder = Feeder::new(small());
            let first = feeder.feed(&bytes[..cut], false);
            let said = |impossible| if impossible { 11 } else { 0 };
            assert_eq!(first.answer, said(cut == 2 && !possible));
            let second = feeder.feed(&bytes[cut..], false);
            assert_eq!(second.answer, said(!possible), "{length}");
            if !possible {
                assert_eq!((second.taken, feeder.front()), (2 - cut, &bytes[..]));
                for (part, over) in [
                    (&[][..], false),
                    (&[], true),
                    (&EMPTY, false),
                    (&EMPTY, true),
                ] {
                    let again = feeder.feed(part, over);
                    assert_eq!(
                        (again.happened, again.answer, again.taken),
                        (REFUSED, 11, 0)
                    );
                    assert_eq!(feeder.front(), &bytes[..]);
                }
            }
        }
    }
}

#[test]
fn an_impossible_length_is_said_to_every_later_part() {
    for behind in [&[0x36, 0x0A][..], &[0, 0], &[0xFF; CARRY_BYTES]] {
        let log = [&EMPTY[..], behind].concat();
        for cut in 0..=EMPTY.len() + 2 {
            let mut feeder = Feeder::new(small());
            let parts = [&log[..cut], &log[cut..], &EMPTY, &[], &log];
            assert_eq!(fed(&mut feeder, parts), (vec![(0, 0)], 11));
            assert_eq!(feeder.front(), &behind[..2]);
        }
    }
}

#[test]
fn a_torn_end_is_said_only_when_the_log_is_over() {
    for end in 1..EMPTY.len() {
        let mut feeder = Feeder::new(small());
        assert_eq!(feeder.feed(&EMPTY[..end], false).happened, MORE);
        assert_eq!(feeder.feed(&[], false).happened, MORE);
        let over = feeder.feed(&[], true);
        assert_eq!((over.happened, over.answer), (REFUSED, 10));
        // It was only asked; the rest may still come.
        let rest = feeder.feed(&EMPTY[end..], true);
        assert_eq!((rest.happened, rest.taken), (DECIDED, EMPTY.len() - end));
        assert_eq!(feeder.feed(&[], true).happened, END);
    }
}

#[test]
fn an_unfit_pool_keeps_the_record() {
    for carried in 0..EMPTY.len() {
        let mut feeder = Feeder::new(small());
        if carried > 0 {
            assert_eq!(feeder.feed(&EMPTY[..carried], false).happened, MORE);
        }
        let (mut pool, good) = (feeder.pool.clone(), feeder.pool.clone());
        pool[0] ^= 1;
        feeder.pool = pool.clone();
        feeder.typed = Pool::from_bytes(pool);
        let refused = feeder.feed(&EMPTY[carried..], false);
        assert_eq!(
            (refused.happened, refused.answer, refused.taken),
            (REFUSED, 7, 0)
        );
        assert_eq!(feeder.front(), &EMPTY[..carried]);
        feeder.pool = good.clone();
        feeder.typed = Pool::from_bytes(good);
        assert_eq!(feeder.feed(&EMPTY[carried..], false).happened, DECIDED);
    }
}

#[test]
fn a_full_log_takes_the_record_and_leaves_the_pool() {
    for carried in [0, 1, 5] {
        let mut pool = fresh(small());
        pool[12..16].copy_from_slice(&u32::MAX.to_be_bytes());
        let mut feeder = Feeder::on(pool.clone());
        if carried > 0 {
            assert_eq!(feeder.feed(&EMPTY[..carried], false).happened, MORE);
        }
        let part = [&EMPTY[carried..], &EMPTY].concat();
        let full = feeder.feed(&part, false);
        assert_eq!((full.happened, full.answer), (DECIDED, 6));
        assert_eq!(full.taken, EMPTY.len() - carried);
        assert_eq!(feeder.pool, pool);
        assert!(feeder.front().is_empty());
    }
}

#[test]
fn what_no_call_leaves_is_refused() {
    let refused = |carry: &[u8], carried: u64, over| {
        for part in [&[][..], &EMPTY, &[0xFF; 1_000]] {
            let (mut pool, mut lent) = (fresh(small()), carry.to_vec());
            let fed = raw::feed(&mut pool, &mut lent, carried, part, over);
            let nothing = Fed {
                happened: REFUSED,
                answer: 8,
                looks: 0,
                taken: 0,
                carried,
            };
            if fed != nothing {
                return false;
            }
            assert_eq!((pool, &lent[..]), (fresh(small()), carry));
        }
        true
    };
    // A carry of another size, whatever is carried.
    for size in [0, 1, 2, 904, 905, 906, 2_000, 13_834, 13_836, 20_000] {
        for carried in [0, 1, 2, 904, 905, 13_834, 13_835, u64::MAX] {
            assert!(refused(&vec![0; size], carried, false));
        }
    }
    // R48: of each length every count.
    for length in [
        0, 1, 6, 7, 8, 100, 902, 903, 904, 13_832, 13_833, 13_834, 65_535_u16,
    ] {
        let mut carry = vec![0x11; CARRY_BYTES];
        carry[..2].copy_from_slice(&length.to_be_bytes());
        let possible = can_be(length);
        let about = u64::from(length).saturating_sub(3)..=u64::from(length) + 5;
        let most = 13_830..=13_840;
        for carried in (0..=1_000)
            .chain(about)
            .chain(most)
            .chain([u64::MAX - 1, u64::MAX])
        {
            let may = match carried {
                0 | 1 => true,
                2 => true,
                more => possible && more < u64::from(length) + 2,
            };
            assert_eq!(refused(&carry, carried, false), !may, "{length} {carried}");
        }
    }
}

#[test]
fn a_carry_says_what_it_carries() {
    let mut pool = Pool::from_bytes(fresh(small()));
    let mut carry = Carry::default();
    assert!(carry.as_bytes().is_empty());
    assert_eq!(
        pool.feed(&mut carry, &EMPTY[..4], false),
        Ok(emuparasol::Fed::More)
    );
    assert_eq!(carry.as_bytes(), &EMPTY[..4]);
    assert_eq!(format!("{carry:?}"), "Carry { carried: 4 }");
    // A copy goes on by itself, on a pool at the same place.
    let (mut other, mut copy) = (pool.clone(), carry.clone());
    assert!(pool.feed(&mut carry, &EMPTY[4..], false).is_ok());
    assert_eq!(copy.as_bytes(), &EMPTY[..4]);
    assert!(other.feed(&mut copy, &EMPTY[4..], false).is_ok());
    assert_eq!(pool.as_bytes(), other.as_bytes());
    assert!(carry.as_bytes().is_empty() && copy.as_bytes().is_empty());
    assert_eq!(
        pool.feed(&mut carry, &[0, 3, 9], false),
        Err(Error::ImpossibleLength)
    );
    assert_eq!(carry.as_bytes(), [0, 3]);
    // What is carried is forgotten, and a record begins anew; also behind such a length.
    carry.forget();
    assert!(carry.as_bytes().is_empty());
    assert_eq!(
        pool.feed(&mut carry, &EMPTY[..4], false),
        Ok(emuparasol::Fed::More)
    );
    carry.forget();
    assert!(matches!(
        pool.feed(&mut carry, &EMPTY, true),
        Ok(emuparasol::Fed::Decided { taken: 9, .. })
    ));
}

#[test]
fn seeds_have_long_records() {
    let longest = (0..60).filter_map(seeded).flat_map(|(_, records)| records);
    assert!(longest.map(|record| record.len()).max() > Some(256));
}
