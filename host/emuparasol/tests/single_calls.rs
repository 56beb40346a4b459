//! Single calls of feed (R47) as C makes them, right ones and wrong ones, against the
//! reference: what is said, the pool, and every byte of the carry.

mod common;

use common::{fresh, means, raw};
use compare::calls::Call;
use reference::feed::CARRY_BYTES;
use reference::table::record;
use reference::{feed, Answer, Fed, Limits, Point, Said, State};

/// What a call says, and the carry and the pool that it leaves.
type Told = (Fed, Vec<u8>, Vec<u8>);

/// The call as C makes it.
fn call(pool: &[u8], carry: &[u8], carried: usize, part: &[u8], over: bool) -> Told {
    let (mut pool, mut carry) = (pool.to_vec(), carry.to_vec());
    let told = raw::feed(&mut pool, &mut carry, carried as u64, part, over);
    let fed = Fed {
        said: said(told.happened, told.answer),
        looks: told.looks,
        taken: told.taken,
        carried: told.carried as usize,
    };
    (fed, carry, pool)
}

/// What is said, from the number of what happened and the answer.
fn said(happened: u8, answer: u8) -> Said {
    let refusals = [
        Answer::UnfitPool,
        Answer::OutputShort,
        Answer::TornLog,
        Answer::ImpossibleLength,
    ];
    match (happened, Answer::ALL[usize::from(answer)]) {
        (0, answer) if refusals.contains(&answer) => Said::Answer(answer),
        (1, answer) if answer < Answer::UnfitPool => Said::Answer(answer),
        (2, Answer::Committed) => Said::More,
        (3, Answer::Committed) => Said::End,
        _ => panic!("{happened} happened, with answer {answer}"),
    }
}

#[test]
fn calls_from_seeds_say_and_leave_what_the_reference_does() {
    let mut refused = [0; 12];
    for seed in 0..4_000 {
        let lent = Call::of(seed);
        let (mut pool, mut state) = (fresh(lent.limits), State::new(lent.limits));
        for record in &lent.melded {
            raw::meld(&mut pool, record);
            state.meld(record);
        }
        if !lent.fit {
            pool[3] ^= 1;
        }
        let before = pool.clone();
        let mut carry = lent.carry.clone();
        let fit = lent.fit.then_some(&mut state);
        let wanted = feed(fit, &mut carry, lent.carried, &lent.part, lent.over);
        let (fed, left, after) = call(&pool, &lent.carry, lent.carried, &lent.part, lent.over);
        assert_eq!((fed, left), (wanted, carry), "seed {seed}");
        let decided = matches!(fed.said, Said::Answer(answer) if answer < Answer::UnfitPool);
        assert!(decided || after == before, "seed {seed}");
        if lent.fit {
            means(&after, &state);
        }
        if let Said::Answer(answer) = fed.said {
            refused[usize::from(answer.number())] += 1;
        }
    }
    assert!(
        [8, 10, 11].iter().all(|&it| refused[it] > 100),
        "{refused:?}"
    );
}

#[test]
fn with_6_the_record_is_taken_and_the_pool_is_as_it_was() {
    let limits = Limits::new(3, 4).unwrap();
    let mut pool = fresh(limits);
    pool[12..16].copy_from_slice(&u32::MAX.to_be_bytes());
    let put = record(0, &[Point::put(10, 100)]).to_bytes();
    let log = [&put[..], &put].concat();
    for carried in 0..put.len() {
        let mut carry = vec![0xC3; CARRY_BYTES];
        carry[..carried].copy_from_slice(&put[..carried]);
        let (fed, left, after) = call(&pool, &carry, carried, &log[carried..], false);
        let mut state = State::empty_at(limits, u32::MAX);
        let wanted = feed(
            Some(&mut state),
            &mut carry,
            carried,
            &log[carried..],
            false,
        );
        assert_eq!(fed.said, Said::Answer(Answer::PositionsUsedUp));
        assert_eq!((fed, left, &after), (wanted, carry, &pool));
    }
}
