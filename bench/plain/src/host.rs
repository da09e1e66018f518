//! The calls as a host makes them, with the words of a state in place of a state: the answers of include/torzimlak.h, and all that they leave.

use crate::check::check_table;
use crate::machine::{self, State};
use crate::{snapshot, MAX_LINKS};

pub const FLAG: usize = 7;
pub const PLACE: usize = 8;
pub const WAITING: usize = 9;
pub const COUNT: usize = 10;
pub const LINKS: usize = 11;
pub const RA_LOW: usize = LINKS + MAX_LINKS;
pub const RA_HIGH: usize = RA_LOW + 1;
pub const REAL_FLAG: usize = RA_HIGH + 1;
pub const STATE_WORDS: usize = REAL_FLAG + 1;

/// The words of a state, 0 from its links' end to RA.
pub fn words(s: &State) -> [u32; STATE_WORDS] {
    let mut w = [0; STATE_WORDS];
    w[..6].copy_from_slice(&s.regs[1..]);
    w[6..LINKS].copy_from_slice(&[s.ia, s.flag as u32, s.pc, s.waiting as u32, s.links.len() as u32]);
    w[LINKS..LINKS + s.links.len()].copy_from_slice(&s.links);
    w[RA_LOW..].copy_from_slice(&[s.ra as u32, (s.ra >> 32) as u32, s.real_flag as u32]);
    w
}

/// The state of some words, if they are one: enough, flags and waiting word 0 or 1, and no more links than there may be.
pub fn state(w: &[u32]) -> Option<State> {
    if w.len() < STATE_WORDS || [FLAG, WAITING, REAL_FLAG].iter().any(|i| w[*i] > 1) || w[COUNT] as usize > MAX_LINKS {
        return None;
    }
    let mut regs = [0; 7];
    regs[1..].copy_from_slice(&w[..6]);
    Some(State {
        regs,
        ia: w[6],
        flag: w[FLAG] == 1,
        ra: w[RA_LOW] as u64 | (w[RA_HIGH] as u64) << 32,
        real_flag: w[REAL_FLAG] == 1,
        pc: w[PLACE],
        waiting: w[WAITING] == 1,
        links: w[LINKS..LINKS + w[COUNT] as usize].to_vec(),
    })
}

/// A state in lent words; words behind it stay.
fn put(lent: &mut [u32], s: &State) {
    lent[..STATE_WORDS].copy_from_slice(&words(s));
}

/// What a call answers of the state that the words are: 30, then 31, then its own number.
fn judged<A>(t: &[u32], lent: &[u32], call: impl FnOnce(State) -> Result<A, u32>) -> Result<A, u32> {
    if !check_table(t) {
        return Err(30);
    }
    call(state(lent).ok_or(31u32)?)
}

/// What is left in the words that a start or a restore was lent, if they are enough.
fn begun(t: &[u32], lent: &mut [u32], call: impl FnOnce() -> Result<State, u32>) -> u32 {
    if !check_table(t) {
        return 30;
    }
    if lent.len() < STATE_WORDS {
        return 31;
    }
    match call() {
        Ok(s) => {
            put(lent, &s);
            0
        }
        Err(number) => number,
    }
}

/// A call that an ending or 0 answers leaves the state; a refused one leaves all as it was.
fn left(lent: &mut [u32], answer: Result<(u32, u32, State), u32>) -> (u32, u32) {
    match answer {
        Ok((number, value, s)) if number < 30 => {
            put(lent, &s);
            (number, value)
        }
        Ok((number, value, _)) => (number, value),
        Err(number) => (number, 0),
    }
}

pub fn check_state(t: &[u32], m: usize, lent: &[u32]) -> u32 {
    let passed = judged(t, lent, |s| machine::check_state(t, m, &s).then_some(0).ok_or(31));
    passed.unwrap_or_else(|number| number)
}

pub fn start(t: &[u32], m: &mut [u32], fresh: &[u32], argument: u32, lent: &mut [u32]) -> u32 {
    begun(t, lent, || machine::start(t, m, fresh, argument))
}

pub fn warm_start(t: &[u32], m: &mut [u32], fresh: &[u32], argument: u32, lent: &mut [u32]) -> u32 {
    begun(t, lent, || machine::warm_start(t, m, fresh, argument))
}

pub fn run(t: &[u32], m: &mut [u32], lent: &mut [u32], budget: u32) -> (u32, u32) {
    let answer = judged(t, lent, |mut s| {
        let (number, steps) = machine::run(t, m, &mut s, budget);
        Ok((number, steps, s))
    });
    left(lent, answer)
}

pub fn resume(t: &[u32], m: &mut [u32], lent: &mut [u32], exit: u32) -> u32 {
    let answer = judged(t, lent, |mut s| Ok((machine::resume(t, m, &mut s, exit), 0, s)));
    left(lent, answer).0
}

pub fn write(t: &[u32], m: &[u32], lent: &[u32], build: u32, file: &mut [u8]) -> (u32, u32) {
    match judged(t, lent, |s| snapshot::write(t, m, &s, build, file)) {
        Ok(length) => (0, length as u32),
        Err(number) => (number, 0),
    }
}

pub fn restore(t: &[u32], file: &[u8], build: u32, fresh: &[u32], m: &mut [u32], lent: &mut [u32]) -> u32 {
    begun(t, lent, || snapshot::restore(t, file, build, fresh, m))
}
