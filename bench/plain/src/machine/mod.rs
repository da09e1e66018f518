//! The machine: start, run, resume.

mod blocks;
mod control;
mod obey;
mod operands;
mod reals;
mod values;

use crate::check::{body_of_links_ok, check_table};
use crate::{Table, MAX_BUDGET, MAX_LINKS, MAX_MEMORY, MIN_MEMORY, STACK_WORDS};
use control::Next;
use operands::Machine;

pub const XL: usize = 1;
pub const XR: usize = 2;
pub const XS: usize = 3;
pub const WA: usize = 4;
pub const WB: usize = 5;

/// Registers 1 to 6 (0 is not used), IA, flag, the 64 bits of RA, its flag, place, waiting, links oldest first.
#[derive(Clone, PartialEq, Eq, Debug, Default)]
pub struct State {
    pub regs: [u32; 7],
    pub ia: u32,
    pub flag: bool,
    pub ra: u64,
    pub real_flag: bool,
    pub pc: u32,
    pub waiting: bool,
    pub links: Vec<u32>,
}

impl State {
    /// RA as a number.
    pub fn real(&self) -> f64 {
        f64::from_bits(self.ra)
    }
}

/// How a run ended, and its steps.
pub fn run_on(t: &[u32], m: &mut [u32], s: &mut State, budget: u32) -> (u32, u32) {
    if s.waiting {
        return (20, 0);
    }
    let mut machine = Machine { t: Table(t), m, s };
    for steps in 0..budget {
        let before = (machine.s.regs, machine.s.ia);
        match machine.obey() {
            Ok(Next::At(q)) => machine.s.pc = q as u32,
            Ok(Next::Waits) => return (20, steps + 1),
            Err(e) => {
                (machine.s.regs, machine.s.ia) = before;
                return (e, steps);
            }
        }
    }
    (21, budget)
}

/// Memory of m words fits the table.
pub fn memory_fits(t: &[u32], m: usize) -> bool {
    let t = Table(t);
    (MIN_MEMORY..=MAX_MEMORY).contains(&m) && t.constants() + t.workings() + STACK_WORDS <= m
}

/// The state check.
pub fn check_state(t: &[u32], m: usize, s: &State) -> bool {
    memory_fits(t, m) && s.links.len() <= MAX_LINKS && s.real().is_finite() && body_of_links_ok(Table(t), s)
}

/// A run: the number of its ending or refusal, and its steps.
pub fn run(t: &[u32], m: &mut [u32], s: &mut State, budget: u32) -> (u32, u32) {
    if !check_table(t) {
        return (30, 0);
    }
    if !check_state(t, m.len(), s) {
        return (31, 0);
    }
    if budget > MAX_BUDGET {
        return (32, 0);
    }
    run_on(t, m, s, budget)
}

/// A resume with an exit, 0 for no number: 0 where it goes on.
pub fn resume(t: &[u32], m: &mut [u32], s: &mut State, exit: u32) -> u32 {
    if !check_table(t) {
        return 30;
    }
    if !check_state(t, m.len(), s) {
        return 31;
    }
    let j = s.pc as usize;
    if !s.waiting || exit > Table(t).declared(j) {
        return 33;
    }
    match (Machine { t: Table(t), m, s }).take_exit(j, exit) {
        Ok(q) => {
            s.pc = q as u32;
            s.waiting = false;
            0
        }
        Err(e) => e,
    }
}

/// The plain start: the state, or a refusal. All words behind the program's are 0.
pub fn start(t: &[u32], m: &mut [u32], fresh: &[u32], argument: u32) -> Result<State, u32> {
    let s = warm_start(t, m, fresh, argument)?;
    m[Table(t).constants() + Table(t).workings()..].fill(0);
    Ok(s)
}

/// The warm start: all words behind the program's stay.
pub fn warm_start(t: &[u32], m: &mut [u32], fresh: &[u32], argument: u32) -> Result<State, u32> {
    if !check_table(t) {
        return Err(30);
    }
    if !memory_fits(t, m.len()) {
        return Err(10);
    }
    let table = Table(t);
    if fresh.len() != table.fresh_count() {
        return Err(43);
    }
    let words = table.constants() + table.workings();
    for (i, w) in m.iter_mut().enumerate().take(words) {
        *w = table.start_word(i);
    }
    for (i, w) in fresh.iter().enumerate() {
        m[table.fresh(i) as usize / 4] = *w;
    }
    let mut s = State { pc: table.section(4) as u32, ..State::default() };
    s.regs[XL] = 4 * (m.len() as u32 - 65);
    s.regs[XR] = 4 * words as u32;
    s.regs[XS] = 4 * m.len() as u32;
    s.regs[WA] = argument;
    Ok(s)
}
