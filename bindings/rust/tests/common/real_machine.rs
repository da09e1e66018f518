//! Programs that begin with operations on reals, and machines that both implementations run.

use super::lent::ROOM;
use super::reals::{finite, halves, joined, pair};
use super::Random;
use torzimlak::sys;
use torzimlak_plain::{assemble::assemble, host};

/// Words of memory.
pub const M: usize = 256;
/// Places of a program's first step: where it goes on, and where it branches to.
pub const ON: u32 = 1;
pub const AWAY: u32 = 2;
/// The index of the working word VALUE.
pub const VALUE: usize = 3;

/// A program that begins with these operations.
pub fn table(operations: &str) -> Vec<u32> {
    let words = "CONST DRC 1.5\nLASTC DIC +7\n SEC\nVALUE DRC 0.\nLASTW DIC +0\n";
    let cards = format!(
        " SEC\n SEC\n SEC\n{words} SEC\nSTART {operations}\n BRN START\nAWAY$ BRN START\n SEC\n ERB 1,A\n SEC\n ERB 1,A\n END\n"
    );
    assemble(cards.as_bytes(), ROOM).unwrap_or_else(|fault| panic!("{fault:?}\n{cards}"))
}

/// A machine: memory, and the state's words.
#[derive(Clone, PartialEq, Debug)]
pub struct Machine {
    pub memory: Vec<u32>,
    pub words: Vec<u32>,
}

impl Machine {
    pub fn new(t: &[u32]) -> Machine {
        let mut machine = Machine { memory: vec![0; M], words: vec![0; sys::STATE_WORDS] };
        assert_eq!(sys::start(t, &mut machine.memory, &[], 0, &mut machine.words), 0);
        machine
    }

    pub fn ra(&self) -> u64 {
        joined(self.words[sys::RA_LOW], self.words[sys::RA_HIGH])
    }

    pub fn set_ra(&mut self, bits: u64, flag: u32) {
        let [low, high] = halves(bits);
        self.words[sys::RA_LOW..].copy_from_slice(&[low, high, flag]);
    }

    pub fn flag(&self) -> bool {
        self.words[sys::REAL_FLAG] == 1
    }

    /// The two words at index i.
    pub fn pair(&self, i: usize) -> u64 {
        joined(self.memory[i], self.memory[i + 1])
    }

    pub fn set_pair(&mut self, i: usize, bits: u64) {
        self.memory[i..i + 2].copy_from_slice(&halves(bits));
    }

    /// A run by both implementations: the same answer, and the same words left.
    pub fn run(&mut self, t: &[u32], budget: u32) -> (u32, u32) {
        let mut plain = self.clone();
        let due = host::run(t, &mut plain.memory, &mut plain.words, budget);
        assert_eq!(sys::run(t, &mut self.memory, &mut self.words, budget), due);
        assert_eq!(*self, plain);
        due
    }
}

/// An address: of the operand's own words, at either end of memory, past it, or unaligned.
pub fn address(r: &mut Random) -> u32 {
    let end = 4 * M as u32;
    match r.below(9) {
        0 => 4 * r.below(8) as u32,
        1 => end - 4,
        2 => end - 8,
        3 => end,
        4 => r.below(end as usize) as u32,
        5 => u32::MAX - 3 - 4 * r.below(6) as u32,
        6 => r.next() as u32,
        _ => 4 * r.below(M - 1) as u32,
    }
}

/// A machine with any RA, registers and pairs of words.
pub fn any(r: &mut Random, begun: &Machine) -> Machine {
    let mut machine = begun.clone();
    let ra = finite(r, 0);
    machine.set_ra(ra, r.below(2) as u32);
    for i in 0..3 {
        machine.words[sys::XL + i] = address(r);
    }
    machine.words[sys::IA] = r.next() as u32;
    machine.words[sys::FLAG] = r.below(2) as u32;
    let mut i = 0;
    while i + 1 < M {
        machine.set_pair(i, pair(r, ra));
        i += 2 + r.once_in(3) as usize;
    }
    machine
}
