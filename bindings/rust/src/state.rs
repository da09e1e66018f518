//! The state beside its memory.

use crate::sys::{COUNT, FLAG, IA, LINKS, PLACE, RA_HIGH, RA_LOW, REAL_FLAG, STATE_WORDS, WAITING, XL};

/// The count of registers: XL, XR, XS, WA, WB, WC.
const REGISTERS: usize = 6;

/// The state beside its memory: registers, IA and RA with their overflow flags, the place, whether it waits, and the links of open calls.
///
/// Two states are equal if no call can tell them apart: what [`State::words`] has between the links that are open and RA does not count.
/// RA counts by its bits, so that +0 and -0 differ.
#[derive(Clone, Debug)]
pub struct State([u32; STATE_WORDS]);

impl State {
    /// A state that was not started yet.
    pub(crate) fn blank() -> State {
        State([0; STATE_WORDS])
    }

    /// A state of words that passed the state check.
    pub(crate) fn of(words: [u32; STATE_WORDS]) -> State {
        State(words)
    }

    /// The words, for the library to write.
    pub(crate) fn lent(&mut self) -> &mut [u32; STATE_WORDS] {
        &mut self.0
    }

    pub(crate) fn set_registers(&mut self, registers: [u32; REGISTERS]) {
        self.0[XL..XL + REGISTERS].copy_from_slice(&registers);
    }

    pub(crate) fn set_ia(&mut self, ia: i32) {
        self.0[IA] = ia as u32;
    }

    /// XL, XR, XS, WA, WB, WC.
    pub fn registers(&self) -> [u32; REGISTERS] {
        std::array::from_fn(|i| self.0[XL + i])
    }

    /// The accumulator of signed integers.
    pub fn ia(&self) -> i32 {
        self.0[IA] as i32
    }

    /// The flag of IA, which IOV and INO test.
    pub fn overflow(&self) -> bool {
        self.0[FLAG] == 1
    }

    /// The accumulator of reals, a finite number. Only the program sets it: it is +0 at the start.
    ///
    /// ```
    /// # use torzimlak::{Machine, Table};
    /// let cards = b" SEC
    ///  SEC
    ///  SEC
    /// PRICE DRC 19.99
    /// RATE$ DRC 0.25
    /// NONE$ DRC 0.
    ///  SEC
    ///  SEC
    /// START LDR PRICE
    ///  MLR RATE$
    ///  DVR NONE$
    /// STOP$ BRN STOP$
    ///  SEC
    ///  ERB 1,STACK FULL
    ///  SEC
    /// ERROR BRN ERROR
    ///  END
    /// ";
    /// let table = Table::assemble(cards).unwrap();
    /// let mut machine = Machine::start(&table, 256, &[], 0).unwrap();
    /// assert_eq!((machine.state().ra(), machine.state().real_overflow()), (0.0, false));
    /// machine.run(2).unwrap();
    /// assert_eq!((machine.state().ra(), machine.state().real_overflow()), (19.99 * 0.25, false));
    /// // A division by zero is overflow: RA stays, and ROV would take its branch.
    /// machine.run(1).unwrap();
    /// assert_eq!((machine.state().ra(), machine.state().real_overflow()), (19.99 * 0.25, true));
    /// ```
    pub fn ra(&self) -> f64 {
        f64::from_bits(u64::from(self.0[RA_LOW]) | u64::from(self.0[RA_HIGH]) << 32)
    }

    /// The flag of RA, which ROV and RNO test.
    pub fn real_overflow(&self) -> bool {
        self.0[REAL_FLAG] == 1
    }

    /// The place of the next operation, or of the JSR that waits.
    pub fn place(&self) -> u32 {
        self.0[PLACE]
    }

    /// Whether it waits for the host at a JSR to an EXP.
    pub fn waiting(&self) -> bool {
        self.0[WAITING] == 1
    }

    /// The places of the open calls' JSRs, oldest first.
    pub fn links(&self) -> &[u32] {
        &self.0[LINKS..self.end()]
    }

    /// The words as include/torzimlak.h lays them out.
    pub fn words(&self) -> &[u32; STATE_WORDS] {
        &self.0
    }

    /// Where the open links end.
    fn end(&self) -> usize {
        LINKS + self.0[COUNT] as usize
    }
}

impl PartialEq for State {
    fn eq(&self, other: &State) -> bool {
        self.0[..self.end()] == other.0[..other.end()] && self.0[RA_LOW..] == other.0[RA_LOW..]
    }
}

impl Eq for State {}
