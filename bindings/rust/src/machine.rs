//! Machines at work.

use crate::sys::{self, MAX_MEMORY, STATE_WORDS};
use crate::{Ending, Refusal, Returned, Snapshot, State, Table};

/// A run: how it ended, and its steps.
#[derive(Clone, Copy, PartialEq, Eq, Debug)]
pub struct Run {
    /// How it ended.
    pub ending: Ending,
    /// The steps that it took.
    pub steps: u32,
}

/// What a resume that was not refused did.
#[derive(Clone, Copy, PartialEq, Eq, Debug)]
pub enum Resumed {
    /// The machine goes on at the next run.
    GoesOn,
    /// 26: the exit's PPM has no label; the machine still waits.
    ImpossibleExit,
}

/// A machine with its memory. Its state always passes the state check.
///
/// The host may write memory, the six registers and IA between calls, and nothing else. Two machines are equal if table, memory and
/// [`State`] are.
#[derive(Clone, PartialEq, Eq, Debug)]
pub struct Machine<'t> {
    table: &'t Table,
    memory: Vec<u32>,
    state: State,
}

impl<'t> Machine<'t> {
    /// The plain start: a machine with memory of `words` words, the host's fresh words and its argument in WA. All words behind the
    /// program's are 0.
    ///
    /// ```
    /// # use torzimlak::{Machine, Refusal, Table};
    /// # let cards = b" SEC\n SEC\n SEC\n SEC\n SEC\nSTART BRN START\n SEC\n ERB 1,A\n SEC\n ERB 1,A\n END\n";
    /// # let table = Table::assemble(cards).unwrap();
    /// assert_eq!(Machine::start(&table, usize::MAX, &[], 0), Err(Refusal::UnfitLength));
    /// let machine = Machine::start(&table, 300, &[], 5).unwrap();
    /// assert_eq!(machine.memory().len(), 300);
    /// assert_eq!(machine.state().registers()[3], 5);
    /// ```
    ///
    /// # Errors
    /// 10: `words` is not from 256 to 8,192, or too few for the program. 43: the count of fresh words.
    pub fn start(table: &'t Table, words: usize, fresh: &[u32], argument: u32) -> Result<Machine<'t>, Refusal> {
        // More words than any memory has are as unfit as none, and none are had without an allocation.
        let words = if words <= MAX_MEMORY { words } else { 0 };
        Machine::start_in(table, vec![0; words], fresh, argument).map_err(Refusal::from)
    }

    /// The plain start in lent memory: nothing of what it held is left.
    ///
    /// ```
    /// # use torzimlak::{Machine, Table};
    /// # let cards = b" SEC\n SEC\n SEC\n SEC\n SEC\nSTART BRN START\n SEC\n ERB 1,A\n SEC\n ERB 1,A\n END\n";
    /// # let table = Table::assemble(cards).unwrap();
    /// # let used = vec![7; 300];
    /// let machine = Machine::start_in(&table, used, &[], 0).unwrap();
    /// assert!(machine.memory().iter().all(|&word| word == 0));
    /// ```
    ///
    /// # Errors
    /// As of [`Machine::start`]; the memory comes back as it was.
    pub fn start_in(
        table: &'t Table,
        memory: Vec<u32>,
        fresh: &[u32],
        argument: u32,
    ) -> Result<Machine<'t>, Returned> {
        Machine::begin(sys::start, table, memory, fresh, argument)
    }

    /// The warm start in lent memory: all words behind the program's stay as they were lent, for a program that finds something there,
    /// such as a price list. The first of them is the one whose address XR holds.
    ///
    /// ```
    /// # use torzimlak::{Machine, Table};
    /// # let cards = b" SEC\n SEC\n SEC\n SEC\nCOUNT DAC 0\n SEC\nSTART BRN START\n SEC\n ERB 1,A\n SEC\n ERB 1,A\n END\n";
    /// # let table = Table::assemble(cards).unwrap();
    /// let mut memory = vec![0; 300];
    /// let room = table.own_words();
    /// memory[room..room + 2].copy_from_slice(&[1999, 450]);
    /// let machine = Machine::warm_start(&table, memory, &[], 0).unwrap();
    /// assert_eq!(machine.memory()[room..room + 2], [1999, 450]);
    /// assert_eq!(machine.state().registers()[1] as usize, 4 * room);
    /// ```
    ///
    /// # Errors
    /// As of [`Machine::start`]; the memory comes back as it was.
    pub fn warm_start(
        table: &'t Table,
        memory: Vec<u32>,
        fresh: &[u32],
        argument: u32,
    ) -> Result<Machine<'t>, Returned> {
        Machine::begin(sys::warm_start, table, memory, fresh, argument)
    }

    /// Either start.
    fn begin(
        start: fn(&[u32], &mut [u32], &[u32], u32, &mut [u32]) -> u32,
        table: &'t Table,
        mut memory: Vec<u32>,
        fresh: &[u32],
        argument: u32,
    ) -> Result<Machine<'t>, Returned> {
        let mut state = State::blank();
        match start(table.words(), &mut memory, fresh, argument, state.lent()) {
            0 => Ok(Machine { table, memory, state }),
            number => Err(Returned { refusal: Refusal::answered(number), memory }),
        }
    }

    /// A machine of any memory and any words of state.
    ///
    /// # Errors
    /// 31: they do not pass the state check.
    pub fn from_parts(table: &'t Table, memory: Vec<u32>, state: [u32; STATE_WORDS]) -> Result<Machine<'t>, Refusal> {
        match sys::check_state(table.words(), memory.len(), &state) {
            0 => Ok(Machine { table, memory, state: State::of(state) }),
            number => Err(Refusal::answered(number)),
        }
    }

    /// A machine that a restore left.
    pub(crate) fn woken(table: &'t Table, memory: Vec<u32>, state: State) -> Machine<'t> {
        Machine { table, memory, state }
    }

    /// At most `budget` steps.
    ///
    /// # Errors
    /// 32: the budget is over 1,000,000.
    pub fn run(&mut self, budget: u32) -> Result<Run, Refusal> {
        let (number, steps) = sys::run(self.table.words(), &mut self.memory, self.state.lent(), budget);
        match Ending::try_from(number) {
            Ok(ending) => Ok(Run { ending, steps }),
            Err(_) => Err(Refusal::answered(number)),
        }
    }

    /// The host's answer to the call that the machine waits at: exit `exit`, or 0 for no number.
    ///
    /// # Errors
    /// 33: it does not wait, or the exit is above the declared count.
    pub fn resume(&mut self, exit: u32) -> Result<Resumed, Refusal> {
        match sys::resume(self.table.words(), &self.memory, self.state.lent(), exit) {
            0 => Ok(Resumed::GoesOn),
            n if n == Ending::ImpossibleExit.number() => Ok(Resumed::ImpossibleExit),
            number => Err(Refusal::answered(number)),
        }
    }

    /// The machine as a file; fresh words are in it as 0.
    pub fn freeze(&self, build: u32) -> Snapshot {
        let mut file = vec![0; sys::FILE_BYTES - 4 * (MAX_MEMORY - self.memory.len())];
        let (number, length) = sys::write(self.table.words(), &self.memory, self.state.words(), build, &mut file);
        assert_eq!(number, 0, "a machine passes its checks, and the room is the longest file's");
        file.truncate(length as usize);
        Snapshot::from_bytes(file)
    }

    /// The words of memory.
    pub fn memory(&self) -> &[u32] {
        &self.memory
    }

    /// Ends the machine and gives its memory back, as it is: [`Machine::start_in`] leaves nothing of what is in it.
    pub fn into_memory(self) -> Vec<u32> {
        self.memory
    }

    /// The words of memory: the host may write any of them.
    pub fn memory_mut(&mut self) -> &mut [u32] {
        &mut self.memory
    }

    /// The state beside the memory.
    pub fn state(&self) -> &State {
        &self.state
    }

    /// Sets XL, XR, XS, WA, WB, WC.
    ///
    /// ```
    /// # use torzimlak::{Machine, Table};
    /// # let cards = b" SEC\n SEC\n SEC\n SEC\n SEC\nSTART BRN START\n SEC\n ERB 1,A\n SEC\n ERB 1,A\n END\n";
    /// # let table = Table::assemble(cards).unwrap();
    /// # let mut machine = Machine::start(&table, 256, &[], 0).unwrap();
    /// machine.set_registers([1, 2, 3, 4, 5, 6]);
    /// machine.set_ia(-7);
    /// assert_eq!(machine.state().registers(), [1, 2, 3, 4, 5, 6]);
    /// assert_eq!(machine.state().ia(), -7);
    /// ```
    pub fn set_registers(&mut self, registers: [u32; 6]) {
        self.state.set_registers(registers);
    }

    /// Sets IA; its overflow flag stays.
    pub fn set_ia(&mut self, ia: i32) {
        self.state.set_ia(ia);
    }
}
