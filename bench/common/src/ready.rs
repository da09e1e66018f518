//! Programs made of cards, ready to run on both machines.

use crate::state;
use torzimlak_plain::{assemble::assemble, machine, Table};

/// The words of memory that a program runs in.
pub const MEMORY: usize = 8192;

/// A program ready to run.
pub struct Ready {
    pub table: Vec<u32>,
    pub memory: Vec<u32>,
    pub state: Vec<u32>,
}

/// The program of some cards at its start, each fresh word 1.
pub fn ready(cards: &[u8]) -> Result<Ready, (u32, usize)> {
    let table = assemble(cards, 20_000)?;
    let mut memory = vec![0; MEMORY];
    let fresh = vec![1; Table(&table).fresh_count()];
    let begun = machine::start(&table, &mut memory, &fresh, 0).expect("a start");
    let state = torzimlak_plain::host::words(&begun).to_vec();
    Ok(Ready { table, memory, state })
}

/// A deck with these cards in section 4 and sections 0 to 3 empty.
pub fn section_4(operations: &str) -> String {
    format!(" SEC\n SEC\n SEC\n SEC\n SEC\n{operations} SEC\n ERB 1,FULL\n SEC\n ERB 2,BAD\n END\n")
}

impl Ready {
    /// The state for the plain machine.
    pub fn plain(&self) -> machine::State {
        state::plain(&self.state)
    }
}
