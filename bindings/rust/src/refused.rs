//! Refusals that tell more than their number: the line of a card, or memory that is given back.

use crate::Refusal;
use std::error::Error;
use std::fmt;
use std::num::NonZeroU32;

/// Why cards were refused, and on which line.
///
/// ```
/// use torzimlak::{Refusal, Table};
/// let fault = Table::assemble(b" SEC\n SEC\n FOO\n").unwrap_err();
/// assert_eq!(fault.refusal(), Refusal::UnknownOperation);
/// assert_eq!(fault.line(), Some(3));
/// assert_eq!(fault.to_string(), "line 3: refused (2): the operation is unknown, or not of this section");
/// assert_eq!(Table::assemble(b"").unwrap_err().line(), None);
/// ```
#[derive(Clone, Copy, PartialEq, Eq, Hash, Debug)]
pub struct Fault {
    refusal: Refusal,
    line: Option<NonZeroU32>,
}

impl Fault {
    /// The fault that the library answered: its number, and its line or 0.
    pub(crate) fn answered(number: u32, line: u32) -> Fault {
        Fault { refusal: Refusal::answered(number), line: NonZeroU32::new(line) }
    }

    /// What is wrong.
    pub fn refusal(self) -> Refusal {
        self.refusal
    }

    /// The line, counted from 1. Refusals 1 to 7 are of one line, 8 to 10 of the whole text.
    pub fn line(self) -> Option<u32> {
        self.line.map(NonZeroU32::get)
    }
}

impl fmt::Display for Fault {
    fn fmt(&self, f: &mut fmt::Formatter) -> fmt::Result {
        match self.line {
            None => self.refusal.fmt(f),
            Some(line) => write!(f, "line {line}: {}", self.refusal),
        }
    }
}

impl Error for Fault {}

impl From<Fault> for Refusal {
    fn from(fault: Fault) -> Refusal {
        fault.refusal
    }
}

/// A refusal that gives the lent memory back, each word as it was.
///
/// ```
/// use torzimlak::{Machine, Refusal, Returned, Table};
/// # fn main() -> Result<(), torzimlak::Fault> {
/// # let cards = b" SEC\n SEC\n SEC\n SEC\n SEC\nSTART BRN START\n SEC\n ERB 1,A\n SEC\n ERB 1,A\n END\n";
/// let table = Table::assemble(cards)?;
/// let Returned { refusal, memory } = Machine::start_in(&table, vec![7; 100], &[], 0).unwrap_err();
/// assert_eq!(refusal, Refusal::UnfitLength);
/// assert_eq!(memory, [7; 100]);
/// # Ok(())
/// # }
/// ```
#[derive(Clone, PartialEq, Eq)]
pub struct Returned {
    /// Why the call was refused.
    pub refusal: Refusal,
    /// What was lent.
    pub memory: Vec<u32>,
}

/// The refusal and the length of memory, not its words.
impl fmt::Debug for Returned {
    fn fmt(&self, f: &mut fmt::Formatter) -> fmt::Result {
        write!(f, "Returned {{ refusal: {:?}, memory: {} words }}", self.refusal, self.memory.len())
    }
}

impl fmt::Display for Returned {
    fn fmt(&self, f: &mut fmt::Formatter) -> fmt::Result {
        self.refusal.fmt(f)
    }
}

impl Error for Returned {}

impl From<Returned> for Refusal {
    fn from(returned: Returned) -> Refusal {
        returned.refusal
    }
}
