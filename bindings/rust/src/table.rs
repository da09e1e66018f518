//! Programs.

use crate::{sys, Fault, Refusal};

/// A program that passed the table check: no other table can be had.
///
/// ```
/// use torzimlak::Table;
/// # fn main() -> Result<(), Box<dyn std::error::Error>> {
/// let cards = b" SEC\n SEC\n SEC\n SEC\nF$TOK DAC 0\n SEC\nSTART MOV F$TOK,WA\n BRN START\n SEC\n ERB 1,FULL\n SEC\n ERB 1,A\n END\n";
/// let table = Table::assemble(cards)?;
/// assert_eq!(table.fresh_words(), 1);
/// assert_eq!(Table::from_words(table.words().to_vec())?, table);
/// # Ok(())
/// # }
/// ```
#[derive(Clone, PartialEq, Eq, Debug)]
pub struct Table(Vec<u32>);

impl Table {
    /// The table of some cards. Needs about 1.1 MB of stack.
    ///
    /// # Errors
    /// 1 to 9, with the line where there is one.
    pub fn assemble(cards: &[u8]) -> Result<Table, Fault> {
        let mut words = vec![0; sys::TABLE_WORDS];
        match sys::assemble(cards, &mut words) {
            (0, length) => {
                words.truncate(length as usize);
                Ok(Table(words))
            }
            (number, line) => Err(Fault::answered(number, line)),
        }
    }

    /// A table from words that somebody else kept: any words may be given.
    ///
    /// # Errors
    /// 30: they are no lawful table.
    pub fn from_words(words: Vec<u32>) -> Result<Table, Refusal> {
        match sys::check_table(&words) {
            0 => Ok(Table(words)),
            number => Err(Refusal::answered(number)),
        }
    }

    /// The words, to be kept.
    pub fn words(&self) -> &[u32] {
        &self.0
    }

    /// How many words of memory are the program's own, from the first on: its constants and working words. Behind them is the room that
    /// a plain start clears and a warm start leaves as lent.
    pub fn own_words(&self) -> usize {
        self.0[1] as usize + self.0[2] as usize
    }

    /// How many fresh words the host supplies at a start and at each restore.
    pub fn fresh_words(&self) -> usize {
        self.0[3] as usize
    }
}
