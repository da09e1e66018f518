//! Frozen machines.

use crate::sys::{self, MAX_MEMORY, MIN_MEMORY};
use crate::{Machine, Refusal, Returned, State, Table};

/// The bytes from the build number to the end of a file, which are the last 16 words of a trailer of either kind; the third of these words
/// counts those of memory.
const TRAILER: usize = 4 * 16;
const MEMORY: usize = 4 * 2;

/// A frozen machine: a file's bytes, of which any may be given. Files of before there were reals wake too, with RA +0 and its flag off.
///
/// ```
/// use torzimlak::{Machine, Refusal, Snapshot, Table};
/// # fn main() -> Result<(), Box<dyn std::error::Error>> {
/// # let cards = b" SEC\n SEC\n SEC\n SEC\nF$TOK DAC 0\n SEC\nSTART BRN START\n SEC\n ERB 1,A\n SEC\n ERB 1,A\n END\n";
/// let table = Table::assemble(cards)?;
/// let build = 1;
/// let frozen = Machine::start(&table, 256, &[1], 0)?.freeze(build);
/// assert_eq!(frozen.memory_words(), Some(256));
/// let woken = frozen.wake(&table, build, &[2])?;
/// assert_eq!(woken, Machine::start(&table, 256, &[2], 0)?);
/// assert_eq!(frozen.wake(&table, build + 1, &[2]), Err(Refusal::OtherProgram));
/// assert_eq!(Snapshot::from_bytes(vec![0; 60]).memory_words(), None);
/// # Ok(())
/// # }
/// ```
#[derive(Clone, PartialEq, Eq, Debug)]
pub struct Snapshot(Vec<u8>);

impl Snapshot {
    /// A file that somebody kept: any bytes may be given, for a wake judges them.
    pub fn from_bytes(bytes: Vec<u8>) -> Snapshot {
        Snapshot(bytes)
    }

    /// The bytes, to be kept.
    pub fn bytes(&self) -> &[u8] {
        &self.0
    }

    /// The words of memory that the file's last 64 bytes name, where these are there and name a length that memory can have, 256 to
    /// 8,192. A file without them is refused with 40. Nothing else of the file is judged here.
    pub fn memory_words(&self) -> Option<usize> {
        let trailer = self.0.last_chunk::<TRAILER>()?;
        let words = u32::from_le_bytes(trailer[MEMORY..MEMORY + 4].try_into().expect("four bytes")) as usize;
        (MIN_MEMORY..=MAX_MEMORY).contains(&words).then_some(words)
    }

    /// A machine woken with fresh words of the host's, in memory of its own.
    ///
    /// # Errors
    /// 40: the trailer. 41: another program or build. 42: the frozen state. 43: the count of fresh words.
    pub fn wake<'t>(&self, table: &'t Table, build: u32, fresh: &[u32]) -> Result<Machine<'t>, Refusal> {
        let memory = vec![0; self.memory_words().unwrap_or(0)];
        self.wake_in(table, build, fresh, memory).map_err(Refusal::from)
    }

    /// The same in lent memory.
    ///
    /// # Errors
    /// As of [`Snapshot::wake`], or 44: memory is not as long as the frozen one. The memory comes back as it was.
    pub fn wake_in<'t>(
        &self,
        table: &'t Table,
        build: u32,
        fresh: &[u32],
        mut memory: Vec<u32>,
    ) -> Result<Machine<'t>, Returned> {
        let mut state = State::blank();
        match sys::restore(table.words(), &self.0, build, fresh, &mut memory, state.lent()) {
            0 => Ok(Machine::woken(table, memory, state)),
            number => Err(Returned { refusal: Refusal::answered(number), memory }),
        }
    }
}
