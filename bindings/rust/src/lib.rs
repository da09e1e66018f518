//! Safe types over the proved machine for MINIMAL: cards become a [`Table`], a table starts a [`Machine`], a machine freezes to a
//! [`Snapshot`] and wakes from it with fresh words of the host's.
//!
//! Every function of the library underneath is proved for any input, so nothing here judges an input a second time.
//!
//! ```
//! use torzimlak::{Ending, Machine, Table};
//!
//! # fn main() -> Result<(), Box<dyn std::error::Error>> {
//! let cards = b" SEC
//! SYSXX EXP E,0
//!  SEC
//! THREE EQU 3
//!  SEC
//!  SEC
//!  SEC
//! START MOV =THREE,WB
//!  JSR SYSXX
//!  BRN START
//!  SEC
//!  ERB 1,STACK FULL
//!  SEC
//! ERROR BRN ERROR
//!  END
//! ";
//! let table = Table::assemble(cards)?;
//! let mut machine = Machine::start(&table, 256, &[], 0)?;
//! let run = machine.run(1000)?;
//! assert_eq!((run.ending, run.steps), (Ending::Waiting, 2));
//! assert_eq!(machine.state().registers(), [4 * (256 - 65), 0, 4 * 256, 0, 3, 0]);
//! machine.resume(0)?;
//! assert!(!machine.state().waiting());
//! # Ok(())
//! # }
//! ```
#![deny(missing_docs)]
#![deny(clippy::undocumented_unsafe_blocks)]

mod answer;
mod machine;
mod refused;
mod snapshot;
mod state;
pub mod sys;
mod table;

pub use answer::{Ending, Refusal, UnknownNumber};
pub use machine::{Machine, Resumed, Run};
pub use refused::{Fault, Returned};
pub use snapshot::Snapshot;
pub use state::State;
pub use table::Table;
