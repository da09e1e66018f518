//! What the benches share: timing, the lines that they hand to the report, lawful tables and states, and programs made of cards.

pub mod measure;
pub mod ready;
pub mod state;
pub mod tables;
pub mod times;

pub use measure::{Goal, Measure, Measures};
pub use ready::{ready, section_4, Ready, MEMORY};
pub use times::{once, rounds, used, Times};
