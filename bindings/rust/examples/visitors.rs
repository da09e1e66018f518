//! A host: one program is assembled, warmed and frozen once, then woken for ten thousand visitors, each with a fresh word of its own.
//! Each visitor's token is made of its fresh word, so no two visitors share one.

use std::collections::HashSet;
use std::hash::{BuildHasher, Hasher, RandomState};
use torzimlak::{Ending, Machine, Table};

const BUILD: u32 = 1;
const VISITORS: usize = 10_000;
const BUDGET: u32 = 1000;

/// WA characters from XL on.
fn shown(machine: &Machine) -> String {
    let [xl, _, _, wa, ..] = machine.state().registers();
    let byte = |a: u32| (machine.memory()[a as usize / 4] >> (8 * (a % 4))) as u8 as char;
    (xl..xl + wa).map(byte).collect()
}

/// Distinct words that nobody can guess: a random word, and every visitor another.
fn fresh_words() -> impl Iterator<Item = u32> {
    let start = RandomState::new().build_hasher().finish() as u32;
    (0u32..).map(move |i| start.wrapping_add(i.wrapping_mul(0x9E37_79B1)))
}

fn main() -> Result<(), Box<dyn std::error::Error>> {
    let cards = std::fs::read(concat!(env!("CARGO_MANIFEST_DIR"), "/../../examples/token.min"))?;
    let table = Table::assemble(&cards)?;
    let mut warm = Machine::start(&table, 256, &[0], 0)?;
    assert_eq!(warm.run(BUDGET)?.ending, Ending::Waiting);
    let frozen = warm.freeze(BUILD);
    println!("frozen: {} bytes", frozen.bytes().len());
    let began = std::time::Instant::now();
    let mut tokens = HashSet::new();
    for word in fresh_words().take(VISITORS) {
        let mut machine = frozen.wake(&table, BUILD, &[word])?;
        machine.resume(0)?;
        assert_eq!(machine.run(BUDGET)?.ending, Ending::Waiting);
        tokens.insert(shown(&machine));
    }
    let each = began.elapsed().as_secs_f64() * 1e6 / VISITORS as f64;
    println!("woken, resumed and run: {VISITORS} visitors, {} tokens, {each:.2} microseconds each", tokens.len());
    assert_eq!(tokens.len(), VISITORS, "two visitors share a token");
    Ok(())
}
