//! Cards to a table.

mod cards;
mod draft;
mod faults;
mod forms;
mod operands;
mod symbols;

use crate::{MAX_FRESH, MAX_OPERATIONS, MAX_WORDS};
use cards::{cards, quoted, Card, Order};
use draft::draft;
use faults::fault;
use operands::{outcomes, pair, value};
use symbols::{collect, meaning, Meaning, Symbols};

pub const MAX_BYTES: usize = 32_768;
pub const MAX_LABELS: usize = 512;

fn starts(symbols: &Symbols, c: &Card) -> Vec<u32> {
    let mut words = match c.word_count() {
        0 => vec![],
        _ if c.one_word() => vec![value(outcomes(symbols, c).first())],
        _ if c.is(Order::Drc) => pair(outcomes(symbols, c).first()),
        _ => quoted(c.tail).chunks(4).map(|b| b.iter().rev().fold(0, |w, x| w << 8 | *x as u32)).collect(),
    };
    if c.is_fresh() {
        words[0] = 0;
    }
    words
}

/// The table, or the number and line of a refusal; `room` is how many words may be written.
pub fn assemble(text: &[u8], room: usize) -> Result<Vec<u32>, (u32, usize)> {
    if text.len() > MAX_BYTES {
        return Err((9, 0));
    }
    let cards = cards(text);
    let (symbols, labels) = collect(&cards);
    let d = draft(&symbols, &cards);
    for c in &cards {
        let n = fault(&symbols, &d, c);
        if n != 0 {
            return Err((n, c.line));
        }
    }
    let n = d.entries.len();
    let closed = cards.iter().any(|c| c.is(Order::End) && c.opened == 7);
    let [_, s5, s6] = d.sections;
    let placed = symbols.keys().all(|k| !matches!(meaning(&symbols, *k), Meaning::Lacking(..)));
    let filled = 0 < s5 && s5 < s6 && s6 < n;
    if !(closed && filled && placed) {
        return Err((8, 0));
    }
    let words = |k: usize| -> usize { cards.iter().filter(|c| c.opened == k).map(Card::word_count).sum() };
    let (constants, workings) = (words(3), words(4));
    let fresh: Vec<u32> = cards.iter().filter(|c| c.is_fresh()).map(|c| 4 * c.word as u32).collect();
    if n > MAX_OPERATIONS || labels > MAX_LABELS || fresh.len() > MAX_FRESH || constants + workings > MAX_WORDS {
        return Err((9, 0));
    }
    let externals = d.exit_counts.len();
    let mut t: Vec<u32> =
        [n, constants, workings, fresh.len(), externals, 0, s5, s6].iter().map(|x| *x as u32).collect();
    t.extend(d.entries.iter().flatten());
    t.extend(fresh);
    t.extend(d.exit_counts);
    t.extend(cards.iter().flat_map(|c| starts(&symbols, c)));
    if t.len() > room {
        return Err((10, 0));
    }
    Ok(t)
}
