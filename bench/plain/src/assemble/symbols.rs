//! Labels: where each is used, and what it means as an operand.

use super::cards::Card;
use super::forms::Name;
use super::operands::{outcomes, value};
use std::collections::HashMap;

#[derive(Clone, Copy, PartialEq, Eq, Debug)]
pub enum Sort {
    Bare,
    External,
    Internal,
    Routine,
    Global,
    Equal,
    Word,
    Entry,
    Procedure,
    Returns,
    Plain,
    Labelless,
}

#[derive(Clone, Copy, Debug)]
pub struct Symbol {
    pub line: usize,
    pub sort: Sort,
    pub value: u64,
    pub letter: u8,
}

pub enum Meaning {
    Undefined,
    Sortless,
    External(u64),
    Address(u64),
    Value(u64, usize),
    Place(Sort, u64, bool),
    Lacking(Sort, bool),
}

pub type Symbols = HashMap<Name, Vec<Symbol>>;

fn carries(s: Sort) -> bool {
    matches!(s, Sort::Entry | Sort::Procedure | Sort::Returns | Sort::Plain)
}

pub fn meaning(symbols: &Symbols, k: Name) -> Meaning {
    let Some(all) = symbols.get(&k) else {
        return Meaning::Undefined;
    };
    let first = all[0];
    let rest = &all[1..];
    let has = |s: Sort| rest.iter().any(|x| x.sort == s);
    let placed = |fits: &dyn Fn(Sort) -> bool, lacking: Sort, global: bool| match rest.iter().find(|x| fits(x.sort)) {
        Some(x) => Meaning::Place(x.sort, x.value, global),
        None => Meaning::Lacking(lacking, global),
    };
    match first.sort {
        Sort::Bare => Meaning::Sortless,
        Sort::External => Meaning::External(first.value),
        Sort::Equal => Meaning::Value(first.value, first.line),
        Sort::Word => Meaning::Address(first.value),
        Sort::Internal => placed(&|s| s == Sort::Procedure, Sort::Internal, false),
        Sort::Routine => placed(&|s| s == Sort::Returns, Sort::Routine, has(Sort::Global)),
        Sort::Global if has(Sort::Routine) => placed(&|s| s == Sort::Returns, Sort::Routine, true),
        Sort::Global => placed(&carries, Sort::Global, true),
        s => Meaning::Place(s, first.value, false),
    }
}

pub fn collect(cards: &[Card]) -> (Symbols, usize) {
    let mut symbols = Symbols::new();
    let mut labels = 0;
    for c in cards {
        let Some(label) = c.label else {
            continue;
        };
        labels += 1;
        let sort = c.sort();
        let (mut v, mut letter) = (0, 0);
        match sort {
            Sort::Bare | Sort::Routine | Sort::Global => {}
            Sort::External => v = c.external as u64,
            Sort::Internal => {
                let all = outcomes(&symbols, c);
                v = value(all.get(1)) as u64;
                letter = value(all.first()) as u8;
            }
            Sort::Equal => v = value(outcomes(&symbols, c).first()) as u64,
            Sort::Word => v = 4 * c.word as u64,
            _ => v = c.place as u64,
        }
        symbols.entry(label).or_default().push(Symbol { line: c.line, sort, value: v, letter });
    }
    (symbols, labels)
}

/// INP with PRC; INR, GLB or both with their place.
pub fn one_use(above: &[Symbol], s: Sort) -> bool {
    let pair = |a: Sort, b: Sort| match a {
        Sort::Internal => b == Sort::Procedure,
        Sort::Routine => matches!(b, Sort::Global | Sort::Returns),
        Sort::Global => b == Sort::Routine || carries(b),
        _ => false,
    };
    match above {
        [] => true,
        [x] => pair(x.sort, s),
        [x, y] => {
            matches!((x.sort, y.sort), (Sort::Routine, Sort::Global) | (Sort::Global, Sort::Routine))
                && s == Sort::Returns
        }
        _ => false,
    }
}
