//! The smallest number of a card's faults.

use super::cards::{quoted, Card, Operation, Order};
use super::draft::Draft;
use super::forms::{Form, Term};
use super::operands::{outcomes, value, Outcome};
use super::symbols::{one_use, Sort, Symbol, Symbols};
use crate::kind;
use crate::ops::Class;

/// The operation is known, and of the card's section.
fn of_section(c: &Card) -> bool {
    match c.operation {
        Operation::Empty | Operation::Malformed => true,
        Operation::Unknown => false,
        Operation::Row(_) => c.opened >= 5,
        Operation::Order(o) => match o {
            Order::Sec => c.opened < 7,
            Order::End | Order::Skipped => true,
            Order::Exp | Order::Inp | Order::Inr | Order::Glb => c.opened == 1,
            Order::Equ => c.opened == 2,
            Order::Dac | Order::Dic | Order::Dbc | Order::Drc | Order::Dtc => c.opened == 3 || c.opened == 4,
        },
    }
}

/// The exits that a JSR must have, if they are known.
fn exits_of(symbols: &Symbols, d: &Draft, c: &Card) -> Option<usize> {
    let e = d.entries[c.place];
    let declared = || match c.forms().first() {
        Some(Form::Plain(Term::Name(k))) => {
            symbols.get(k).map(|all| all[0]).filter(|x| x.sort == Sort::Internal).map(|x| x.value as usize)
        }
        _ => None,
    };
    match e[1] {
        kind::EXTERNAL => d.exit_counts.get(e[3] as usize).map(|n| *n as usize),
        kind::PLACE if d.entries[e[3] as usize][1] == kind::VALUE => Some(d.entries[e[3] as usize][3] as usize),
        _ => declared(),
    }
}

/// A byte, the line's length or a field is malformed; `comma` is where the field's first comma stands.
fn malformed(c: &Card, forms: &[Form], comma: Option<usize>) -> bool {
    !c.bytes.iter().all(|b| (32..=126).contains(b))
        || c.bytes.len() > 72
        || c.label_malformed
        || matches!(c.operation, Operation::Malformed)
        || forms.contains(&Form::None)
        || c.has_text() && comma.is_some_and(|i| i + 1 >= c.tail.len())
        || c.is(Order::Dtc) && !c.tail.is_empty() && quoted(c.tail).is_empty()
}

/// The label is missing, unwanted, or used a second time; `named` is all uses of it.
fn mislabelled(c: &Card, named: &[Symbol]) -> bool {
    let wants = matches!(c.operation, Operation::Order(Order::Exp | Order::Inp | Order::Inr | Order::Glb | Order::Equ))
        || matches!(c.class(), Some(Class::Prc | Class::Rtn | Class::Ent));
    let bars = c.is(Order::Sec) || c.is(Order::End) || c.labelless();
    let above = named.iter().take_while(|x| x.line < c.line).count();
    match c.label {
        None => wants,
        Some(_) => bars || !one_use(&named[..above], c.sort()),
    }
}

/// PRC unlike or without its INP, RTN without INR.
fn undeclared(c: &Card, named: &[Symbol], all: &[Outcome]) -> bool {
    let like = |x: &Symbol| {
        x.sort == Sort::Internal && x.letter as u32 == value(all.first()) && x.value == value(all.get(1)) as u64
    };
    match c.class() {
        Some(Class::Prc) => !named.first().is_some_and(like),
        Some(Class::Rtn) => !named.iter().any(|x| x.sort == Sort::Routine),
        _ => false,
    }
}

/// The smallest number of a card's faults, or 0.
pub fn fault(symbols: &Symbols, d: &Draft, c: &Card) -> u32 {
    let forms = c.forms();
    let comma = c.field().iter().position(|b| *b == b',');
    if malformed(c, &forms, comma) {
        return 1;
    }
    if !of_section(c) {
        return 2;
    }
    let named: &[Symbol] = c.label.and_then(|l| symbols.get(&l)).map_or(&[], |all| all);
    if mislabelled(c, named) {
        return 3;
    }
    let all = outcomes(symbols, c);
    let exits = if c.class() == Some(Class::Jsr) { exits_of(symbols, d, c) } else { None };
    let shape = if c.holds_place() { d.fault(c.place, exits) } else { 0 };
    let no_text = c.has_text() && comma.is_none() || c.is(Order::Dtc) && c.tail.is_empty();
    if forms.len() > all.len() || all.contains(&Outcome::Misfits) || no_text || shape == 4 {
        return 4;
    }
    if all.contains(&Outcome::Unnamed) {
        return 5;
    }
    if undeclared(c, named, &all) {
        return 6;
    }
    shape
}
