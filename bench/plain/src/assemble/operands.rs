//! What each operand of a card gives: kind, register and value, or why it gives none.

use super::cards::Card;
use super::forms::{Form, Name, Term};
use super::symbols::{meaning, Meaning, Sort, Symbols};
use crate::ops::{Format, Slot};
use crate::{kind, CFP_M, ENTRY_BASE};

/// What an operand gives.
#[derive(Clone, Copy, PartialEq, Eq, Debug)]
pub enum Outcome {
    Gives(u32, u32, u32),
    /// The 64 bits of a real.
    Real(u64),
    Awaits,
    Misfits,
    Unnamed,
}

use Outcome::{Awaits, Gives, Misfits, Unnamed};

fn within(limit: u32, v: u64) -> Outcome {
    if v <= limit as u64 {
        Gives(kind::VALUE, 0, v as u32)
    } else {
        Misfits
    }
}

fn displaced(r: u32, bytes: u64) -> Outcome {
    if bytes <= CFP_M as u64 {
        Gives(kind::INDEXED, r, bytes as u32)
    } else {
        Misfits
    }
}

fn supplied(s: &[u8]) -> Option<u32> {
    Some(match s {
        b"CFP$A" => 256,
        b"CFP$B" | b"CFP$C" => 4,
        b"CFP$F" => 8,
        b"CFP$I" => 1,
        b"CFP$M" => CFP_M,
        b"CFP$N" => 32,
        b"CFP$R" => 2,
        b"CH$BL" => 32,
        [b'C', b'H', b'$', b'D', d @ b'0'..=b'9'] => *d as u32,
        [b'C', b'H', b'$', b'L', l @ b'A'..=b'Z'] => *l as u32,
        _ => return None,
    })
}

/// A name as the operand of a format, on a line.
fn by_name(symbols: &Symbols, slot: Slot, line: usize, k: Name) -> Outcome {
    let m = meaning(symbols, k);
    if let Meaning::Undefined = m {
        return Unnamed;
    }
    match (slot.format, m) {
        (Format::Val | Format::Shift, Meaning::Value(v, _)) => within(slot.largest(), v),
        (Format::Eqop, Meaning::Value(v, l)) => {
            if l < line {
                within(CFP_M, v)
            } else {
                Unnamed
            }
        }
        (Format::Addr, m) => literal(m),
        (Format::Plbl, Meaning::Place(_, p, _)) => Gives(kind::PLACE, 0, p as u32),
        (Format::Plbl, Meaning::Lacking(..)) => Awaits,
        (Format::Pnam, Meaning::External(n)) => Gives(kind::EXTERNAL, 0, n as u32),
        (Format::Pnam, Meaning::Place(Sort::Procedure, p, _)) => Gives(kind::PLACE, 0, p as u32),
        (Format::Pnam, Meaning::Lacking(Sort::Internal, _)) => Awaits,
        (Format::Glbl, Meaning::Place(_, p, true)) => Gives(kind::PLACE, 0, p as u32),
        (Format::Glbl, Meaning::Lacking(_, true)) => Awaits,
        (Format::Opv | Format::Opn | Format::Opw | Format::Ops, Meaning::Address(a)) => {
            Gives(kind::ADDRESS, 0, a as u32)
        }
        _ => Misfits,
    }
}

fn literal(m: Meaning) -> Outcome {
    match m {
        Meaning::Undefined => Unnamed,
        Meaning::Address(a) => Gives(kind::VALUE, 0, a as u32),
        Meaning::Value(v, _) => Gives(kind::VALUE, 0, v as u32),
        Meaning::Place(Sort::Entry, p, _) => Gives(kind::VALUE, 0, ENTRY_BASE + 4 * p as u32),
        Meaning::Lacking(Sort::Global, _) => Awaits,
        _ => Misfits,
    }
}

/// A term of an EQU.
fn value_of(symbols: &Symbols, line: usize, t: Term) -> Outcome {
    let slot = Slot { format: Format::Eqop, optional: false, still: false };
    match t {
        Term::Number(n) => within(CFP_M, n),
        Term::Name(k) => by_name(symbols, slot, line, k),
    }
}

fn takes(slot: Slot, f: Form) -> bool {
    use Format as F;
    let x_kind = |k: u32, r: u32| slot.takes_kind(k) && r <= slot.last_x();
    match f {
        Form::None => false,
        Form::Omitted => slot.optional,
        Form::Star | Form::Combined(..) => slot.format == F::Eqop,
        Form::Plain(Term::Number(_)) => matches!(slot.format, F::Val | F::Int | F::Shift | F::Addr | F::Eqop),
        Form::Plain(Term::Name(_)) => {
            !matches!(slot.format, F::None | F::Opc | F::Reg | F::X | F::W | F::Int | F::Ptyp | F::Integer | F::Real)
        }
        Form::Register(r) => slot.takes_kind(if r <= 3 { kind::X } else { kind::W }),
        Form::Literal(_) | Form::Multiple(_) => slot.format == F::Opv,
        Form::Indirect(r) => x_kind(kind::INDIRECT, r),
        Form::Rising(r) => x_kind(kind::RISING, r),
        Form::Falling(r) => x_kind(kind::FALLING, r),
        Form::Type(_) => slot.format == F::Ptyp,
        Form::Indexed(..) => slot.takes_kind(kind::INDEXED),
        Form::Signed(..) => slot.format == F::Integer,
        Form::Decimal(..) => slot.format == F::Real,
    }
}

fn outcome(symbols: &Symbols, c: &Card, slot: Slot, f: Form) -> Outcome {
    if !takes(slot, f) {
        return Misfits;
    }
    match f {
        Form::None => Misfits,
        Form::Omitted => Gives(kind::NONE, 0, 0),
        Form::Star => c.bytes.get(..5).and_then(supplied).map_or(Unnamed, |v| Gives(kind::VALUE, 0, v)),
        Form::Plain(Term::Number(n)) => within(slot.largest(), n),
        Form::Plain(Term::Name(k)) => by_name(symbols, slot, c.line, k),
        Form::Register(r) => Gives(if r <= 3 { kind::X } else { kind::W }, r, 0),
        Form::Literal(k) => literal(meaning(symbols, k)),
        Form::Multiple(k) => match meaning(symbols, k) {
            Meaning::Undefined => Unnamed,
            Meaning::Value(v, _) => within(CFP_M, 4 * v),
            _ => Misfits,
        },
        Form::Indirect(r) => Gives(kind::INDIRECT, r, 0),
        Form::Rising(r) => Gives(kind::RISING, r, 0),
        Form::Falling(r) => Gives(kind::FALLING, r, 0),
        Form::Type(b) => Gives(kind::VALUE, 0, b as u32),
        Form::Indexed(Term::Number(n), r) => displaced(r, 4 * n),
        Form::Indexed(Term::Name(k), r) => match meaning(symbols, k) {
            Meaning::Undefined => Unnamed,
            Meaning::Address(a) => displaced(r, a),
            Meaning::Value(v, _) => displaced(r, 4 * v),
            _ => Misfits,
        },
        Form::Combined(a, plus, b) => match (value_of(symbols, c.line, a), value_of(symbols, c.line, b)) {
            (Misfits, _) | (_, Misfits) => Misfits,
            (Gives(_, _, v), Gives(_, _, w)) if plus => within(CFP_M, v as u64 + w as u64),
            (Gives(_, _, v), Gives(_, _, w)) => v.checked_sub(w).map_or(Misfits, |d| Gives(kind::VALUE, 0, d)),
            _ => Unnamed,
        },
        Form::Signed(true, n) if n <= 1 << 31 => Gives(kind::VALUE, 0, (n as u32).wrapping_neg()),
        Form::Signed(true, _) => Misfits,
        Form::Signed(false, n) => within(CFP_M, n),
        Form::Decimal(minus, n, k) => Outcome::Real(real(minus, n, k).to_bits()),
    }
}

/// A decimal as a double: the number of all its digits, divided once by a power of ten; zero has no sign.
fn real(minus: bool, digits: u64, behind: u32) -> f64 {
    let x = digits as f64 / 10u64.pow(behind) as f64;
    if minus && digits != 0 {
        -x
    } else {
        x
    }
}

pub fn outcomes(symbols: &Symbols, c: &Card) -> Vec<Outcome> {
    let forms = c.forms();
    let given = |(i, slot): (usize, &Slot)| match forms.get(i) {
        Some(f) => outcome(symbols, c, *slot, *f),
        None if slot.optional => Gives(kind::NONE, 0, 0),
        None => Misfits,
    };
    c.slots().iter().enumerate().map(given).collect()
}

/// The two words of a real, low word first.
pub fn pair(o: Option<&Outcome>) -> Vec<u32> {
    match o {
        Some(Outcome::Real(bits)) => vec![*bits as u32, (bits >> 32) as u32],
        _ => vec![0, 0],
    }
}

pub fn value(o: Option<&Outcome>) -> u32 {
    match o {
        Some(Gives(_, _, v)) => *v,
        _ => 0,
    }
}
