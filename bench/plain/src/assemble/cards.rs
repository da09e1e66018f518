//! Lines to cards: label, operation, the rest of the line, and where a card stands.

use super::forms::{decimal, form, name, Form, Name};
use super::symbols::Sort;
use crate::ops::{by_letters, Beside, Class, Format, Row, Slot};

/// Operations that only the assembler obeys.
#[derive(Clone, Copy, PartialEq, Eq, Debug)]
pub enum Order {
    Sec,
    End,
    Skipped,
    Exp,
    Inp,
    Inr,
    Glb,
    Equ,
    Dac,
    Dic,
    Dbc,
    Drc,
    Dtc,
}

#[derive(Clone, Copy)]
pub enum Operation {
    Empty,
    Malformed,
    Unknown,
    Order(Order),
    Row(&'static Row),
}

pub struct Card<'a> {
    pub line: usize,
    pub bytes: &'a [u8],
    /// SEC cards above.
    pub opened: usize,
    /// Places, words and EXPs above.
    pub place: usize,
    pub word: usize,
    pub external: usize,
    pub label: Option<Name>,
    pub label_malformed: bool,
    pub operation: Operation,
    /// The line from the operands on.
    pub tail: &'a [u8],
}

fn word_end(s: &[u8], from: usize) -> usize {
    s[from..].iter().position(|b| *b == b' ').map_or(s.len(), |i| from + i)
}

fn blanks_end(s: &[u8], from: usize) -> usize {
    s[from..].iter().position(|b| *b != b' ').map_or(s.len(), |i| from + i)
}

fn order(s: &[u8]) -> Option<Order> {
    Some(match s {
        b"SEC" => Order::Sec,
        b"END" => Order::End,
        b"TTL" | b"EJC" => Order::Skipped,
        b"EXP" => Order::Exp,
        b"INP" => Order::Inp,
        b"INR" => Order::Inr,
        b"GLB" => Order::Glb,
        b"EQU" => Order::Equ,
        b"DAC" => Order::Dac,
        b"DIC" => Order::Dic,
        b"DBC" => Order::Dbc,
        b"DRC" => Order::Drc,
        b"DTC" => Order::Dtc,
        _ => return None,
    })
}

/// The text of a DTC, empty where there is none or it is malformed.
pub fn quoted(tail: &[u8]) -> &[u8] {
    let [d, rest @ ..] = tail else {
        return &[];
    };
    match rest.iter().position(|b| b == d) {
        Some(i) if rest.get(i + 1).is_none_or(|b| *b == b' ') => &rest[..i],
        _ => &[],
    }
}

impl Card<'_> {
    pub fn is(&self, o: Order) -> bool {
        matches!(self.operation, Operation::Order(x) if x == o)
    }

    pub fn class(&self) -> Option<Class> {
        match self.operation {
            Operation::Row(r) => Some(r.class),
            _ => None,
        }
    }

    pub fn skipped(&self) -> bool {
        matches!(self.operation, Operation::Empty) || self.is(Order::Skipped)
    }

    pub fn holds_place(&self) -> bool {
        self.opened >= 5 && !self.skipped() && !self.is(Order::Sec) && !self.is(Order::End)
    }

    pub fn one_word(&self) -> bool {
        self.is(Order::Dac) || self.is(Order::Dic) || self.is(Order::Dbc)
    }

    pub fn word_count(&self) -> usize {
        if self.opened != 3 && self.opened != 4 {
            0
        } else if self.one_word() {
            1
        } else if self.is(Order::Drc) {
            2
        } else if self.is(Order::Dtc) {
            quoted(self.tail).len().div_ceil(4)
        } else {
            0
        }
    }

    pub fn is_external(&self) -> bool {
        self.opened == 1 && self.is(Order::Exp)
    }

    pub fn is_fresh(&self) -> bool {
        self.opened == 4 && self.label.is_some_and(|l| l.starts_with(b"F$")) && self.word_count() > 0
    }

    pub fn labelless(&self) -> bool {
        matches!(self.class(), Some(Class::Enp | Class::Ppm | Class::Err | Class::Iff | Class::Esw))
    }

    pub fn sort(&self) -> Sort {
        if self.is(Order::Sec) || self.is(Order::End) {
            return Sort::Bare;
        }
        match self.opened {
            0 => Sort::Bare,
            1 => match self.operation {
                Operation::Order(Order::Exp) => Sort::External,
                Operation::Order(Order::Inp) => Sort::Internal,
                Operation::Order(Order::Inr) => Sort::Routine,
                Operation::Order(Order::Glb) => Sort::Global,
                _ => Sort::Bare,
            },
            2 => Sort::Equal,
            3 | 4 => Sort::Word,
            _ => match self.class() {
                Some(Class::Ent) => Sort::Entry,
                Some(Class::Prc) => Sort::Procedure,
                Some(Class::Rtn) => Sort::Returns,
                _ if self.labelless() => Sort::Labelless,
                _ => Sort::Plain,
            },
        }
    }

    /// The operands that the operation takes.
    pub fn slots(&self) -> Vec<Slot> {
        let of = |format| Slot { format, optional: false, still: false };
        match self.operation {
            Operation::Order(Order::Exp | Order::Inp) => vec![of(Format::Ptyp), of(Format::Int)],
            Operation::Order(Order::Equ) => vec![of(Format::Eqop)],
            Operation::Order(Order::Dac) => vec![of(Format::Addr)],
            Operation::Order(Order::Dic) => vec![of(Format::Integer)],
            Operation::Order(Order::Dbc) => vec![of(Format::Val)],
            Operation::Order(Order::Drc) => vec![of(Format::Real)],
            Operation::Row(r) => {
                let mut all = if r.beside == Beside::Type { vec![of(Format::Ptyp)] } else { vec![] };
                all.extend(r.slots.iter().take_while(|s| s.format != Format::None));
                all
            }
            _ => vec![],
        }
    }

    pub fn has_text(&self) -> bool {
        matches!(self.operation, Operation::Row(r) if r.beside == Beside::Text)
    }

    pub fn field(&self) -> &[u8] {
        &self.tail[..word_end(self.tail, 0)]
    }

    pub fn forms(&self) -> Vec<Form> {
        let field = self.field();
        if self.slots().is_empty() || field.is_empty() {
            return vec![];
        }
        let parts = field.split(|b| *b == b',').map(if self.is(Order::Drc) { decimal } else { form });
        if self.has_text() {
            parts.take(1).collect()
        } else {
            parts.collect()
        }
    }
}

/// The operation of a line, by its letters.
fn operation(s: &[u8], letters: &[u8]) -> Operation {
    if s.first() == Some(&b'*') || s.iter().all(|b| *b == b' ') {
        Operation::Empty
    } else if letters.len() != 3 || !letters.iter().all(u8::is_ascii_uppercase) {
        Operation::Malformed
    } else if let Some(r) = by_letters(letters) {
        Operation::Row(r)
    } else {
        order(letters).map_or(Operation::Unknown, Operation::Order)
    }
}

/// The fields of a line, at the start of a deck.
fn card(line: usize, s: &[u8]) -> Card<'_> {
    let label_end = word_end(s, 0);
    let start = blanks_end(s, label_end);
    let end = word_end(s, start);
    let mut card = Card {
        line,
        bytes: s,
        opened: 0,
        place: 0,
        word: 0,
        external: 0,
        label: name(&s[..label_end]),
        label_malformed: label_end > 0 && name(&s[..label_end]).is_none(),
        operation: operation(s, &s[start..end]),
        tail: &s[blanks_end(s, end)..],
    };
    if card.skipped() {
        card.label = None;
    }
    if matches!(card.operation, Operation::Empty) {
        card.label_malformed = false;
    }
    card
}

/// The cards of a text, to its END.
pub fn cards(text: &[u8]) -> Vec<Card<'_>> {
    let mut all = Vec::new();
    if text.is_empty() {
        return all;
    }
    let (mut opened, mut place, mut word, mut external) = (0, 0, 0, 0);
    let body = text.strip_suffix(b"\n").unwrap_or(text);
    for (i, s) in body.split(|b| *b == b'\n').enumerate() {
        let card = Card { opened, place, word, external, ..card(i + 1, s) };
        if card.is(Order::Sec) && opened < 7 {
            opened += 1;
        }
        place += card.holds_place() as usize;
        word += card.word_count();
        external += card.is_external() as usize;
        let last = card.is(Order::End);
        all.push(card);
        if last {
            break;
        }
    }
    all
}
