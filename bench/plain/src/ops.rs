//! The operations: mnemonic, number, operand formats.

use crate::kind;

/// Operand formats of the MINIMAL description, section 7.
#[derive(Clone, Copy, PartialEq, Eq, Debug)]
pub enum Format {
    None,
    Opv,
    Opn,
    Opw,
    Ops,
    Opc,
    Reg,
    X,
    W,
    Val,
    Int,
    Shift,
    Plbl,
    Pnam,
    Glbl,
    // Of cards alone.
    Ptyp,
    Eqop,
    Addr,
    Integer,
    Real,
}

use Format::*;

/// A format at its place in an operation: it may be left out, it takes no (X)+.
#[derive(Clone, Copy, PartialEq, Eq, Debug)]
pub struct Slot {
    pub format: Format,
    pub optional: bool,
    pub still: bool,
}

const fn of(format: Format) -> Slot {
    Slot { format, optional: false, still: false }
}

const fn opt(format: Format) -> Slot {
    Slot { format, optional: true, still: false }
}

const fn still(format: Format) -> Slot {
    Slot { format, optional: false, still: true }
}

const NO: Slot = of(None);

impl Slot {
    /// Whether an operand of a table may have this kind here.
    pub fn takes_kind(self, k: u32) -> bool {
        use kind::*;
        if k == NONE {
            return self.optional || self.format == Format::None;
        }
        if k == RISING && self.still {
            return false;
        }
        let moves = matches!(k, INDIRECT | RISING | FALLING);
        match self.format {
            Format::None | Ptyp | Eqop | Addr | Integer | Real => false,
            Opv => matches!(k, VALUE | ADDRESS | X | W | INDEXED) || moves,
            Opn => matches!(k, ADDRESS | X | W | INDEXED) || moves,
            Opw => matches!(k, ADDRESS | W | INDEXED) || moves,
            Ops => matches!(k, ADDRESS | INDIRECT | INDEXED),
            Opc => moves,
            Reg => matches!(k, X | W),
            Format::X => k == X,
            Format::W => k == W,
            Val | Int | Shift => k == VALUE,
            Plbl | Glbl => k == PLACE,
            Pnam => matches!(k, PLACE | EXTERNAL),
        }
    }

    /// The last index register that it takes.
    pub fn last_x(self) -> u32 {
        if self.format == Opc {
            2
        } else {
            3
        }
    }

    /// Its largest value.
    pub fn largest(self) -> u32 {
        if self.format == Shift {
            crate::CFP_N
        } else {
            crate::CFP_M
        }
    }
}

/// What a card holds beside its operands.
#[derive(Clone, Copy, PartialEq, Eq, Debug)]
pub enum Beside {
    Nothing,
    Type,
    Text,
}

/// What an operation does to control.
#[derive(Clone, Copy, PartialEq, Eq, Debug)]
pub enum Class {
    Goes,
    Forks,
    Brn,
    Jmg,
    Bri,
    Bsw,
    Ent,
    Rtn,
    Jsr,
    Exi,
    Sss,
    Erb,
    Chk,
    Ppm,
    Err,
    Iff,
    Esw,
    Prc,
    Enp,
}

impl Class {
    /// Whether an operation of this class can be arrived at.
    pub fn arrives(self) -> bool {
        !matches!(self, Class::Ppm | Class::Err | Class::Iff | Class::Esw | Class::Prc | Class::Enp)
    }
}

#[derive(Clone, Copy, Debug)]
pub struct Row {
    pub mnemonic: &'static str,
    pub number: u32,
    pub class: Class,
    pub slots: [Slot; 3],
    pub beside: Beside,
}

const fn row(mnemonic: &'static str, number: u32, class: Class, slots: [Slot; 3]) -> Row {
    Row { mnemonic, number, class, slots, beside: Beside::Nothing }
}

const fn besides(mnemonic: &'static str, number: u32, class: Class, slots: [Slot; 3], beside: Beside) -> Row {
    Row { mnemonic, number, class, slots, beside }
}

const COMPARE: [Slot; 3] = [still(Opn), still(Opv), of(Plbl)];
const CHARACTERS: [Slot; 3] = [still(Opw), still(Opw), of(Plbl)];
const BRANCH: [Slot; 3] = [of(Plbl), NO, NO];
const INTEGER: [Slot; 3] = [of(Ops), NO, NO];
const REAL: [Slot; 3] = [of(Ops), NO, NO];
const BITS: [Slot; 3] = [of(Opw), of(W), NO];
const SILENT: [Slot; 3] = [NO, NO, NO];

const fn one(s: Slot) -> [Slot; 3] {
    [s, NO, NO]
}

const fn two(a: Slot, b: Slot) -> [Slot; 3] {
    [a, b, NO]
}

pub static ROWS: [Row; 106] = [
    row("MOV", 101, Class::Goes, two(of(Opv), of(Opn))),
    row("BRN", 102, Class::Brn, BRANCH),
    row("BSW", 103, Class::Bsw, [of(X), of(Val), opt(Plbl)]),
    row("IFF", 104, Class::Iff, two(of(Val), of(Plbl))),
    row("ESW", 105, Class::Esw, SILENT),
    row("ENT", 106, Class::Ent, one(opt(Val))),
    row("BRI", 107, Class::Bri, one(of(Opn))),
    row("LEI", 108, Class::Goes, one(of(X))),
    row("JSR", 109, Class::Jsr, one(of(Pnam))),
    row("PPM", 110, Class::Ppm, one(opt(Plbl))),
    besides("PRC", 111, Class::Prc, one(of(Val)), Beside::Type),
    row("EXI", 112, Class::Exi, one(opt(Int))),
    row("ENP", 113, Class::Enp, SILENT),
    besides("ERR", 114, Class::Err, one(of(Int)), Beside::Text),
    besides("ERB", 115, Class::Erb, one(of(Int)), Beside::Text),
    row("ICV", 116, Class::Goes, one(of(Opn))),
    row("DCV", 117, Class::Goes, one(of(Opn))),
    row("ZER", 118, Class::Goes, one(of(Opn))),
    row("MNZ", 119, Class::Goes, one(of(Opn))),
    row("SSL", 120, Class::Goes, one(of(Opw))),
    row("SSS", 121, Class::Sss, one(of(Opw))),
    row("RTN", 122, Class::Rtn, SILENT),
    row("JMG", 123, Class::Jmg, one(of(Glbl))),
    row("ADD", 201, Class::Goes, two(of(Opv), of(Opn))),
    row("SUB", 202, Class::Goes, two(of(Opv), of(Opn))),
    row("ICA", 203, Class::Goes, one(of(Opn))),
    row("DCA", 204, Class::Goes, one(of(Opn))),
    row("BEQ", 205, Class::Forks, COMPARE),
    row("BNE", 206, Class::Forks, COMPARE),
    row("BGT", 207, Class::Forks, COMPARE),
    row("BGE", 208, Class::Forks, COMPARE),
    row("BLT", 209, Class::Forks, COMPARE),
    row("BLE", 210, Class::Forks, COMPARE),
    row("BLO", 211, Class::Forks, COMPARE),
    row("BHI", 212, Class::Forks, COMPARE),
    row("BNZ", 213, Class::Forks, two(still(Opn), of(Plbl))),
    row("BZE", 214, Class::Forks, two(still(Opn), of(Plbl))),
    row("LCT", 215, Class::Goes, two(of(W), of(Opv))),
    row("BCT", 216, Class::Forks, two(of(W), of(Plbl))),
    row("AOV", 217, Class::Forks, [of(Opv), of(Opn), of(Plbl)]),
    row("LDI", 401, Class::Goes, INTEGER),
    row("ADI", 402, Class::Goes, INTEGER),
    row("MLI", 403, Class::Goes, INTEGER),
    row("SBI", 404, Class::Goes, INTEGER),
    row("DVI", 405, Class::Goes, INTEGER),
    row("RMI", 406, Class::Goes, INTEGER),
    row("STI", 407, Class::Goes, INTEGER),
    row("NGI", 408, Class::Goes, SILENT),
    row("INO", 409, Class::Forks, BRANCH),
    row("IOV", 410, Class::Forks, BRANCH),
    row("IEQ", 411, Class::Forks, BRANCH),
    row("IGE", 412, Class::Forks, BRANCH),
    row("IGT", 413, Class::Forks, BRANCH),
    row("ILE", 414, Class::Forks, BRANCH),
    row("ILT", 415, Class::Forks, BRANCH),
    row("INE", 416, Class::Forks, BRANCH),
    row("LDR", 501, Class::Goes, REAL),
    row("STR", 502, Class::Goes, REAL),
    row("ADR", 503, Class::Goes, REAL),
    row("SBR", 504, Class::Goes, REAL),
    row("MLR", 505, Class::Goes, REAL),
    row("DVR", 506, Class::Goes, REAL),
    row("ROV", 507, Class::Forks, BRANCH),
    row("RNO", 508, Class::Forks, BRANCH),
    row("NGR", 509, Class::Goes, SILENT),
    row("REQ", 510, Class::Forks, BRANCH),
    row("RGE", 511, Class::Forks, BRANCH),
    row("RGT", 512, Class::Forks, BRANCH),
    row("RLE", 513, Class::Forks, BRANCH),
    row("RLT", 514, Class::Forks, BRANCH),
    row("RNE", 515, Class::Forks, BRANCH),
    row("PLC", 601, Class::Goes, two(of(X), opt(Opv))),
    row("PSC", 602, Class::Goes, two(of(X), opt(Opv))),
    row("LCH", 603, Class::Goes, two(of(Reg), of(Opc))),
    row("SCH", 604, Class::Goes, two(of(Reg), of(Opc))),
    row("CSC", 605, Class::Goes, one(of(X))),
    row("CEQ", 606, Class::Forks, CHARACTERS),
    row("CNE", 607, Class::Forks, CHARACTERS),
    row("CMC", 608, Class::Forks, two(of(Plbl), of(Plbl))),
    row("TRC", 609, Class::Goes, SILENT),
    row("ANB", 701, Class::Goes, BITS),
    row("ORB", 702, Class::Goes, BITS),
    row("XOB", 703, Class::Goes, BITS),
    row("CMB", 704, Class::Goes, one(of(W))),
    row("RSH", 705, Class::Goes, two(of(W), of(Shift))),
    row("LSH", 706, Class::Goes, two(of(W), of(Shift))),
    row("RSX", 707, Class::Goes, two(of(W), of(X))),
    row("LSX", 708, Class::Goes, two(of(W), of(X))),
    row("NZB", 709, Class::Forks, two(of(W), of(Plbl))),
    row("ZRB", 710, Class::Forks, two(of(W), of(Plbl))),
    row("ZGB", 711, Class::Goes, one(of(Opn))),
    row("WTB", 801, Class::Goes, one(of(Reg))),
    row("BTW", 802, Class::Goes, one(of(Reg))),
    row("MTI", 803, Class::Goes, one(of(Opn))),
    row("MFI", 804, Class::Forks, two(of(Opn), opt(Plbl))),
    row("ITR", 805, Class::Goes, SILENT),
    row("RTI", 806, Class::Forks, one(opt(Plbl))),
    row("CTW", 807, Class::Goes, two(of(W), of(Val))),
    row("CTB", 808, Class::Goes, two(of(W), of(Val))),
    row("BTC", 809, Class::Goes, one(of(W))),
    row("WTC", 810, Class::Goes, one(of(W))),
    row("CVM", 811, Class::Forks, BRANCH),
    row("CVD", 812, Class::Goes, SILENT),
    row("MVC", 901, Class::Goes, SILENT),
    row("MVW", 903, Class::Goes, SILENT),
    row("CHK", 1001, Class::Chk, SILENT),
];

/// The row of an operation number; the rows are in the order of their numbers.
pub fn by_number(n: u32) -> Option<&'static Row> {
    ROWS.binary_search_by_key(&n, |r| r.number).ok().map(|i| &ROWS[i])
}

/// The row of three letters.
pub fn by_letters(s: &[u8]) -> Option<&'static Row> {
    ROWS.iter().find(|r| r.mnemonic.as_bytes() == s)
}
