//! Lawful tables, full ones of 1,024 entries and smaller ones.

pub const ENTRIES: usize = 1024;
const HEADER: usize = 8;
const ENTRY: usize = 8;

// Operations.
const MOV: u32 = 101;
const BRN: u32 = 102;
const BSW: u32 = 103;
const IFF: u32 = 104;
const ESW: u32 = 105;
const JSR: u32 = 109;
const PPM: u32 = 110;
const PRC: u32 = 111;
const EXI: u32 = 112;
const ENP: u32 = 113;
const ERR: u32 = 114;
const ADD: u32 = 201;
const SUB: u32 = 202;
const BEQ: u32 = 205;
const BGT: u32 = 207;
const BNZ: u32 = 213;
const LCT: u32 = 215;
const BCT: u32 = 216;
const ANB: u32 = 701;
const RSH: u32 = 705;

// Registers.
const XL: u32 = 1;
const XR: u32 = 2;
const WA: u32 = 4;
const WB: u32 = 5;

/// An operand: kind, register, value.
type Operand = [u32; 3];

const NONE: Operand = [0, 0, 0];

fn value(v: u32) -> Operand {
    [1, 0, v]
}

fn word(i: u32) -> Operand {
    [3, 0, 4 * i]
}

fn place(p: usize) -> Operand {
    [6, 0, p as u32]
}

fn x(r: u32) -> Operand {
    [7, r, 0]
}

fn w(r: u32) -> Operand {
    [8, r, 0]
}

fn rising(r: u32) -> Operand {
    [10, r, 0]
}

fn indexed(r: u32, d: u32) -> Operand {
    [12, r, d]
}

fn external(i: u32) -> Operand {
    [23, 0, i]
}

/// A table that is being written, entry by entry.
struct Writer(Vec<[u32; ENTRY]>);

impl Writer {
    fn here(&self) -> usize {
        self.0.len()
    }

    fn put(&mut self, op: u32, one: Operand, two: Operand) {
        self.0.push([op, one[0], one[1], one[2], two[0], two[1], two[2], 0]);
    }

    /// An entry whose third operand is a place.
    fn put3(&mut self, op: u32, one: Operand, two: Operand, three: usize) {
        self.put(op, one, two);
        self.0.last_mut().unwrap()[7] = three as u32 + 1;
    }

    /// Sections 5 and 6: an entry each, which goes to itself.
    fn sections(&mut self) {
        for _ in 0..2 {
            self.put(BRN, place(self.here()), NONE);
        }
    }

    /// The table: sections 5 and 6 are the last two entries, and what stands behind them is given.
    fn table(self, counts: [u32; 4], behind: &[u32]) -> Vec<u32> {
        let n = self.here() as u32;
        let [constants, workings, fresh, externals] = counts;
        let mut t = vec![n, constants, workings, fresh, externals, 0, n - 2, n - 1];
        t.extend(self.0.iter().flatten());
        t.extend(behind);
        t
    }
}

/// A table with procedures, and the places that its states and its damaged twin need.
pub struct Full {
    pub table: Vec<u32>,
    /// A JSR outside procedures, one in the procedure to itself, one in another procedure.
    pub outer: u32,
    pub inner: u32,
    pub other: u32,
    /// A place in the procedure that can be arrived at.
    pub inside: u32,
    /// The word of the table that holds the operation of the last exit card.
    pub last_exit: usize,
}

const EXITS: u32 = 3;
const CASES: u32 = 8;

/// Entries that call procedure q, with its exit list; exit 1 goes to place p.
fn call(t: &mut Writer, q: usize, p: usize) {
    t.put(JSR, place(q), NONE);
    t.put(PPM, place(p), NONE);
    t.put(PPM, NONE, NONE);
    t.put(ERR, value(7), NONE);
}

/// A switch whose cases and default go to place p.
fn cases(t: &mut Writer, p: usize) {
    t.put3(BSW, x(XL), value(CASES), p);
    for i in 0..CASES {
        t.put(IFF, value(i), place(p));
    }
    t.put(ESW, NONE, NONE);
}

/// Moves, sums and branches to place p.
fn straight(t: &mut Writer, p: usize) {
    t.put(MOV, w(WA), x(XL));
    t.put(MOV, word(20), w(WB));
    t.put(ADD, value(12), w(WA));
    t.put3(BEQ, w(WA), value(9), p);
    t.put(MOV, rising(XL), indexed(XR, 8));
    t.put(SUB, word(3), word(21));
    t.put(ANB, word(22), w(WB));
    t.put(RSH, w(WA), value(3));
    t.put3(BGT, word(22), w(WA), p);
    t.put(BNZ, x(XR), place(p));
    t.put(LCT, w(WA), w(WB));
    t.put(BCT, w(WA), place(p));
}

/// 1,024 entries with 20 procedures.
pub fn full() -> Full {
    filled(ENTRIES, 20, 230)
}

/// Procedures with exit lists, switches of 8, moves, sums and branches; calls from outside, and of an EXP; 10 constant words.
pub fn filled(entries: usize, procedures: usize, workings: u32) -> Full {
    let mut t = Writer(Vec::new());
    // The length of a procedure from its PRC to its ENP.
    let body = {
        let mut one = Writer(Vec::new());
        procedure(&mut one, 0);
        one.here()
    };
    let main = 1 + 4 * procedures + 3;
    let first = |i: usize| main + body * i;
    t.put(MOV, value(1), w(WA));
    for i in 0..procedures {
        call(&mut t, first(i), 0);
    }
    t.put(JSR, external(1), NONE);
    t.put(PPM, place(0), NONE);
    t.put(BRN, place(0), NONE);
    for i in 0..procedures {
        procedure(&mut t, first(i));
    }
    while t.here() + 3 < entries {
        t.put(MOV, word(30), word(31));
    }
    t.put(BRN, place(0), NONE);
    t.sections();
    let inner = |i: usize| first(i) + body - CALL_FROM_END;
    let last_exit = HEADER + ENTRY * (inner(procedures - 1) + EXITS as usize);
    let mut behind = vec![4 * 40, 4 * 41, 0, 1];
    behind.extend([5; 40]);
    behind.extend(vec![0; workings as usize - 30]);
    Full {
        table: t.table([10, workings, 2, 2], &behind),
        outer: 1,
        inner: inner(0) as u32,
        other: inner(procedures - 1) as u32,
        inside: first(0) as u32 + 1,
        last_exit,
    }
}

/// How far before the end of a procedure its call of itself stands.
const CALL_FROM_END: usize = 4 + 4;

/// A procedure at place q that calls itself.
fn procedure(t: &mut Writer, q: usize) {
    t.put(PRC, value(EXITS), NONE);
    straight(t, q + 1);
    cases(t, q + 1);
    straight(t, q + 1);
    call(t, q, q + 1);
    t.put(EXI, value(1), NONE);
    t.put(EXI, value(EXITS), NONE);
    t.put(EXI, NONE, NONE);
    t.put(ENP, NONE, NONE);
}

/// A table that is one switch, and the words of its first and last value.
pub struct Switch {
    pub table: Vec<u32>,
    pub first_value: usize,
    pub last_value: usize,
}

/// Entries of a table of one switch that are no IFF: BSW, ESW and the two sections behind it.
pub const AROUND: usize = 4;

/// The largest limit of a switch, CFP$M.
pub const LIMIT: u32 = 2_147_483_647;

/// One switch with these values, below this limit.
pub fn switch(values: &[u32], limit: u32) -> Switch {
    let mut t = Writer(Vec::new());
    t.put(BSW, x(XL), value(limit));
    for &v in values {
        t.put(IFF, value(v), place(0));
    }
    t.put(ESW, NONE, NONE);
    t.sections();
    let last_value = HEADER + ENTRY * values.len() + 3;
    Switch { table: t.table([0; 4], &[]), first_value: HEADER + ENTRY + 3, last_value }
}

/// Switches with no case, as many as 1,024 entries hold.
pub fn empty_switches() -> Vec<u32> {
    let mut t = Writer(Vec::new());
    while t.here() + 2 < ENTRIES {
        t.put(BSW, x(XL), value(LIMIT));
        t.put(ESW, NONE, NONE);
    }
    t.sections();
    t.table([0; 4], &[])
}

/// Values that have one remainder by 1,024, and by any divisor of it, neither rising nor falling.
pub fn one_remainder(count: usize) -> Vec<u32> {
    // 389 is a prime that divides none of the counts, so that each number comes once.
    (0..count).map(|i| 7 + 1024 * (i * 389 % count) as u32).collect()
}
