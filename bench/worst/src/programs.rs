//! The programs. Sections 0 to 3 of their decks are empty, so that all of memory is theirs from address 0 on.

use torzimlak_bench::{ready, section_4, Ready, MEMORY};

/// A program, and the steps of one turn of it.
pub struct Program {
    pub name: String,
    pub turn: usize,
    pub ready: Ready,
}

const BYTES: usize = 4 * MEMORY;
/// The places that are left for section 4.
const PLACES: usize = 1022;
/// The IFFs of a full table: beside them it has BSW, ESW and two places of sections 5 and 6.
const IFFS: usize = 1020;
/// The characters of TRC's table.
const TABLE: usize = 256;

/// A program of some cards with names for numbers.
fn program(name: String, turn: usize, numbers: &[(&str, usize)], operations: &str) -> Program {
    let equals: String = numbers.iter().map(|(label, n)| format!("{label} EQU {n}\n")).collect();
    let cards = section_4(operations).replacen(" SEC\n SEC\n", &format!(" SEC\n SEC\n{equals}"), 1);
    let ready = ready(cards.as_bytes()).unwrap_or_else(|(n, l)| panic!("{name}: refused {n}, line {l}"));
    Program { name, turn, ready }
}

/// A turn repeated in a straight line as often as the table has room, then BRN.
fn straight(name: String, numbers: &[(&str, usize)], turn: &[&str]) -> Program {
    let lines: String = turn.iter().map(|line| format!(" {line}\n")).collect();
    let times = (PLACES - 1) / turn.len();
    program(name, turn.len(), numbers, &format!("START{} BRN START\n", lines.repeat(times)))
}

/// MVC or MVW of as many bytes as fit from one address to another.
fn moves(operation: &str, from: usize, to: usize) -> Program {
    let (bytes, way) = (BYTES - from.max(to), if from < to { "upwards" } else { "downwards" });
    let name = format!("{operation} of all of memory {way} by {}", from.abs_diff(to));
    let turn = ["MOV =BYTES,WA", "MOV =FROMA,XL", "MOV =TOADR,XR", operation];
    straight(name, &[("BYTES", bytes), ("FROMA", from), ("TOADR", to)], &turn)
}

/// TRC of the lowest bytes with the table at an address; each TRC leaves XL, XR and WA 0.
fn translates(name: &str, bytes: usize, table: usize) -> Program {
    let name = format!("TRC of {name}");
    let numbers = [("BYTES", bytes), ("TABLE", table)];
    let mut p = if table == 0 {
        straight(name, &numbers, &["MOV =BYTES,WA", "TRC"])
    } else {
        straight(name, &numbers, &["MOV =BYTES,WA", "MOV =TABLE,XR", "TRC"])
    };
    clear(&mut p);
    p
}

/// XL, XR and WA are 0 at the start.
fn clear(p: &mut Program) {
    p.ready.state[..6].copy_from_slice(&[0, 0, BYTES as u32, 0, 0, 0]);
}

/// Memory in which each byte is its address by 256, so that a table at a multiple of 256 gives each character itself.
fn counting(mut p: Program) -> Program {
    let byte = |address: usize| (address % TABLE) as u8;
    for (i, word) in p.ready.memory.iter_mut().enumerate() {
        *word = u32::from_le_bytes([0, 1, 2, 3].map(|k| byte(4 * i + k)));
    }
    Program { name: format!("{}, all characters", p.name), ..p }
}

/// CMC of equal strings, the first at an address and the second at another; each CMC leaves XL, XR and WA 0.
fn compares(from: usize, to: usize) -> Program {
    let mut turn = vec!["MOV =BYTES,WA"];
    turn.extend((from != 0).then_some("MOV =FROMA,XL"));
    turn.extend((to != 0).then_some("MOV =TOADR,XR"));
    turn.push("CMC START,START");
    let name = format!("CMC of all of memory, equal strings from {from} and {to}");
    let mut p = straight(name, &[("BYTES", BYTES - from.max(to)), ("FROMA", from), ("TOADR", to)], &turn);
    clear(&mut p);
    p
}

/// A switch that goes to itself, so that each step is one; XL holds the value.
fn switches(name: &str, number: impl Fn(usize) -> usize, value: usize) -> Program {
    let cases: String = (0..IFFS).map(|i| format!(" IFF {},START\n", number(i))).collect();
    let name = format!("BSW over {IFFS} IFFs, {name}");
    let mut p = program(name, 1, &[], &format!("START BSW XL,9999,START\n{cases} ESW\n"));
    clear(&mut p);
    p.ready.state[0] = value as u32;
    p
}

/// All of them.
pub fn all() -> Vec<Program> {
    let mut list = vec![];
    for distance in [1, 2, 3, 4, 5, 6, 7, 8, 12, 13, 64, 1000, 16_384] {
        list.push(moves("MVC", 0, distance));
    }
    for distance in [1, 3, 4, 5] {
        list.push(moves("MVC", distance, 0));
    }
    list.push(moves("MVW", 0, 4));
    list.push(moves("MVW", 0, 8));
    let below = BYTES - TABLE;
    list.push(translates("all below its table", below, below));
    list.push(counting(translates("all below its table", below, below)));
    list.push(translates("all of memory, table at its begin", BYTES, 0));
    list.push(counting(translates("all of memory, table at its begin", BYTES, 0)));
    list.push(translates("all of memory, table in its middle", BYTES, BYTES / 2));
    list.push(counting(translates("all of memory, table in its middle", BYTES, BYTES / 2)));
    list.push(counting(translates("all of memory, table at its end", BYTES, below)));
    list.extend([compares(0, 0), compares(1, 0), compares(0, 1), compares(2, 1), compares(3, 1), compares(4, 0)]);
    // each number below 1,020 once, in no order
    let mixed = |i: usize| i * 611 % IFFS * 7;
    list.push(switches("values in order, the last", |i| i, IFFS - 1));
    list.push(switches("values in order, the default", |i| i, IFFS));
    list.push(switches("values in no order, the last", mixed, mixed(IFFS - 1)));
    list.push(switches("values in no order, the default", mixed, 1));
    list
}
