//! The operations on IA at the edges of 32 bits: the proved library and the plain implementation beside Rust's own overflowing arithmetic.

use torzimlak::{Ending, Machine, Table};
use torzimlak_plain::machine;

/// IA and the flag after an operation on IA and the word v.
type Due = fn(i32, i32) -> (i32, bool);

/// By 0 IA stays and the flag is on; every remainder is in range.
const OPERATIONS: [(&str, Due); 6] = [
    ("ADI VALUE", i32::overflowing_add),
    ("SBI VALUE", i32::overflowing_sub),
    ("MLI VALUE", i32::overflowing_mul),
    ("DVI VALUE", |ia, v| if v == 0 { (ia, true) } else { ia.overflowing_div(v) }),
    ("RMI VALUE", |ia, v| if v == 0 { (ia, true) } else { (ia.wrapping_rem(v), false) }),
    ("NGI", |ia, _| ia.overflowing_neg()),
];

const EDGES: [i32; 15] = [i32::MIN, i32::MIN + 1, i32::MIN / 2, -65536, -7, -2, -1, 0, 1, 2, 7, 46341, 65536, i32::MAX - 1, i32::MAX];

/// A deck whose first step is this operation; the word VALUE is the first of memory.
fn table(operation: &str) -> Table {
    let cards = format!(" SEC\n SEC\n SEC\n SEC\nVALUE DIC +0\n SEC\nSTART {operation}\n BRN START\n SEC\n BRN START\n SEC\n BRN START\n END\n");
    Table::assemble(cards.as_bytes()).unwrap()
}

/// What both implementations leave in IA and the flag.
fn after(table: &Table, ia: i32, v: i32) -> (i32, bool) {
    let mut machine = Machine::start(table, 256, &[], 0).unwrap();
    let mut memory = machine.memory().to_vec();
    let mut plain = machine::start(table.words(), &mut memory, &[], 0).unwrap();
    machine.set_ia(ia);
    machine.memory_mut()[0] = v as u32;
    (plain.ia, memory[0]) = (ia as u32, v as u32);
    assert_eq!(machine.run(1).map(|r| r.ending), Ok(Ending::BudgetUsed));
    assert_eq!(machine::run(table.words(), &mut memory, &mut plain, 1), (21, 1));
    let left = (machine.state().ia(), machine.state().overflow());
    assert_eq!(left, (plain.ia as i32, plain.flag), "{ia} and {v}");
    left
}

#[test]
fn edges() {
    for (operation, due) in OPERATIONS {
        let table = table(operation);
        for (ia, v) in EDGES.iter().flat_map(|ia| EDGES.iter().map(move |v| (*ia, *v))) {
            assert_eq!(after(&table, ia, v), due(ia, v), "{operation} of {ia} and {v}");
        }
    }
}

/// The one quotient that is out of range, and those beside it.
#[test]
fn the_smallest_by_minus_one() {
    let (dvi, rmi) = (table("DVI VALUE"), table("RMI VALUE"));
    assert_eq!(after(&dvi, -2147483648, -1), (-2147483648, true));
    assert_eq!(after(&dvi, -2147483648, 1), (-2147483648, false));
    assert_eq!(after(&dvi, -2147483647, -1), (2147483647, false));
    assert_eq!(after(&rmi, -2147483648, -1), (0, false));
}
