//! The decks, of any size.

use torzimlak_bench::section_4;

/// The operations of a full table.
pub const OPERATIONS: usize = 1024;

/// The value of IFF i of n, in order or in no order; that of IFF n is none of theirs.
pub fn value(in_order: bool, i: u32, n: u32) -> u32 {
    if in_order || i == n {
        return if in_order { i } else { 1 };
    }
    // 7 is prime to the sizes used, so that no value comes twice
    2 + 3 * (i * 7 % n)
}

/// A switch of n IFFs that goes to itself: each step is one.
pub fn switch(n: u32, value: impl Fn(u32) -> u32) -> String {
    let cases: String = (0..n).map(|i| format!(" IFF {},START\n", value(i))).collect();
    section_4(&format!("START BSW XL,9999,START\n{cases} ESW\n"))
}

/// Three MOVs and an operation on a block, in a straight line as often as there is room.
pub fn block(operation: &str, bytes: u32, from: u32, to: u32) -> String {
    let numbers = format!(" SEC\n SEC\nBYTES EQU {bytes}\nFROMA EQU {from}\nTOADR EQU {to}\n");
    let turn = format!(" MOV =BYTES,WA\n MOV =FROMA,XL\n MOV =TOADR,XR\n {operation}\n").repeat(255);
    section_4(&format!("START{turn} BRN START\n")).replacen(" SEC\n SEC\n", &numbers, 1)
}

/// A full table whose operations name the labels in turn, each as often as the others.
pub fn labels(n: usize) -> String {
    let operation = |i: usize| {
        let label = if i < n { format!("LA{i:03}") } else { String::new() };
        match n {
            0 => format!("{label} ADD WA,WB\n"),
            _ => format!("{label} BNE WA,WB,LA{:03}\n", i * 13 % n),
        }
    };
    let mut operations: String = (0..OPERATIONS - 3).map(operation).collect();
    operations += " ERB 3,END\n";
    section_4(&operations)
}
