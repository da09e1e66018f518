//! Times how the cost of an operation grows with its size, and that of the assembler with the labels of a deck, proved and plain, after both gave
//! the same. Prints tables in Markdown.

mod decks;

use std::hint::black_box;
use torzimlak::sys;
use torzimlak_bench::tables::{filled, one_remainder, switch, AROUND, ENTRIES, LIMIT};
use torzimlak_bench::{once, ready, rounds, state, used, Times};
use torzimlak_plain::assemble::assemble;
use torzimlak_plain::{check, machine};

const ROOM: usize = 20_000;
const ROUNDS: usize = 7;
const CHECK_ROUNDS: usize = 101;
/// A timed run of the plain machine lasts about so many nanoseconds, or has the most steps; the checks of the proved one then weigh little.
const STRETCH: f64 = 20e6;
const MOST_STEPS: u32 = 200_000;

/// A number with one place behind the point, below 100.
fn figure(x: f64) -> String {
    let places = if x < 99.95 { 1 } else { 0 };
    format!("{x:.places$}")
}

/// A cell: proved and plain.
fn cell([proved, plain]: [Times; 2]) -> String {
    format!("{} / {}", figure(proved.median()), figure(plain.median()))
}

/// Prints a table: its head, and rows of a name and cells.
fn table(head: &[String], rows: &[(&str, Vec<String>)]) {
    let line = |cells: &[String]| println!("| {} |", cells.join(" | "));
    line(head);
    println!("|---{}|", "|---:".repeat(head.len() - 1));
    for (name, cells) in rows {
        line(&[&[name.to_string()], &cells[..]].concat());
    }
    println!();
}

/// Nanoseconds of a turn of so many steps, proved and plain, after both did the same.
fn steps(cards: &str, turn: u32, registers: [u32; 2]) -> [Times; 2] {
    let mut r = ready(cards.as_bytes()).unwrap_or_else(|(n, l)| panic!("refused {n}, line {l}"));
    r.state[..2].copy_from_slice(&registers);
    let (mut m, mut s) = (r.memory.clone(), r.state.clone());
    let (mut pm, mut ps) = (r.memory.clone(), r.plain());
    let first = 1020;
    assert_eq!(sys::run(&r.table, &mut m, &mut s, first), (21, first));
    let (answer, ns) = once(|| machine::run_on(&r.table, &mut pm, &mut ps, first));
    assert_eq!(answer, (21, first));
    assert!(m == pm && state::plain(&s) == ps);
    let budget = ((STRETCH * first as f64 / ns) as u32).clamp(first, MOST_STEPS);
    let mut proved = || used(sys::run(&r.table, &mut m, &mut s, budget));
    let mut plain = || used(machine::run_on(&r.table, &mut pm, &mut ps, budget));
    rounds(ROUNDS, [&mut proved, &mut plain]).map(|t| t.over(budget as f64 / turn as f64))
}

/// A step of BSW by the number of its IFFs.
fn switches() {
    const IFFS: [u32; 5] = [10, 100, 250, 500, 1000];
    println!("Nanoseconds of a BSW step by the number of IFFs, proved / plain Rust:\n");
    let head: Vec<String> = ["The IFF chosen".into()].into_iter().chain(IFFS.map(|n| n.to_string())).collect();
    let row = |in_order: bool, chosen: fn(u32) -> u32| {
        let value = move |i: u32, n: u32| decks::value(in_order, i, n);
        IFFS.map(|n| cell(steps(&decks::switch(n, |i| value(i, n)), 1, [value(chosen(n), n), 0]))).to_vec()
    };
    table(
        &head,
        &[
            ("first, values in order", row(true, |_| 0)),
            ("last, values in order", row(true, |n| n - 1)),
            ("default, values in order", row(true, |n| n)),
            ("last, values in no order", row(false, |n| n - 1)),
            ("default, values in no order", row(false, |n| n)),
        ],
    );
}

/// A turn of three MOVs and an operation on blocks, by its bytes.
fn blocks() {
    const BYTES: [u32; 6] = [0, 4, 16, 64, 256, 4096];
    println!("Nanoseconds of four steps, three MOV and an operation on a block, by its bytes, proved / plain Rust:\n");
    let head: Vec<String> = ["Operation".into()].into_iter().chain(BYTES.map(|n| n.to_string())).collect();
    let row = |operation: &'static str, from: u32, to: u32| {
        BYTES.map(|n| cell(steps(&decks::block(operation, n, from, to), 4, [0, 0]))).to_vec()
    };
    table(
        &head,
        &[
            ("MVC, equal remainders", row("MVC", 8193, 21_265)),
            ("MVC, other remainders", row("MVC", 8193, 21_267)),
            ("MVC, filling by 1", row("MVC", 8193, 8194)),
            ("MVC, filling by 5", row("MVC", 8193, 8198)),
            ("MVW", row("MVW", 8192, 21_264)),
            ("CMC, equal strings, equal remainders", row("CMC START,START", 8193, 21_265)),
            ("CMC, equal strings, other remainders", row("CMC START,START", 8193, 21_267)),
            ("TRC, table elsewhere", row("TRC", 8193, 21_264)),
            ("TRC, table in the string", row("TRC", 8193, 8196)),
        ],
    );
}

/// The assembler, by labels.
fn labels() {
    const LABELS: [usize; 5] = [0, 64, 128, 256, 512];
    println!(
        "Microseconds of assembling {} operations by the number of labels; each operation names one, if there are:\n",
        decks::OPERATIONS
    );
    let mut rows = [("Proved", vec![]), ("Plain Rust", vec![])];
    for n in LABELS {
        let cards = decks::labels(n);
        let text = cards.as_bytes();
        let mut room = vec![0; ROOM];
        let due = assemble(text, ROOM).unwrap_or_else(|(n, l)| panic!("refused {n}, line {l}"));
        assert_eq!(sys::assemble(text, &mut room), (0, due.len() as u32));
        assert!(due == room[..due.len()]);
        let mut proved = || used(sys::assemble(black_box(text), &mut room));
        let mut plain = || used(assemble(black_box(text), ROOM));
        for (row, t) in rows.iter_mut().zip(rounds(ROUNDS, [&mut proved, &mut plain])) {
            row.1.push(figure(t.median() / 1e3));
        }
    }
    let head: Vec<String> = ["Labels".into()].into_iter().chain(LABELS.map(|n| n.to_string())).collect();
    table(&head, &rows);
}

/// The table check by the entries of a table.
fn tables() {
    const SIZES: [usize; 4] = [128, 256, 512, ENTRIES];
    println!("Microseconds of check_table by the entries of the table, proved / plain Rust:\n");
    let head: Vec<String> = ["Table".to_string()].into_iter().chain(SIZES.map(|n| n.to_string())).collect();
    let row = |make: &dyn Fn(usize) -> Vec<u32>| SIZES.map(|entries| cell(table_check(&make(entries)))).to_vec();
    let rising = |entries: usize| switch(&(0..(entries - AROUND) as u32).collect::<Vec<_>>(), LIMIT).table;
    let strange = |entries: usize| switch(&one_remainder(entries - AROUND), LIMIT).table;
    let usual = |entries: usize| filled(entries, entries * 20 / ENTRIES, 230).table;
    let rows = [
        ("procedures and switches", row(&usual)),
        ("one switch, values 0, 1, 2 ..", row(&rising)),
        ("one switch, one remainder by 1,024, in no order", row(&strange)),
    ];
    table(&head, &rows);
}

/// Microseconds of a check of a table that passes, proved and plain.
fn table_check(t: &[u32]) -> [Times; 2] {
    assert!(sys::check_table(t) == 0 && check::check_table(t));
    let mut proved = || used(sys::check_table(black_box(t)));
    let mut plain = || used(check::check_table(black_box(t)));
    rounds(CHECK_ROUNDS, [&mut proved, &mut plain]).map(|t| t.over(1e3))
}

fn main() {
    switches();
    blocks();
    tables();
    labels();
}
