//! Times the writer and restore beside plain Rust ones, the two checks on the same machine, and a plain copy of the same bytes, after each answer has
//! been compared with the one due.

mod machine;

use machine::{Machine, Size};
use std::cell::RefCell;
use torzimlak_bench::{rounds, Goal, Measure, Measures, Times};

const WORDS: [usize; 3] = [256, 2048, 8192];
/// Entries, and procedures among them.
const TABLES: [(usize, usize); 2] = [(56, 1), (1024, 20)];
const LINKS: [usize; 2] = [0, 256];

const ROUNDS: usize = 201;

/// The largest machine is woken in under 25 microseconds; what restore takes beyond the state check is under two copies.
const RESTORE_GOAL: Goal = Goal::Time(25_000.0);
const BEYOND_GOAL: Goal = Goal::OfCopy(2.0);

/// The machines that the report shows: with the small table and no link, and with the full table and all links.
const SHOWN: [[usize; 3]; 3] = [[256, 56, 0], [8192, 56, 0], [8192, 1024, 256]];

/// A call of a machine, by its name.
type Call = fn(&mut Machine);
const CALLED: [(&str, Call); 7] = [
    ("copy", Machine::copy),
    ("check_table", Machine::check_table),
    ("check_state", Machine::check_state),
    ("restore", Machine::restore),
    ("write", Machine::write),
    ("plain restore", Machine::plain_restore),
    ("plain write", Machine::plain_write),
];

/// All machines.
fn sizes() -> impl Iterator<Item = Size> {
    let tables = |words| TABLES.into_iter().map(move |(entries, procedures)| (words, entries, procedures));
    let all = WORDS.into_iter().flat_map(tables);
    all.flat_map(|(words, entries, procedures)| LINKS.map(|links| Size { words, entries, procedures, links }))
}

/// Each call in turn, round by round.
fn time(m: &mut Machine) -> [Times; CALLED.len()] {
    let shared = &RefCell::new(m);
    let mut calls = CALLED.map(|(_, call)| move || call(&mut shared.borrow_mut()));
    rounds(ROUNDS, calls.each_mut().map(|c| c as &mut dyn FnMut()))
}

/// Compares and times one machine, and prints its line.
fn measure(measures: &mut Measures, size: Size) {
    let mut m = Machine::new(size);
    m.compare_write();
    m.compare_restore();
    let [copy, check_table, check_state, restore, write, plain_restore, plain_write] = time(&mut m);
    print!("{:5} {:7} {:5} {:6}", size.words, size.entries, size.links, m.file.len());
    for t in [&copy, &check_table, &check_state, &restore, &write, &plain_restore, &plain_write] {
        print!(" | {:6.2} /{:6.2}", t.least() / 1e3, t.median() / 1e3);
    }
    let beyond = restore.less(&check_state);
    println!(" | {:6.2}", beyond.median() / 1e3);
    if !SHOWN.contains(&[size.words, size.entries, size.links]) {
        return;
    }
    let largest = size.entries == 1024;
    let words = if size.words == 256 { "256" } else { "8,192" };
    let table = if largest { "full" } else { "small" };
    let named = |call: &str| format!("{call}, {words} words, {table} table");
    let new = |call: &str, proved: &Times| Measure::new("snapshots", named(call), proved.median());
    let goal = if largest { RESTORE_GOAL } else { Goal::None };
    measures.add(new("restore", &restore).plain(plain_restore.median()).copy(copy.median()).goal(goal));
    measures.add(new("restore less its checks", &beyond).copy(copy.median()).goal(BEYOND_GOAL));
    if largest {
        measures.add(new("write", &write).plain(plain_write.median()).copy(copy.median()));
    }
}

/// One call by its name, on the machine of these sizes, for counting.
fn once(args: &[String]) {
    let number = |i: usize| args[i].parse::<usize>().expect("a number");
    let (words, entries, links) = (number(1), number(2), number(3));
    let size = sizes().find(|s| (s.words, s.entries, s.links) == (words, entries, links)).expect("a size");
    let (_, call) = CALLED.iter().find(|(name, _)| *name == args[0]).expect("a call");
    call(&mut Machine::new(size));
}

fn main() {
    let args: Vec<String> = std::env::args().skip(1).collect();
    if !args.is_empty() {
        return once(&args);
    }
    println!("snapshots: microseconds, least / median of {ROUNDS} rounds; the last column is restore less check_state, the median");
    print!("words entries links  bytes");
    CALLED.iter().for_each(|(name, _)| print!(" | {name:>14}"));
    println!(" |   less");
    let measures = &mut Measures::open();
    for size in sizes() {
        measure(measures, size);
    }
}
