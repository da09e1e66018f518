//! Times the plain and the warm start beside plain Rust's, the table check of the same table, and memset of the words that the plain start clears,
//! after each answer has been compared with the one due.

use std::cell::RefCell;
use std::hint::black_box;
use torzimlak::sys;
use torzimlak_bench::state::WORDS;
use torzimlak_bench::tables::{filled, Full};
use torzimlak_bench::{rounds, used, Goal, Measure, Measures, Times};
use torzimlak_plain::{host, Table};

/// Words of memory, entries of the table, and procedures among them.
const SIZES: [[usize; 3]; 3] = [[256, 56, 1], [8192, 56, 1], [8192, 1024, 20]];

const FRESH: [u32; 2] = [0xfeed_0001, 0xfeed_0002];

const ROUNDS: usize = 201;

/// What the plain start takes beyond the table check, of a memory of 8,192 words, is under 1.3 times memset.
const BEYOND_GOAL: Goal = Goal::OfClear(1.3);

/// What is lent to a start.
struct Lent {
    table: Full,
    memory: Vec<u32>,
    state: Vec<u32>,
    /// The program's own words.
    own: usize,
}

type Start = fn(&[u32], &mut [u32], &[u32], u32, &mut [u32]) -> u32;

impl Lent {
    fn new([words, entries, procedures]: [usize; 3]) -> Lent {
        let table = filled(entries, procedures, 150);
        let own = Table(&table.table).constants() + Table(&table.table).workings();
        Lent { table, memory: vec![7; words], state: vec![7; WORDS], own }
    }

    fn started(&mut self, start: Start) -> u32 {
        start(black_box(&self.table.table), &mut self.memory, &FRESH, 5, &mut self.state)
    }

    fn check_table(&mut self) {
        used(sys::check_table(black_box(&self.table.table)));
    }

    fn clear(&mut self) {
        black_box(&mut self.memory)[self.own..].fill(0);
    }

    /// Each start, of memory that holds other words: its answer and what it leaves are the plain one's.
    fn compare(&mut self) {
        let starts: [[Start; 2]; 2] = [[sys::start, host::start], [sys::warm_start, host::warm_start]];
        for (both, behind) in starts.into_iter().zip([0, 7]) {
            let [proved, plain] = both.map(|start| {
                self.memory.fill(7);
                self.state.fill(7);
                assert_eq!(self.started(start), 0);
                (self.memory.clone(), self.state.clone())
            });
            assert!(proved == plain && proved.0[self.own..].iter().all(|&w| w == behind));
        }
    }
}

/// A call of what is lent, by its name.
type Call = fn(&mut Lent);
const CALLED: [(&str, Call); 5] = [
    ("memset", Lent::clear),
    ("check_table", Lent::check_table),
    ("start", |lent| used(lent.started(sys::start))),
    ("warm start", |lent| used(lent.started(sys::warm_start))),
    ("plain start", |lent| used(lent.started(host::start))),
];

/// Compares and times the starts of one size, and prints their line.
fn measure(measures: &mut Measures, size: [usize; 3]) {
    let mut lent = Lent::new(size);
    lent.compare();
    let shared = &RefCell::new(lent);
    let mut calls = CALLED.map(|(_, call)| move || call(&mut shared.borrow_mut()));
    let [clear, check, start, warm, plain] = rounds(ROUNDS, calls.each_mut().map(|c| c as &mut dyn FnMut()));
    let beyond = start.less(&check);
    print!("{:5} {:7}", size[0], size[1]);
    for t in [&clear, &check, &start, &warm, &plain] {
        print!(" | {:6.3} /{:6.3}", t.least() / 1e3, t.median() / 1e3);
    }
    println!(" | {:6.3}", beyond.median() / 1e3);
    let words = if size[0] == 256 { "256" } else { "8,192" };
    let table = if size[1] == 1024 { "full" } else { "small" };
    let new = |call: &str, proved: &Times| {
        Measure::new("starts", format!("{call}, {words} words, {table} table"), proved.median()).copy(clear.median())
    };
    measures.add(new("start", &start).plain(plain.median()));
    // Beside the check of a full table, which takes fifty times as long, a difference of two calls says nothing.
    if size[1] == 56 {
        let goal = if size[0] == 256 { Goal::None } else { BEYOND_GOAL };
        measures.add(new("start less its table check", &beyond).goal(goal));
        measures.add(new("warm start", &warm));
    }
}

fn main() {
    println!("starts: microseconds, least / median of {ROUNDS} rounds; the last column is start less check_table, the median");
    print!("words entries");
    CALLED.iter().for_each(|(name, _)| print!(" | {name:>14}"));
    println!(" |   less");
    let measures = &mut Measures::open();
    for size in SIZES {
        measure(measures, size);
    }
}
