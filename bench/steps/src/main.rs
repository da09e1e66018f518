//! Times the proved step loop and a plain bounds-checked one on the same tables, after both gave the same state, memory and answer.

use std::hint::black_box;
use torzimlak::sys;
use torzimlak_bench::{ready, rounds, section_4, state, used, Goal, Measure, Measures, Ready, Times, MEMORY};
use torzimlak_plain::{machine, Table};

const STEPS: u32 = 200_000;
const ROUNDS: usize = 21;
/// The steps of a run whose instructions are counted.
const COUNTED: u32 = 100_000;

/// The decks of MVC and MVW, and all those of operations on blocks.
const COPIES: [&str; 2] = ["blocks", "moves"];
const BLOCKS: [&str; 4] = ["blocks", "compare", "moves", "translate"];

/// At least 1.3 times as fast on each other deck, 1.7 times on the geometric mean.
const DECK_GOAL: Goal = Goal::OfPlain(1.0 / 1.3);
/// A deck of moves at least as fast: plain Rust moves by memmove and by words.
const COPY_GOAL: Goal = Goal::OfPlain(1.0);
const MEAN_GOAL: Goal = Goal::OfPlain(1.0 / 1.7);

/// A deck ready to run.
struct Deck {
    name: String,
    ready: Ready,
}

fn deck(path: &str) -> Deck {
    let cards = std::fs::read(path).unwrap_or_else(|e| panic!("{path}: {e}"));
    let r = ready(&cards).unwrap_or_else(|(n, l)| panic!("{path}: refused {n}, line {l}"));
    let fresh = vec![1; Table(&r.table).fresh_count()];
    let (mut memory, mut state) = (vec![0; MEMORY], vec![0; sys::STATE_WORDS]);
    assert_eq!(sys::start(&r.table, &mut memory, &fresh, 0, &mut state), 0);
    assert!(memory == r.memory && state == r.state, "{path}");
    let name = path.rsplit('/').next().unwrap().trim_end_matches(".min").to_string();
    Deck { name, ready: r }
}

/// Apart, so that its instructions can be counted.
#[inline(never)]
fn plain_run(t: &[u32], m: &mut [u32], s: &mut machine::State, budget: u32) -> (u32, u32) {
    machine::run_on(t, m, s, budget)
}

/// Both machines do the same.
fn compare(deck: &Deck) {
    let r = &deck.ready;
    let (mut m, mut s) = (r.memory.clone(), r.state.clone());
    let (mut pm, mut ps) = (r.memory.clone(), r.plain());
    assert_eq!(sys::run(&r.table, &mut m, &mut s, STEPS), (21, STEPS), "{}", deck.name);
    assert_eq!(plain_run(&r.table, &mut pm, &mut ps, STEPS), (21, STEPS), "{}", deck.name);
    assert!(m == pm && state::plain(&s) == ps, "{}", deck.name);
}

/// Nanoseconds a step of the proved loop and of the plain one. Each round goes on where the last one stopped, and both stop alike.
fn time(deck: &Deck) -> [Times; 2] {
    let r = &deck.ready;
    let (mut m, mut s) = (r.memory.clone(), r.state.clone());
    let (mut pm, mut ps) = (r.memory.clone(), r.plain());
    let mut proved = || used(sys::run(&r.table, &mut m, &mut s, STEPS));
    let mut plain = || used(plain_run(&r.table, &mut pm, &mut ps, STEPS));
    let times = rounds(ROUNDS, [&mut proved, &mut plain]);
    assert!(m == pm && state::plain(&s) == ps, "{}", deck.name);
    times.map(|t| t.over(STEPS as f64))
}

/// The geometric mean of some decks' medians, proved and plain.
fn mean<'a>(measures: &mut Measures, name: &str, decks: impl Iterator<Item = &'a Measure>) {
    let times: Vec<(f64, f64)> = decks.map(|m| (m.proved, m.plain.expect("a plain time"))).collect();
    let mean = |logs: f64| (logs / times.len() as f64).exp();
    let proved = mean(times.iter().map(|t| t.0.ln()).sum());
    let plain = mean(times.iter().map(|t| t.1.ln()).sum());
    println!("{name:<40} {proved:16.2} | {plain:16.2} | {:12.2}", plain / proved);
    measures.add(Measure::new("steps", name, proved).plain(plain).goal(MEAN_GOAL));
}

/// Times the decks, and their geometric means.
fn decks(measures: &mut Measures, paths: &[String]) {
    println!(
        "steps: nanoseconds a step, least / median of {ROUNDS} rounds of {STEPS} steps: proved | plain | times as fast"
    );
    let mut all = vec![];
    for path in paths {
        let d = deck(path);
        compare(&d);
        let [proved, plain] = time(&d);
        let both = |t: &Times| format!("{:7.2} /{:7.2}", t.least(), t.median());
        let faster = [plain.least() / proved.least(), plain.median() / proved.median()];
        println!("{:<40} {} | {} | {:5.2} /{:5.2}", d.name, both(&proved), both(&plain), faster[0], faster[1]);
        let goal = if COPIES.contains(&d.name.as_str()) { COPY_GOAL } else { DECK_GOAL };
        let measure = Measure::new("steps", d.name, proved.median()).plain(plain.median()).goal(goal);
        measures.add(measure.clone());
        all.push(measure);
    }
    mean(measures, "geometric mean", all.iter());
    let without = |m: &&Measure| !BLOCKS.contains(&m.name.as_str());
    mean(measures, "geometric mean without block operations", all.iter().filter(without));
}

/// A table of 1,024 entries that loops.
fn full_table() -> Vec<u32> {
    let turn = " ADD WA,WB\n BEQ WA,WB,START\n MOV (XL),WC\n";
    let cards = section_4(&format!("START ICV WA\n{} BRN START\n", turn.repeat(340)));
    ready(cards.as_bytes()).expect("a lawful deck").table
}

/// One call of run with budget 1 on a full table, which checks the table and the state.
fn one_step(measures: &mut Measures) {
    let table = full_table();
    let (mut memory, mut other) = (vec![0; MEMORY], vec![0; MEMORY]);
    let mut words = vec![0; sys::STATE_WORDS];
    assert_eq!(sys::start(&table, &mut memory, &[], 0, &mut words), 0);
    let mut own = machine::start(&table, &mut other, &[], 0).expect("a start");
    let at_start = words.clone();
    assert_eq!(sys::run(&table, &mut memory, &mut words, 1), (21, 1));
    assert_eq!(machine::run(&table, &mut other, &mut own, 1), (21, 1));
    assert!(memory == other && state::plain(&words) == own);
    let [check, run, plain] = rounds(
        101,
        [
            &mut || used(sys::check_state(&table, MEMORY, &at_start)),
            &mut || used(sys::run(&table, &mut memory, &mut words, 1)),
            &mut || used(machine::run(&table, &mut other, &mut own, 1)),
        ],
    );
    println!("\na table of {} entries, microseconds a call, least / median", table[0]);
    for (name, t) in [("check_state", &check), ("run, budget 1", &run), ("plain run, budget 1", &plain)] {
        println!("{name:<40} {:7.2} /{:7.2}", t.least() / 1e3, t.median() / 1e3);
    }
    measures.add(Measure::new("steps", "a call of run, budget 1, 1,024 entries", run.median()).plain(plain.median()));
}

fn main() {
    let args: Vec<String> = std::env::args().skip(1).collect();
    match args.first().map(String::as_str) {
        Some("proved") => {
            let mut r = deck(&args[1]).ready;
            black_box(sys::run(&r.table, &mut r.memory, &mut r.state, COUNTED));
        }
        Some("plain") => {
            let mut r = deck(&args[1]).ready;
            let mut state = r.plain();
            black_box(plain_run(&r.table, &mut r.memory, &mut state, COUNTED));
        }
        _ => {
            let measures = &mut Measures::open();
            decks(measures, &args);
            one_step(measures);
        }
    }
}
