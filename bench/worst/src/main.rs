//! Times the runs that take longest: one call of run with the largest budget, of programs whose every step, or every second to fourth one, works on
//! all of memory or on a whole switch. `torzimlak-worst [STEPS]` prints a table in Markdown; before a run is timed, its first steps are compared with
//! plain Rust's.

mod programs;

use programs::{all, Program};
use torzimlak::sys;
use torzimlak_bench::{once, state};
use torzimlak_plain::{machine, MAX_BUDGET};

/// Seconds.
const GOAL: f64 = 5.0;
/// The steps that are compared.
const COMPARED: u32 = 200;

/// Both machines do the same.
fn compare(p: &Program) {
    let r = &p.ready;
    let (mut m, mut s) = (r.memory.clone(), r.state.clone());
    let (mut pm, mut ps) = (r.memory.clone(), r.plain());
    assert_eq!(sys::run(&r.table, &mut m, &mut s, COMPARED), (21, COMPARED), "{}", p.name);
    assert_eq!(machine::run(&r.table, &mut pm, &mut ps, COMPARED), (21, COMPARED), "{}", p.name);
    assert!(m == pm && state::plain(&s) == ps, "{}", p.name);
}

/// The seconds of one run.
fn time(p: Program, steps: u32) -> f64 {
    let mut r = p.ready;
    let (answer, ns) = once(|| sys::run(&r.table, &mut r.memory, &mut r.state, steps));
    assert_eq!(answer, (21, steps), "{}", p.name);
    ns / 1e9
}

fn main() {
    let steps = std::env::args().nth(1).map_or(MAX_BUDGET, |word| word.parse().expect("a number of steps"));
    println!("Runs of {steps} steps:\n");
    println!("| Operation | Steps a turn | Seconds | Microseconds a turn |\n|---|---:|---:|---:|");
    let mut times = vec![];
    for p in all() {
        compare(&p);
        let (name, turn) = (p.name.clone(), p.turn);
        let seconds = time(p, steps);
        println!("| {name} | {turn} | {seconds:.3} | {:.2} |", seconds * 1e6 * turn as f64 / steps as f64);
        times.push((seconds, name));
    }
    let over = times.iter().filter(|t| t.0 >= GOAL).count();
    let (most, name) = times.into_iter().max_by(|a, b| a.0.total_cmp(&b.0)).expect("a run");
    println!("\nThe longest: {name}, {most:.3} s.");
    if steps == MAX_BUDGET {
        println!("{over} of them take {GOAL} s or more.");
    }
}
