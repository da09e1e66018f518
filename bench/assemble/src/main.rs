//! Times the proved assembler beside a plain one, after both gave the same answer, and a cold start beside a restore.

mod texts;

use std::hint::black_box;
use torzimlak::{sys, Machine, Table};
use torzimlak_bench::{rounds, state, used, Goal, Measure, Measures, Times};
use torzimlak_plain::assemble::assemble;
use torzimlak_plain::{machine, snapshot};

const ROOM: usize = 20_000;
const ROUNDS: usize = 61;

/// A full deck, and the worst texts.
const DECK_GOAL: Goal = Goal::Time(2e6);
const WORST_GOAL: Goal = Goal::Time(20e6);

/// The plain answer, as the library gives it.
fn due(text: &[u8]) -> (u32, u32, Vec<u32>) {
    match assemble(text, ROOM) {
        Ok(t) => (0, t.len() as u32, t),
        Err((n, l)) => (n, l as u32, vec![]),
    }
}

/// Prints the line of a measure, in milliseconds.
fn show(name: &str, what: &str, proved: &Times, plain: &Times) {
    let both = |t: &Times| format!("{:7.4} /{:7.4}", t.least() / 1e6, t.median() / 1e6);
    println!("{name:<40} {what:<28} {} | {}", both(proved), both(plain));
}

/// Times a text, after the plain assembler gave the same answer and the same table.
fn text(measures: &mut Measures, name: &str, text: &[u8], goal: Goal) {
    let mut room = vec![0; ROOM];
    let (number, value) = sys::assemble(text, &mut room);
    let due = due(text);
    assert_eq!((number, value), (due.0, due.1), "{name}");
    assert!(due.2 == room[..due.2.len()], "{name}");
    let mut proved = || used(sys::assemble(black_box(text), &mut room));
    let mut plain = || used(assemble(black_box(text), ROOM));
    let [proved, plain] = rounds(ROUNDS, [&mut proved, &mut plain]);
    show(name, &format!("{} bytes, answer {number} {value}", text.len()), &proved, &plain);
    measures.add(Measure::new("assemble", name, proved.median()).plain(plain.median()).goal(goal));
}

/// The file of a table that was started and ran until it waits.
fn warm(table: &Table) -> torzimlak::Snapshot {
    let mut machine = Machine::start(table, 256, &[1], 0).expect("a start");
    machine.run(1000).expect("a run");
    machine.freeze(1)
}

/// The same of the plain machine.
fn plain_warm(table: &[u32]) -> Vec<u8> {
    let mut memory = vec![0; 256];
    let mut state = machine::start(table, &mut memory, &[1], 0).expect("a start");
    machine::run(table, &mut memory, &mut state, 1000);
    let mut file = vec![0; 4 * (256 + 256 + 32) + 76];
    let length = snapshot::write(table, &memory, &state, 1, &mut file).expect("a file");
    file.truncate(length);
    file
}

/// Cards to a waiting machine's file, and the machine from that file.
fn cold_start(measures: &mut Measures) {
    let path = concat!(env!("CARGO_MANIFEST_DIR"), "/../../examples/token.min");
    let cards = std::fs::read(path).expect("the example");
    let (table, own) = (Table::assemble(&cards).expect("a table"), assemble(&cards, ROOM).expect("a table"));
    let (file, plain_file) = (warm(&table), plain_warm(&own));
    assert_eq!(file.bytes(), plain_file);
    let mut memory = vec![0; 256];
    let woken = file.wake(&table, 1, &[7]).expect("a machine");
    let own_state = snapshot::restore(&own, &plain_file, 1, &[7], &mut memory);
    assert!(woken.memory() == memory && own_state == Ok(state::plain(woken.state().words())));
    let [cold, plain_cold, wake, plain_wake] = rounds(
        101,
        [
            &mut || used(warm(&Table::assemble(black_box(&cards)).expect("a table"))),
            &mut || used(plain_warm(&assemble(black_box(&cards), ROOM).expect("a table"))),
            &mut || used(file.wake(&table, 1, black_box(&[7])).expect("a machine")),
            &mut || used(snapshot::restore(&own, &plain_file, 1, black_box(&[7]), &mut memory)),
        ],
    );
    for (name, proved, plain) in
        [("examples/token.min to its file", cold, plain_cold), ("examples/token.min woken", wake, plain_wake)]
    {
        show(name, "", &proved, &plain);
        measures.add(Measure::new("assemble", name, proved.median()).plain(plain.median()));
    }
}

fn main() {
    println!("assemble: milliseconds, least / median of {ROUNDS} calls: proved | plain");
    let measures = &mut Measures::open();
    text(measures, "1,024 operations, 512 labels", &texts::full(), DECK_GOAL);
    for (name, bytes) in texts::worst() {
        text(measures, name, &bytes, WORST_GOAL);
    }
    cold_start(measures);
}
