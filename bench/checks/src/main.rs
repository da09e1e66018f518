//! Times the table check and the state check on full tables beside plain Rust ones and a copy of the same bytes, after each answer has been compared
//! with the one due.

use std::hint::black_box;
use torzimlak::sys::{check_state, check_table};
use torzimlak_bench::state::{
    plain, state, with, COUNT, FLAG, LINKS, PLACE, RA_HIGH, RA_LOW, REAL_FLAG, WAITING, WORDS,
};
use torzimlak_bench::tables::{empty_switches, full, one_remainder, switch, Full, Switch, AROUND, ENTRIES, LIMIT};
use torzimlak_bench::{rounds, used, Goal, Measure, Measures, Times};
use torzimlak_plain::{check, host, machine};

/// Words of memory.
const MEMORY: usize = 8192;

const ROUNDS: usize = 201;

const TABLE_GOAL: Goal = Goal::Time(20_000.0);
/// Tables that a stranger may make.
const STRANGE_GOAL: Goal = Goal::Time(60_000.0);
const STATE_GOAL: Goal = Goal::Time(2_000.0);

/// The 256 links of a procedure that is called from outside and then by itself.
fn deep(t: &Full) -> Vec<u32> {
    let mut links = vec![t.inner; 256];
    links[0] = t.outer;
    links
}

/// Both table checks answer alike: whether the table passes.
fn passes(t: &[u32]) -> bool {
    let number = check_table(t);
    assert!(number == 0 || number == 30);
    assert_eq!(check::check_table(t), number == 0);
    number == 0
}

/// The number of the state check; the plain one answers alike where the words are a state.
fn judged(t: &[u32], memory: usize, s: &[u32]) -> u32 {
    let number = check_state(t, memory, s);
    if let Some(own) = host::state(s).filter(|_| number != 30) {
        assert_eq!(machine::check_state(t, memory, &own), number == 0);
    }
    number
}

/// A switch whose last value is its first one again.
fn twice(t: &Switch) -> Vec<u32> {
    with(&t.table, t.last_value, t.table[t.first_value])
}

/// The tables pass, and damaged twins do not.
fn compare_tables(a: &Full, switches: [&Switch; 3], short: &[u32]) {
    for t in [&a.table[..], &switches[0].table, &switches[1].table, &switches[2].table, short] {
        assert_eq!(t[0], 1024);
        assert!(passes(t));
        assert!(!passes(&t[..t.len() - 1]));
    }
    assert!(!passes(&with(&a.table, a.last_exit, 101)));
    for t in switches {
        assert!(!passes(&twice(t)));
        assert!(!passes(&with(&t.table, t.last_value, LIMIT)));
        assert!(!passes(&with(&t.table, t.first_value, t.table[t.last_value - 80])));
    }
}

/// The states pass, and damaged twins do not.
fn compare_states(a: &Full, shallow: &[u32], nested: &[u32]) {
    for s in [shallow, nested] {
        assert_eq!(judged(&a.table, MEMORY, s), 0);
        assert_eq!(judged(&a.table, MEMORY + 1, s), 31);
        assert_eq!(judged(&a.table, MEMORY, &s[..WORDS - 1]), 31);
        assert_eq!(judged(&a.table, MEMORY, &with(s, FLAG, 1)), 0);
        assert_eq!(judged(&a.table, MEMORY, &with(s, FLAG, 2)), 31);
        assert_eq!(judged(&a.table, MEMORY, &with(s, REAL_FLAG, 1)), 0);
        assert_eq!(judged(&a.table, MEMORY, &with(s, REAL_FLAG, 2)), 31);
        assert_eq!(judged(&a.table, MEMORY, &with(s, RA_LOW, u32::MAX)), 0);
        assert_eq!(judged(&a.table, MEMORY, &with(s, RA_HIGH, 0x7fef_ffff)), 0);
        assert_eq!(judged(&a.table, MEMORY, &with(s, RA_HIGH, 0xfff0_0000)), 31);
        assert_eq!(judged(&a.table, MEMORY, &with(s, WAITING, 1)), 31);
        assert_eq!(judged(&a.table, MEMORY, &with(s, COUNT, 257)), 31);
        assert_eq!(judged(&a.table[1..], MEMORY, s), 30);
        assert_eq!(judged(&a.table[1..], MEMORY, &[]), 30);
    }
    assert_eq!(judged(&a.table, MEMORY, &with(nested, LINKS, a.inner)), 31);
    assert_eq!(judged(&a.table, MEMORY, &with(nested, LINKS + 255, a.other)), 31);
    assert_eq!(judged(&a.table, MEMORY, &with(nested, PLACE, 0)), 0);
    assert_eq!(judged(&a.table, MEMORY, &with(shallow, PLACE, a.inside)), 31);
}

/// Prints the line of a measure: proved, plain, copy. A difference of two calls has no least.
fn show(name: &str, all: &[&Times], difference: bool) {
    print!("{name:<48}");
    for (i, t) in all.iter().enumerate() {
        let least = if difference && i == 0 { "".to_string() } else { format!("{:.2} /", t.least() / 1e3) };
        print!(" | {least:>8}{:6.2}", t.median() / 1e3);
    }
    println!();
}

/// Times the table check.
fn table_check(measures: &mut Measures, name: &str, t: &[u32], goal: Goal) {
    let mut room = t.to_vec();
    let mut copied = || black_box(&mut room).copy_from_slice(black_box(t));
    let mut proved = || used(check_table(black_box(t)));
    let mut plain = || used(check::check_table(black_box(t)));
    let [proved, plain, copy] = rounds(ROUNDS, [&mut proved, &mut plain, &mut copied]);
    show(name, &[&proved, &plain, &copy], false);
    let measure = Measure::new("checks", name, proved.median()).plain(plain.median()).copy(copy.median());
    measures.add(measure.goal(goal));
}

/// Times the state check, which checks the table first, and what it takes beyond the table check.
fn state_check(links: &str, t: &[u32], s: &[u32]) -> [Measure; 2] {
    let own = plain(s);
    let mut room = t.to_vec();
    let [whole, table, plain_table, plain_state, copy] = rounds(
        ROUNDS,
        [
            &mut || used(check_state(black_box(t), MEMORY, black_box(s))),
            &mut || used(check_table(black_box(t))),
            &mut || used(check::check_table(black_box(t))),
            &mut || used(machine::check_state(black_box(t), MEMORY, black_box(&own))),
            &mut || black_box(&mut room).copy_from_slice(black_box(t)),
        ],
    );
    let with = format!("check_state, {links}, with its table check");
    let plain_whole = plain_table.plus(&plain_state);
    show(&with, &[&whole, &plain_whole, &copy], false);
    let less = format!("check_state, {links}, less its table check");
    let beyond = whole.less(&table);
    show(&less, &[&beyond, &plain_state], true);
    [
        Measure::new("checks", with, whole.median()).plain(plain_whole.median()).copy(copy.median()),
        Measure::new("checks", less, beyond.median()).plain(plain_state.median()).goal(STATE_GOAL),
    ]
}

fn main() {
    let a = full();
    let count = (ENTRIES - AROUND) as u32;
    let b = switch(&(0..count).collect::<Vec<_>>(), 5000);
    let c = switch(&(0..count).map(|i| 1024 + 3 * i).collect::<Vec<_>>(), 5000);
    let d = switch(&one_remainder(count as usize), LIMIT);
    let short = empty_switches();
    let (shallow, nested) = (state(0, &[]), state(a.inside, &deep(&a)));
    compare_tables(&a, [&b, &c, &d], &short);
    compare_states(&a, &shallow, &nested);

    println!("checks: microseconds, least / median of {ROUNDS} rounds: proved | plain | copy");
    let measures = &mut Measures::open();
    table_check(measures, "check_table, procedures and switches", &a.table, TABLE_GOAL);
    table_check(measures, "check_table, one switch, values below 1,024", &b.table, TABLE_GOAL);
    table_check(measures, "check_table, one switch, values from 1,024", &c.table, TABLE_GOAL);
    table_check(measures, "check_table, one switch, one remainder", &d.table, STRANGE_GOAL);
    table_check(measures, "check_table, one switch, one value twice", &twice(&d), STRANGE_GOAL);
    table_check(measures, "check_table, many short switches", &short, STRANGE_GOAL);
    state_check("no link", &a.table, &shallow);
    state_check("256 links", &a.table, &nested).into_iter().for_each(|m| measures.add(m));
}
