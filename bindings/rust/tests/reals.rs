//! The operations on reals, by the proved library beside the plain implementation: at edges beside Rust's own arithmetic too, on random
//! states and memories until each operation has done all that it can do, and in random programs.

mod common;

use common::lent::expect_all;
use common::real_machine::{any, table, Machine, AWAY, M, ON, VALUE};
use common::reals::{edges, pairs};
use common::{cases, Random};
use std::collections::BTreeSet;
use torzimlak::sys;

const ARITHMETIC: [&str; 5] = ["LDR", "ADR", "SBR", "MLR", "DVR"];

/// The other operations, but for STR.
const OTHERS: [&str; 12] = [
    "ROV AWAY$",
    "RNO AWAY$",
    "REQ AWAY$",
    "RGE AWAY$",
    "RGT AWAY$",
    "RLE AWAY$",
    "RLT AWAY$",
    "RNE AWAY$",
    "NGR",
    "ITR",
    "RTI AWAY$",
    "RTI",
];

/// An operand: its text, the index of its register among the state's words, and what is added to that.
type Operand = (&'static str, Option<usize>, u64);

/// Two words of constants and a third; two working words and a third, which is the last of the table; words by a register.
const OPERANDS: [Operand; 7] = [
    ("CONST", None, 0),
    ("LASTC", None, 8),
    ("VALUE", None, 12),
    ("LASTW", None, 20),
    ("(XL)", Some(sys::XL), 0),
    ("3(XR)", Some(sys::XL + 1), 12),
    ("(XS)", Some(sys::XL + 2), 0),
];

/// What Rust's own arithmetic gives, or none where there is overflow.
fn by_rust(operation: &str, ra: f64, v: f64) -> Option<f64> {
    let x = match operation {
        "LDR" => v,
        "ADR" => ra + v,
        "SBR" => ra - v,
        "MLR" => ra * v,
        _ => ra / v,
    };
    (v.is_finite() && x.is_finite()).then_some(x)
}

#[test]
fn arithmetic_at_edges() {
    for operation in ARITHMETIC {
        let t = table(&format!("{operation} VALUE"));
        let begun = Machine::new(&t);
        for (ra, v) in edges().into_iter().flat_map(|ra| pairs().into_iter().map(move |v| (ra, v))) {
            for flag in [0, 1] {
                let mut due = begun.clone();
                due.set_ra(ra, flag);
                due.set_pair(VALUE, v);
                let mut machine = due.clone();
                match by_rust(operation, f64::from_bits(ra), f64::from_bits(v)) {
                    Some(x) => due.set_ra(x.to_bits(), 0),
                    None => due.set_ra(ra, 1),
                }
                due.words[sys::PLACE] = ON;
                assert_eq!(machine.run(&t, 1), (21, 1));
                assert_eq!(machine, due, "{operation} of {ra:x} and {v:x}");
            }
        }
    }
}

/// What one of the other operations makes of a machine: NGR flips the sign bit alone, a test is one of the number, so that -0 is 0, ITR
/// loses nothing, and RTI cuts toward zero.
fn other_due(operation: &str, machine: &Machine) -> Machine {
    let mut due = machine.clone();
    let (bits, flag, ra) = (machine.ra(), machine.flag(), f64::from_bits(machine.ra()));
    let (whole, ia) = (i32::try_from(ra as i64), machine.words[sys::IA] as i32);
    let away = match operation {
        "ROV AWAY$" => flag,
        "RNO AWAY$" => !flag,
        "REQ AWAY$" => ra == 0.0,
        "RGE AWAY$" => ra >= 0.0,
        "RGT AWAY$" => ra > 0.0,
        "RLE AWAY$" => ra <= 0.0,
        "RLT AWAY$" => ra < 0.0,
        "RNE AWAY$" => ra != 0.0,
        "RTI AWAY$" => whole.is_err(),
        _ => false,
    };
    match operation {
        "NGR" => due.set_ra(bits ^ 1 << 63, 0),
        "ITR" => due.set_ra(f64::from(ia).to_bits(), 0),
        "RTI" | "RTI AWAY$" => due.words[sys::IA] = whole.unwrap_or(ia) as u32,
        _ => {}
    }
    due.words[sys::PLACE] = if away { AWAY } else { ON };
    due
}

#[test]
fn other_operations_at_edges() {
    for operation in OTHERS {
        let t = table(operation);
        for ra in edges() {
            for (ia, flags) in [(7, 0), (-7, 1), (i32::MIN, 2), (i32::MAX, 3), (0, 0)] {
                let mut machine = Machine::new(&t);
                machine.set_ra(ra, flags & 1);
                (machine.words[sys::IA], machine.words[sys::FLAG]) = (ia as u32, flags >> 1);
                let due = other_due(operation, &machine);
                assert_eq!(machine.run(&t, 1), (21, 1));
                assert_eq!(machine, due, "{operation} of {ra:x} and {ia}");
            }
        }
    }
}

/// What kind of number the bits are.
fn kind(bits: u64) -> &'static str {
    let x = f64::from_bits(bits);
    match x.is_sign_negative() {
        _ if x.is_nan() => "a NaN",
        _ if x.is_infinite() => "an infinity",
        _ if x.is_subnormal() => "a subnormal number",
        true if x == 0.0 => "-0",
        false if x == 0.0 => "+0",
        true => "a negative number",
        false => "a positive number",
    }
}

/// What a step of an operation on the pair at an address did, by the numbers it met and by what it left.
fn outcome(operation: &str, at: u64, before: &Machine, number: u32, after: &Machine) -> String {
    match number {
        23 => "23".into(),
        22 if !at.is_multiple_of(4) => "22, unaligned".into(),
        22 if at == 4 * (M as u64 - 1) => "22, the second word".into(),
        22 => "22, past memory".into(),
        _ if operation == "STR" => format!("gives {}", kind(after.pair(at as usize / 4))),
        _ if after.flag() => format!("overflow by {}", kind(before.pair(at as usize / 4))),
        _ => format!("gives {}", kind(after.ra())),
    }
}

/// All that an operation on a pair can do.
fn outcomes(operation: &str) -> Vec<String> {
    let mut all = vec!["22, unaligned", "22, the second word", "22, past memory"];
    all.extend([
        "gives +0",
        "gives -0",
        "gives a subnormal number",
        "gives a positive number",
        "gives a negative number",
    ]);
    all.extend(match operation {
        "STR" => &["23"][..],
        _ => &["overflow by an infinity", "overflow by a NaN"],
    });
    all.extend(match operation {
        "DVR" => {
            &["overflow by +0", "overflow by -0", "overflow by a subnormal number", "overflow by a positive number"][..]
        }
        "ADR" | "SBR" | "MLR" => &["overflow by a positive number", "overflow by a negative number"],
        _ => &[],
    });
    all.into_iter().map(String::from).collect()
}

/// 210,000 steps of the six operations on a pair, each until it has done all that it can.
#[test]
fn operations_on_pairs() {
    let mut r = Random::new(21);
    for operation in ARITHMETIC.into_iter().chain(["STR"]) {
        let tables = OPERANDS.map(|(text, ..)| table(&format!("{operation} {text}")));
        let begun = Machine::new(&tables[0]);
        let mut seen = BTreeSet::new();
        for _ in 0..cases(35_000) {
            let k = r.below(OPERANDS.len());
            let (_, register, by) = OPERANDS[k];
            let mut machine = any(&mut r, &begun);
            let before = machine.clone();
            let (number, _) = machine.run(&tables[k], 1);
            let at = by + register.map_or(0, |x| before.words[x] as u64);
            seen.insert(outcome(operation, at, &before, number, &machine));
        }
        expect_all(operation, &seen, outcomes(operation));
    }
}

/// What a machine has for one of the other operations to meet: a flag, a whole part, or a number.
fn met(operation: &str, machine: &Machine) -> &'static str {
    let beyond = !(-2147483649.0 < f64::from_bits(machine.ra()) && f64::from_bits(machine.ra()) < 2147483648.0);
    match operation {
        "ROV AWAY$" | "RNO AWAY$" | "NGR" | "ITR" => ["off", "on"][machine.flag() as usize],
        "RTI AWAY$" | "RTI" => ["in range", "beyond"][beyond as usize],
        _ => kind(machine.ra()),
    }
}

/// With what of these an operation branches, and with what it goes on.
fn branches(operation: &str) -> [&'static [&'static str]; 2] {
    const ALL: [&str; 5] = ["+0", "-0", "a subnormal number", "a positive number", "a negative number"];
    match operation {
        "ROV AWAY$" => [&["on"], &["off"]],
        "RNO AWAY$" => [&["off"], &["on"]],
        "REQ AWAY$" => [&["+0", "-0"], &ALL[2..]],
        "RGE AWAY$" => [&ALL[..4], &ALL[4..]],
        "RGT AWAY$" => [&ALL[2..4], &["+0", "-0", "a negative number"]],
        "RLE AWAY$" => [&["+0", "-0", "a negative number"], &ALL[2..4]],
        "RLT AWAY$" => [&ALL[4..], &ALL[..4]],
        "RNE AWAY$" => [&ALL[2..], &["+0", "-0"]],
        "RTI AWAY$" => [&["beyond"], &["in range"]],
        "RTI" => [&[], &["beyond", "in range"]],
        _ => [&[], &["on", "off"]],
    }
}

/// 60,000 steps of the others.
#[test]
fn other_operations() {
    let mut r = Random::new(22);
    for operation in OTHERS {
        let t = table(operation);
        let begun = Machine::new(&t);
        let mut seen = [BTreeSet::new(), BTreeSet::new()];
        for _ in 0..cases(5_000) {
            let mut machine = any(&mut r, &begun);
            let (due, met) = (other_due(operation, &machine), met(operation, &machine));
            assert_eq!(machine.run(&t, 1), (21, 1));
            assert_eq!(machine, due, "{operation}");
            seen[(machine.words[sys::PLACE] == ON) as usize].insert(met);
        }
        for (seen, due) in seen.iter().zip(branches(operation)) {
            expect_all(operation, seen, due.iter().copied());
        }
    }
}

/// A program of 20 operations on reals and some on XL, XR and IA, each with a label.
fn program(r: &mut Random) -> Vec<u32> {
    const COUNT: usize = 20;
    let mut cards = String::from("ZER WC\n");
    for i in 0..COUNT {
        let operation = match r.below(10) {
            0..=4 => format!("{} {}", r.pick(&["LDR", "STR", "ADR", "SBR", "MLR", "DVR"]), r.pick(&OPERANDS).0),
            5..=7 => r.pick(&OTHERS).replace("AWAY$", &format!("P{:04}", r.below(COUNT))),
            8 => r.pick(&["ICA XL", "DCA XR", "ICA XS"]).to_string(),
            _ => r.pick(&["LDI LASTW", "STI LASTW", "ADI LASTW", "MLI LASTW"]).to_string(),
        };
        cards += &format!("P{i:04} {operation}\n");
    }
    table(cards.trim_end())
}

/// 20,000 programs, each run four times, from where it stopped.
#[test]
fn programs() {
    let mut r = Random::new(23);
    let mut seen = BTreeSet::new();
    for _ in 0..cases(20_000) {
        let t = program(&mut r);
        let mut machine = any(&mut r, &Machine::new(&t));
        for _ in 0..4 {
            seen.insert(machine.run(&t, *r.pick(&[1, 5, 40, 300])).0);
        }
    }
    expect_all("programs", &seen, [21, 22, 23]);
}
