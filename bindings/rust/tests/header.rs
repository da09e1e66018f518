//! The numbers of include/torzimlak.h are those of `sys`, and the limits among them are met by a machine.

use std::collections::BTreeMap;
use torzimlak::{sys, Ending, Machine, Table};
use torzimlak_plain::host;

/// The header's numbers, by their names without the front.
fn numbers() -> BTreeMap<String, usize> {
    let path = concat!(env!("CARGO_MANIFEST_DIR"), "/../../include/torzimlak.h");
    let text = std::fs::read_to_string(path).expect("the header");
    let number = |line: &str| {
        let (name, rest) = line.trim().strip_prefix("TORZIMLAK_")?.split_once(" = ")?;
        let digits = rest.split(|c: char| !c.is_ascii_digit()).next()?;
        Some((name.to_string(), digits.parse().ok()?))
    };
    text.lines().filter_map(number).collect()
}

#[test]
fn numbers_are_the_same() {
    let mut header = numbers();
    for stack in ["ASSEMBLE_STACK", "STACK"] {
        assert!(header.remove(stack).is_some(), "{stack}");
    }
    let own = [
        ("XL", sys::XL),
        ("XR", sys::XL + 1),
        ("XS", sys::XL + 2),
        ("WA", sys::XL + 3),
        ("WB", sys::XL + 4),
        ("WC", sys::XL + 5),
        ("IA", sys::IA),
        ("FLAG", sys::FLAG),
        ("PLACE", sys::PLACE),
        ("WAITING", sys::WAITING),
        ("COUNT", sys::COUNT),
        ("LINKS", sys::LINKS),
        ("RA_LOW", sys::RA_LOW),
        ("RA_HIGH", sys::RA_HIGH),
        ("REAL_FLAG", sys::REAL_FLAG),
        ("STATE_WORDS", sys::STATE_WORDS),
        ("MIN_MEMORY", sys::MIN_MEMORY),
        ("MAX_MEMORY", sys::MAX_MEMORY),
        ("MAX_BUDGET", sys::MAX_BUDGET as usize),
        ("TABLE_WORDS", sys::TABLE_WORDS),
        ("FILE_BYTES", sys::FILE_BYTES),
    ];
    assert_eq!(header, own.into_iter().map(|(name, n)| (name.to_string(), n)).collect());
    assert_eq!((host::RA_LOW, host::RA_HIGH), (sys::RA_LOW, sys::RA_HIGH));
    assert_eq!((host::REAL_FLAG, host::STATE_WORDS), (sys::REAL_FLAG, sys::STATE_WORDS));
}

/// A machine with all the memory, links and fresh words that there may be has the longest file, and wakes from it.
#[test]
fn the_longest_file() {
    let fresh: String = (10..42).map(|i| format!("F$W{i} DAC 0\n")).collect();
    let cards = format!(
        " SEC\nDEEP$ INP R,0\n SEC\n SEC\n SEC\n{fresh} SEC\nSTART JSR DEEP$\n BRN START\nDEEP$ PRC R,0\n JSR DEEP$\n EXI\n ENP\n SEC\n ERB 1,A\n SEC\n ERB 1,A\n END\n"
    );
    let table = Table::assemble(cards.as_bytes()).unwrap();
    let mut machine = Machine::start(&table, sys::MAX_MEMORY, &[0; 32], 0).unwrap();
    assert_eq!(machine.run(sys::MAX_BUDGET).unwrap().ending, Ending::LinksFull);
    assert_eq!(machine.state().links().len(), 256);
    let file = machine.freeze(1);
    assert_eq!(file.bytes().len(), sys::FILE_BYTES);
    assert_eq!(file.wake(&table, 1, &[0; 32]).unwrap(), machine);
}
