//! Memory that a shop has used is lent to another: after a plain start nothing of the last tenant's is left, after a warm one all of it is.

use torzimlak::{Ending, Machine, Table};

/// A shop that copies a customer's name into the room behind its words, four times, and waits.
const FIRST: &[u8] = b" SEC
SYSWT EXP E,0
 SEC
NLEN$ EQU 12
TIMES EQU 4
 SEC
NAME$ DTC /ANNA KARENIN/
 SEC
 SEC
START MOV =TIMES,WC
AGAIN MOV =NAME$,XL
 MOV =NLEN$,WA
 MVC
 BCT WC,AGAIN
 JSR SYSWT
 BRN START
 SEC
 ERB 1,STACK
 SEC
ERROR BRN ERROR
 END
";

/// Another shop, with a fresh word and less of its own.
const SECOND: &[u8] = b" SEC
SYSWT EXP E,0
 SEC
 SEC
 SEC
F$TOK DAC 0
 SEC
START JSR SYSWT
 BRN START
 SEC
 ERB 1,STACK
 SEC
ERROR BRN ERROR
 END
";

/// How often a text is in memory.
fn found(memory: &[u32], text: &[u8]) -> usize {
    let bytes: Vec<u8> = memory.iter().flat_map(|w| w.to_le_bytes()).collect();
    bytes.windows(text.len()).filter(|w| *w == text).count()
}

/// Memory as the first shop leaves it.
fn used(words: usize) -> Vec<u32> {
    let table = Table::assemble(FIRST).unwrap();
    let mut machine = Machine::start(&table, words, &[], 0).unwrap();
    assert_eq!(machine.run(10_000).unwrap().ending, Ending::Waiting);
    // and a word of the host's in the last one
    *machine.memory_mut().last_mut().unwrap() = u32::from_le_bytes(*b"ANNA");
    machine.into_memory()
}

#[test]
fn a_plain_start_leaves_nothing_of_the_last_tenant() {
    let table = Table::assemble(SECOND).unwrap();
    for words in [256, 8192] {
        let lent = used(words);
        assert_eq!((found(&lent, b"KARENIN"), found(&lent, b"ANNA")), (5, 6));
        let machine = Machine::start_in(&table, lent, &[0xFEED], 7).unwrap();
        assert_eq!(found(machine.memory(), b"ANNA"), 0);
        let mut due = vec![0; words];
        due[0] = 0xFEED;
        assert_eq!(machine.memory(), due);
        // as in memory that nobody has used
        assert_eq!(machine, Machine::start(&table, words, &[0xFEED], 7).unwrap());
    }
}

#[test]
fn a_warm_start_leaves_all_of_it() {
    let table = Table::assemble(SECOND).unwrap();
    for words in [256, 8192] {
        let lent = used(words);
        let machine = Machine::warm_start(&table, lent.clone(), &[0xFEED], 7).unwrap();
        assert_eq!(found(machine.memory(), b"KARENIN"), 5);
        assert_eq!((machine.memory()[0], &machine.memory()[1..]), (0xFEED, &lent[1..]));
        let plain = Machine::start(&table, words, &[0xFEED], 7).unwrap();
        assert_eq!(machine.state(), plain.state());
    }
}

#[test]
fn a_refused_start_clears_nothing() {
    let table = Table::assemble(SECOND).unwrap();
    let lent = used(256);
    for start in [Machine::start_in, Machine::warm_start] {
        for fresh in [&[][..], &[1, 2]] {
            assert_eq!(start(&table, lent.clone(), fresh, 0).unwrap_err().memory, lent);
        }
        assert_eq!(start(&table, lent[..255].to_vec(), &[1], 0).unwrap_err().memory, lent[..255]);
    }
}
