//! The safe types beside the plain implementation: what they hold, what they refuse, and how they word it.

mod common;

use common::{cases, deck, spoil, text, Random};
use std::collections::BTreeSet;
use torzimlak::sys::{COUNT, LINKS, MAX_MEMORY, PLACE, RA_HIGH, RA_LOW, REAL_FLAG, STATE_WORDS};
use torzimlak::{Ending, Machine, Refusal, Resumed, Returned, Snapshot, Table};
use torzimlak_plain::{assemble, machine, snapshot};

const ROOM: usize = 20_000;
const BUILD: u32 = 3;

/// A machine and its plain twin are the same.
fn same(machine: &Machine, memory: &[u32], plain: &machine::State) {
    let state = machine.state();
    assert_eq!(state.registers(), plain.regs[1..]);
    assert_eq!((state.ia() as u32, state.overflow()), (plain.ia, plain.flag));
    assert_eq!((state.ra().to_bits(), state.real_overflow()), (plain.ra, plain.real_flag));
    assert_eq!((state.place(), state.waiting()), (plain.pc, plain.waiting));
    assert_eq!(state.links(), plain.links);
    assert_eq!(machine.memory(), memory);
}

/// Cards become a table, or are refused at a line, as the plain assembler says.
#[test]
fn cards_become_tables() {
    let mut r = Random::new(11);
    for i in 0..cases(5_000) {
        let mut d = deck(&mut r);
        for _ in 0..i % 3 {
            spoil(&mut r, &mut d);
        }
        let cards = text(&d);
        match (Table::assemble(&cards), assemble::assemble(&cards, ROOM)) {
            (Ok(table), Ok(words)) => {
                assert_eq!(table.words(), words);
                assert_eq!(Table::from_words(words), Ok(table));
            }
            (Err(fault), Err((number, line))) => {
                assert_eq!((fault.refusal().number(), fault.line().unwrap_or(0)), (number, line as u32));
                assert_eq!(fault.line().is_some(), number < 8);
            }
            (table, words) => panic!("{table:?} {words:?} {}", String::from_utf8_lossy(&cards)),
        }
    }
}

/// A machine that is run, resumed, frozen and woken stays what the plain one is.
#[test]
fn machines_live_alike() {
    let mut r = Random::new(12);
    let mut endings = BTreeSet::new();
    for _ in 0..cases(5_000) {
        let Ok(table) = Table::assemble(&text(&deck(&mut r))) else { continue };
        let fresh: Vec<u32> = (0..table.fresh_words()).map(|_| r.next() as u32).collect();
        let m = 256 + r.below(40);
        let mut memory = vec![0; m];
        let mut machine = Machine::start(&table, m, &fresh, 9).expect("a lawful start");
        let mut plain = machine::start(table.words(), &mut memory, &fresh, 9).expect("a lawful start");
        for _ in 0..3 {
            let run = machine.run(300).expect("a lawful run");
            assert_eq!((run.ending.number(), run.steps), machine::run(table.words(), &mut memory, &mut plain, 300));
            endings.insert(run.ending.number());
            same(&machine, &memory, &plain);
            let exit = r.below(3) as u32;
            let resumed = match machine.resume(exit) {
                Ok(Resumed::GoesOn) => 0,
                Ok(Resumed::ImpossibleExit) => 26,
                Err(refusal) => refusal.number(),
            };
            assert_eq!(resumed, machine::resume(table.words(), &mut memory, &mut plain, exit));
            same(&machine, &memory, &plain);
            let others: Vec<u32> = fresh.iter().map(|w| !w).collect();
            let frozen = machine.freeze(BUILD);
            let mut file = vec![0; frozen.bytes().len()];
            assert_eq!(snapshot::write(table.words(), &memory, &plain, BUILD, &mut file), Ok(file.len()));
            assert_eq!(frozen.bytes(), file);
            machine = frozen.wake(&table, BUILD, &others).expect("a lawful file");
            plain = snapshot::restore(table.words(), &file, BUILD, &others, &mut memory).expect("a lawful file");
            same(&machine, &memory, &plain);
        }
    }
    assert!(endings.len() > 3, "{endings:?}");
}

/// A refused call gives the lent memory back as it was.
#[test]
fn refusals_change_nothing() {
    let table = Table::assemble(CARDS).unwrap();
    let lent: Vec<u32> = (0..300).collect();
    for start in [Machine::start_in, Machine::warm_start] {
        let back = start(&table, lent.clone(), &[], 0).unwrap_err();
        assert_eq!(back, Returned { refusal: Refusal::FreshCountOff, memory: lent.clone() });
        let back = start(&table, lent[..200].to_vec(), &[1], 0).unwrap_err();
        assert_eq!(back, Returned { refusal: Refusal::UnfitLength, memory: lent[..200].to_vec() });
    }
    let mut machine = Machine::start(&table, 300, &[1], 0).unwrap();
    let before = machine.clone();
    assert_eq!(machine.run(1_000_001), Err(Refusal::OverBudget));
    assert_eq!(machine.resume(0), Err(Refusal::NotResumable));
    assert_eq!(machine, before);
    let file = machine.freeze(BUILD);
    for (frozen, build, fresh, words, refusal) in [
        (Snapshot::from_bytes(vec![]), BUILD, vec![1], 300, Refusal::BadTrailer),
        (Snapshot::from_bytes(vec![7; 5000]), BUILD, vec![1], 300, Refusal::BadTrailer),
        (file.clone(), BUILD + 1, vec![1], 300, Refusal::OtherProgram),
        (file.clone(), BUILD, vec![1, 2], 300, Refusal::FreshCountOff),
        (file.clone(), BUILD, vec![1], 299, Refusal::MemoryLengthOff),
    ] {
        let back = frozen.wake_in(&table, build, &fresh, vec![5; words]).unwrap_err();
        assert_eq!(back, Returned { refusal, memory: vec![5; words] });
    }
}

/// A length that no memory has is refused, and nothing of that length is allocated; it is judged before the count of fresh words.
#[test]
fn lengths_past_memory_are_refused() {
    let table = Table::assemble(CARDS).unwrap();
    for words in [0, 255, MAX_MEMORY + 1, usize::MAX / 4, usize::MAX / 4 + 1, isize::MAX as usize, usize::MAX] {
        for fresh in [&[][..], &[1], &[1, 2]] {
            assert_eq!(Machine::start(&table, words, fresh, 0), Err(Refusal::UnfitLength), "{words}");
        }
    }
    for words in [256, MAX_MEMORY] {
        assert_eq!(Machine::start(&table, words, &[1], 0).unwrap().memory(), machine_memory(&table, words));
        assert_eq!(Machine::start(&table, words, &[], 0), Err(Refusal::FreshCountOff));
    }
}

/// The memory of a plain machine started with the fresh word 1.
fn machine_memory(table: &Table, words: usize) -> Vec<u32> {
    let mut memory = vec![0; words];
    machine::start(table.words(), &mut memory, &[1], 0).expect("a lawful start");
    memory
}

/// The words of memory of a file: none of a file without a trailer or with one that no memory fits.
#[test]
fn files_name_their_memory() {
    let table = Table::assemble(CARDS).unwrap();
    let file = Machine::start(&table, 300, &[1], 0).unwrap().freeze(BUILD);
    assert_eq!(file.memory_words(), Some(300));
    let bytes = file.bytes();
    for length in 0..64 {
        for fill in [0, 1, 0xFF] {
            let short = Snapshot::from_bytes(vec![fill; length]);
            assert_eq!((short.memory_words(), short.wake(&table, BUILD, &[1])), (None, Err(Refusal::BadTrailer)));
        }
        assert_eq!(Snapshot::from_bytes(bytes[bytes.len() - length..].to_vec()).memory_words(), None);
    }
    for words in [0, 1, 255, 256, 8192, 8193, 1 << 30, u32::MAX] {
        let mut forged = bytes.to_vec();
        let at = forged.len() - 64 + 8;
        forged[at..at + 4].copy_from_slice(&words.to_le_bytes());
        let forged = Snapshot::from_bytes(forged);
        assert_eq!(forged.memory_words(), [256, 8192].contains(&words).then_some(words as usize));
        assert_eq!(forged.wake(&table, BUILD, &[1]), Err(Refusal::BadTrailer));
    }
}

/// The host sets memory, the six registers and IA between runs, and the machine goes on with them as the plain one does.
#[test]
fn hosts_write_between_runs() {
    let cards = String::from_utf8(CARDS.to_vec()).unwrap().replace("MOV F$TOK,WA", "ADI F$TOK");
    let table = Table::assemble(cards.as_bytes()).unwrap();
    for ia in [0, 41, -1, i32::MAX, i32::MIN] {
        let mut machine = Machine::start(&table, 256, &[1], 0).unwrap();
        let mut memory = machine.memory().to_vec();
        let mut plain = machine::start(table.words(), &mut memory, &[1], 0).unwrap();
        machine.set_ia(ia);
        machine.set_registers([9, 8, 7, 6, 5, 4]);
        machine.memory_mut()[200] = 3;
        (plain.ia, plain.regs, memory[200]) = (ia as u32, [0, 9, 8, 7, 6, 5, 4], 3);
        same(&machine, &memory, &plain);
        assert_eq!(machine.run(1).map(|r| r.ending), Ok(Ending::BudgetUsed));
        assert_eq!(machine::run(table.words(), &mut memory, &mut plain, 1).0, 21);
        same(&machine, &memory, &plain);
        assert_eq!((machine.state().ia(), machine.state().overflow()), ia.overflowing_add(1));
    }
}

/// Machines are equal if no call can tell them apart: links from the count on do not count, all else does, RA by its bits.
#[test]
fn equal_machines() {
    let table = Table::assemble(TWO_CALLS).unwrap();
    let mut machine = Machine::start(&table, 256, &[], 0).unwrap();
    machine.run(2).unwrap();
    let words = *machine.state().words();
    assert_eq!((words[COUNT], machine.state().links()), (1, &[0][..]));
    let of = |words| Machine::from_parts(&table, machine.memory().to_vec(), words);
    for at in 0..STATE_WORDS {
        let mut other = words;
        other[at] ^= 1;
        match of(other) {
            Ok(other) => assert_eq!(other == machine, (LINKS + 1..RA_LOW).contains(&at), "word {at}"),
            Err(refusal) => assert!(refusal == Refusal::BadState && (PLACE..LINKS).contains(&at), "word {at}"),
        }
    }
    let mut garbage = words;
    garbage[LINKS + 1..RA_LOW].fill(u32::MAX);
    let mut other = of(garbage).unwrap();
    assert_eq!(other, machine);
    assert_eq!((other.run(5), other.freeze(BUILD)), (machine.clone().run(5), machine.freeze(BUILD)));
    let mut other = machine.clone();
    other.memory_mut()[255] ^= 1;
    assert_ne!(other, machine);
}

/// RA is any finite number, -0 too, and comes back from a file bit for bit; no other RA and no other flag makes a machine.
#[test]
fn machines_hold_finite_reals() {
    let table = Table::assemble(CARDS).unwrap();
    let started = Machine::start(&table, 256, &[1], 0).unwrap();
    assert_eq!((started.state().ra().to_bits(), started.state().real_overflow()), (0, false));
    let with = |x: f64, flag: u32| {
        let mut words = *started.state().words();
        (words[RA_LOW], words[RA_HIGH]) = (x.to_bits() as u32, (x.to_bits() >> 32) as u32);
        words[REAL_FLAG] = flag;
        Machine::from_parts(&table, started.memory().to_vec(), words)
    };
    for x in [-0.0, 0.1, f64::MAX, f64::MIN, f64::MIN_POSITIVE, -f64::from_bits(1)] {
        for flag in [0, 1] {
            let machine = with(x, flag).unwrap();
            let state = machine.state();
            assert_eq!((state.ra().to_bits(), state.real_overflow()), (x.to_bits(), flag == 1));
            assert_eq!(machine.freeze(BUILD).wake(&table, BUILD, &[1]).unwrap(), machine);
            assert_ne!(machine, started);
        }
        assert_eq!(with(x, 2), Err(Refusal::BadState));
    }
    for x in [f64::INFINITY, f64::NEG_INFINITY, f64::NAN] {
        assert_eq!(with(x, 0), Err(Refusal::BadState));
    }
}

/// The file of a machine is the same whatever its fresh words hold, and a woken machine has the new ones.
#[test]
fn files_show_no_fresh_word() {
    let table = Table::assemble(CARDS).unwrap();
    let with = |word| Machine::start(&table, 256, &[word], 0).unwrap();
    let file = with(0x5EC2_E700).freeze(BUILD);
    assert_eq!(file, with(1).freeze(BUILD));
    assert!(file.bytes().windows(4).all(|w| w != 0x5EC2_E700u32.to_le_bytes()));
    assert_eq!(file.wake(&table, BUILD, &[77]).unwrap(), with(77));
}

/// A program with one fresh word.
const CARDS: &[u8] = b" SEC
 SEC
 SEC
 SEC
F$TOK DAC 0
 SEC
START MOV F$TOK,WA
STOP$ BRN STOP$
 SEC
 ERB 1,STACK
 SEC
ERROR BRN ERROR
 END
";

/// Two calls of one procedure, so that one link can be another.
const TWO_CALLS: &[u8] = b" SEC
PROCA INP R,0
 SEC
 SEC
 SEC
 SEC
START JSR PROCA
 JSR PROCA
 BRN START
PROCA PRC R,0
LOOPA BRN LOOPA
 ENP
 SEC
 ERB 1,STACK
 SEC
 ERB 1,ERROR
 END
";
