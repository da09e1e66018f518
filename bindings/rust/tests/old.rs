//! Files of before there were reals, which tests/old has with what they woke to and how they ran on then: they wake with RA +0 and its flag
//! off, run as they did, and are frozen with RA in them.

use torzimlak::{sys, Machine, Refusal, Snapshot, Table};
use torzimlak_plain::{machine, snapshot};

const BUILD: u32 = 1;
const BUDGET: u32 = 1000;

fn read(name: &str) -> Vec<u8> {
    let path = format!("{}/../../tests/old/{name}", env!("CARGO_MANIFEST_DIR"));
    std::fs::read(&path).unwrap_or_else(|e| panic!("{path}: {e}"))
}

/// A machine of before there were reals: its name, what it woke to, its run, and what it was then.
struct Old {
    name: String,
    woken: String,
    run: String,
    left: String,
}

impl Old {
    fn all() -> Vec<Old> {
        let lines = String::from_utf8(read("results.txt")).unwrap();
        let one = |line: &str| {
            let [name, woken, run, left] = line.split(": ").collect::<Vec<_>>()[..] else { panic!("{line}") };
            Old { name: name.into(), woken: woken.into(), run: run.into(), left: left.into() }
        };
        let all: Vec<Old> = lines.lines().filter(|line| !line.starts_with('#')).map(one).collect();
        assert_eq!(all.len(), 8);
        all
    }

    fn table(&self) -> Table {
        Table::assemble(&read(&format!("{}.min", self.name))).unwrap()
    }

    fn file(&self) -> Vec<u8> {
        read(&format!("{}.snapshot", self.name))
    }
}

fn fresh_words(table: &Table) -> Vec<u32> {
    (0..table.fresh_words() as u32).map(|i| 1000 + i).collect()
}

/// A machine as results.txt tells it.
fn told(machine: &Machine) -> String {
    let s = machine.state();
    let sum = |sum: u64, word: &u32| (sum ^ *word as u64).wrapping_mul(0x0000_0100_0000_01B3);
    let sum = machine.memory().iter().fold(0xCBF2_9CE4_8422_2325, sum);
    let words = [s.place(), s.waiting() as u32, s.links().len() as u32].into_iter().chain(s.registers());
    let words: String = words.map(|word| format!("{word} ")).collect();
    format!("{words}{} {} {sum:016x}", s.ia(), s.overflow() as u32)
}

/// RA is +0, and its flag off.
fn without_real(machine: &Machine) {
    assert_eq!((machine.state().ra().to_bits(), machine.state().real_overflow()), (0, false));
}

#[test]
fn old_files_wake_and_run_as_before() {
    for old in Old::all() {
        let (table, file) = (old.table(), Snapshot::from_bytes(old.file()));
        let mut machine = file.wake(&table, BUILD, &fresh_words(&table)).unwrap();
        without_real(&machine);
        assert_eq!(told(&machine), old.woken, "{}", old.name);
        if machine.state().waiting() {
            machine.resume(0).unwrap();
        }
        let run = machine.run(BUDGET).unwrap();
        assert_eq!(format!("{} {}", run.ending.number(), run.steps), old.run, "{}", old.name);
        without_real(&machine);
        assert_eq!(told(&machine), old.left, "{}", old.name);
    }
}

/// The plain implementation wakes the same machines.
#[test]
fn old_files_wake_alike() {
    for old in Old::all() {
        let (table, file) = (old.table(), old.file());
        let (fresh, mut memory) = (fresh_words(&table), vec![0; 256]);
        let plain: machine::State = snapshot::restore(table.words(), &file, BUILD, &fresh, &mut memory).unwrap();
        let machine = Snapshot::from_bytes(file).wake(&table, BUILD, &fresh).unwrap();
        assert_eq!(machine.memory(), memory, "{}", old.name);
        assert_eq!(*machine.state().words(), torzimlak_plain::host::words(&plain), "{}", old.name);
    }
}

/// What an old machine is frozen to is its file with RA and its flag, 12 bytes of 0, before the last 64 bytes, and L grown by 12.
#[test]
fn old_machines_are_frozen_with_ra() {
    for old in Old::all() {
        let (table, mut file) = (old.table(), old.file());
        let machine = Snapshot::from_bytes(file.clone()).wake(&table, BUILD, &fresh_words(&table)).unwrap();
        let length = file.len() as u32;
        assert_eq!(file[file.len() - 4..], length.to_le_bytes(), "{}", old.name);
        file.splice(file.len() - 64..file.len() - 64, [0; 12]);
        file.truncate(file.len() - 4);
        file.extend((length + 12).to_le_bytes());
        assert_eq!(machine.freeze(BUILD).bytes(), file, "{}", old.name);
        assert_eq!(Snapshot::from_bytes(file).wake(&table, BUILD, &fresh_words(&table)).unwrap(), machine);
    }
}

/// Damaged in any one byte an old file still wakes, or is refused by a number of the snapshot; what wakes has RA +0, and both
/// implementations answer alike.
#[test]
fn damaged_old_files() {
    for old in Old::all() {
        let table = old.table();
        let fresh = fresh_words(&table);
        for at in 0..old.file().len() {
            let mut file = old.file();
            file[at] ^= 1 << (at % 8);
            let mut memory = vec![0; 256];
            let plain = snapshot::restore(table.words(), &file, BUILD, &fresh, &mut memory);
            let woken = Snapshot::from_bytes(file).wake_in(&table, BUILD, &fresh, vec![0; 256]);
            match woken {
                Ok(machine) => {
                    without_real(&machine);
                    let words: &[u32; sys::STATE_WORDS] = machine.state().words();
                    assert_eq!(torzimlak_plain::host::words(&plain.unwrap()), *words);
                }
                Err(returned) => assert_eq!(returned.refusal.number(), plain.unwrap_err()),
            }
        }
        let short = Snapshot::from_bytes(old.file()[..60].to_vec());
        assert_eq!(short.wake(&table, BUILD, &fresh), Err(Refusal::BadTrailer));
    }
}
