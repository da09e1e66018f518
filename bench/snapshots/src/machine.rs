//! The machines whose files are written and woken.

use std::hint::black_box;
use torzimlak::sys;
use torzimlak_bench::state::{self, COUNT, FLAG, LINKS, PLACE, RA_LOW, WAITING, WORDS};
use torzimlak_bench::tables::{filled, Full};
use torzimlak_bench::used;
use torzimlak_plain::{machine, snapshot};

const BUILD: u32 = 0x0102_0304;
const FRESH: [u32; 2] = [0xfeed_0001, 0xfeed_0002];
/// Where the tables have their fresh words in memory.
const FRESH_AT: [usize; 2] = [40, 41];

/// The sizes of a machine: words of memory, entries and procedures of its table, links.
#[derive(Clone, Copy)]
pub struct Size {
    pub words: usize,
    pub entries: usize,
    pub procedures: usize,
    pub links: usize,
}

/// A machine, its file, and room for what is written and woken.
pub struct Machine {
    table: Full,
    memory: Vec<u32>,
    state: Vec<u32>,
    plain: machine::State,
    pub file: Vec<u8>,
    room: Vec<u8>,
    woken: Vec<u32>,
    woken_state: Vec<u32>,
}

impl Machine {
    /// The machine of a size, with its file as the paper has it.
    pub fn new(size: Size) -> Machine {
        let table = filled(size.entries, size.procedures, 150);
        let mut links = vec![table.inner; size.links];
        links.first_mut().into_iter().for_each(|first| *first = table.outer);
        let mut state = state::state(if size.links == 0 { 0 } else { table.inside }, &links);
        state[..FLAG].fill(7);
        state[FLAG] = 1;
        state[RA_LOW..].copy_from_slice(&[0x5555_5555, 0xbfd5_5555, 1]);
        let memory: Vec<u32> = (0..size.words as u32).map(|i| i.wrapping_mul(2_654_435_761)).collect();
        let length = 4 * (size.words + size.links + FRESH.len()) + 76;
        let mut machine = Machine {
            plain: state::plain(&state),
            table,
            state,
            file: vec![],
            room: vec![0; length],
            woken: vec![0; size.words],
            woken_state: vec![0; WORDS],
            memory,
        };
        machine.file = machine.expected();
        machine
    }

    /// The file, as the paper has it.
    fn expected(&self) -> Vec<u8> {
        let (t, s) = (&self.table.table, &self.state);
        let mut words = self.memory.clone();
        FRESH_AT.iter().for_each(|&at| words[at] = 0);
        words.extend(&s[LINKS..LINKS + s[COUNT] as usize]);
        words.extend(FRESH_AT.map(|at| 4 * at as u32));
        words.extend(&s[RA_LOW..]);
        words.extend([BUILD, t[0], self.memory.len() as u32, s[COUNT], 2, s[PLACE], s[WAITING]]);
        words.extend(&s[..=FLAG]);
        words.push(self.room.len() as u32);
        words.iter().flat_map(|w| w.to_le_bytes()).collect()
    }

    pub fn check_table(&mut self) {
        used(sys::check_table(black_box(&self.table.table)));
    }

    pub fn check_state(&mut self) {
        used(sys::check_state(black_box(&self.table.table), self.memory.len(), black_box(&self.state)));
    }

    pub fn write(&mut self) {
        let (t, m, s) = (&self.table.table, black_box(&self.memory), &self.state);
        used(sys::write(t, m, s, BUILD, &mut self.room));
    }

    pub fn restore(&mut self) {
        let file = black_box(&self.file);
        used(sys::restore(&self.table.table, file, BUILD, &FRESH, &mut self.woken, &mut self.woken_state));
    }

    pub fn plain_write(&mut self) {
        let (t, m, s) = (&self.table.table, black_box(&self.memory), &self.plain);
        used(snapshot::write(t, m, s, BUILD, &mut self.room));
    }

    pub fn plain_restore(&mut self) {
        let file = black_box(&self.file);
        used(snapshot::restore(&self.table.table, file, BUILD, &FRESH, &mut self.woken));
    }

    /// A plain copy of the file's bytes.
    pub fn copy(&mut self) {
        self.room.copy_from_slice(black_box(&self.file));
        black_box(&self.room);
    }

    /// Writes the machine and compares the file with the paper's and the plain one's; the refusals change nothing.
    pub fn compare_write(&mut self) {
        let (t, length) = (&self.table.table, self.file.len());
        self.room.fill(0xaa);
        let (m, room) = (&self.memory, &mut self.room);
        assert_eq!(sys::write(&t[1..], m, &self.state, BUILD, room), (30, 0));
        assert_eq!(sys::write(t, m, &self.state[1..], BUILD, room), (31, 0));
        assert_eq!(sys::write(t, m, &self.state, BUILD, &mut room[..length - 1]), (45, 0));
        assert!(room.iter().all(|&b| b == 0xaa));
        assert_eq!(sys::write(t, m, &self.state, BUILD, room), (0, length as u32));
        assert!(self.room == self.file);
        self.room.fill(0xaa);
        assert_eq!(snapshot::write(t, m, &self.plain, BUILD, &mut self.room), Ok(length));
        assert!(self.room == self.file);
    }

    /// Wakes the machine and compares memory and state; the refusals change nothing.
    pub fn compare_restore(&mut self) {
        let (t, file) = (&self.table.table, &self.file);
        let mut odd = file.clone();
        odd[4 * FRESH_AT[0]] = 1;
        self.woken.fill(3);
        self.woken_state.fill(5);
        let (m, s) = (&mut self.woken, &mut self.woken_state);
        assert_eq!(sys::restore(&t[1..], file, BUILD, &FRESH, m, s), 30);
        assert_eq!(sys::restore(t, file, BUILD, &FRESH, m, &mut s[1..]), 31);
        assert_eq!(sys::restore(t, &file[1..], BUILD, &FRESH, m, s), 40);
        assert_eq!(sys::restore(t, file, BUILD + 1, &FRESH, m, s), 41);
        assert_eq!(sys::restore(t, &odd, BUILD, &FRESH, m, s), 42);
        assert_eq!(sys::restore(t, file, BUILD, &FRESH[1..], m, s), 43);
        assert_eq!(sys::restore(t, file, BUILD, &FRESH, &mut m[1..], s), 44);
        assert!(m.iter().all(|&w| w == 3) && s.iter().all(|&w| w == 5));
        assert_eq!(sys::restore(t, file, BUILD, &FRESH, m, s), 0);
        let mut memory = self.memory.clone();
        FRESH_AT.iter().zip(FRESH).for_each(|(&at, word)| memory[at] = word);
        assert!(*m == memory && *s == self.state);
        m.fill(3);
        assert!(snapshot::restore(t, file, BUILD, &FRESH, m).as_ref() == Ok(&self.plain) && *m == memory);
        assert_eq!(sys::check_table(t), 0);
        assert_eq!(sys::check_state(t, memory.len(), s), 0);
    }
}
