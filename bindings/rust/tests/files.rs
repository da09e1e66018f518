//! States and files of the proved library beside the plain implementation: random and damaged states, files of both kinds, and damaged ones.

mod common;

use common::lent::{expect_all, lawful, litter, set_real, spoil_state, spoil_table, used_room};
use common::{cases, Random};
use std::collections::BTreeSet;
use torzimlak::sys;
use torzimlak_plain::{host, machine, Table};

const BUILD: u32 = 77;
/// The bytes from the build number to L, and those of RA and its flag before them.
const TRAILER: usize = 64;
const REAL: usize = 12;

/// What a machine's calls on files answered, and what was met of the two kinds.
#[derive(Default)]
struct Seen {
    checks: BTreeSet<u32>,
    writes: BTreeSet<u32>,
    restores: BTreeSet<u32>,
    kinds: BTreeSet<&'static str>,
}

/// A machine that has run for a while, with any RA, in words as a host lends them.
fn warmed(r: &mut Random, t: &[u32], m: usize) -> (Vec<u32>, Vec<u32>) {
    let mut memory: Vec<u32> = (0..m).map(|_| r.next() as u32).collect();
    let fresh = vec![7; Table(t).fresh_count()];
    let mut s = machine::warm_start(t, &mut memory, &fresh, 1).unwrap();
    machine::run(t, &mut memory, &mut s, r.below(60) as u32);
    let mut words = host::words(&s).to_vec();
    if r.once_in(2) {
        set_real(r, &mut words);
    }
    (memory, words)
}

#[test]
fn states_and_files() {
    let mut r = Random::new(6);
    let mut seen = Seen::default();
    for _ in 0..cases(30_000) {
        let t = lawful(&mut r);
        let m = 256 + r.below(40);
        let (memory, mut words) = warmed(&mut r, &t, m);
        litter(&mut r, &mut words);
        if r.once_in(3) {
            spoil_state(&mut r, &mut words);
        }
        let table = if r.once_in(30) { spoil_table(&mut r, &t) } else { t };
        let due = host::check_state(&table, m, &words);
        assert_eq!(sys::check_state(&table, m, &words), due, "{words:?}");
        seen.checks.insert(due);
        let room = if r.once_in(10) { r.below(1400) } else { 4000 };
        let (mut file, mut plain) = (vec![0xEE; room], vec![0xEE; room]);
        let due = host::write(&table, &memory, &words, BUILD, &mut plain);
        assert_eq!(sys::write(&table, &memory, &words, BUILD, &mut file), due);
        assert_eq!(file, plain);
        seen.writes.insert(due.0);
        if due.0 == 0 {
            file.truncate(due.1 as usize);
            kinds_alike(&mut r, &table, &file, &words, &mut seen);
            seen.restores.insert(damaged_alike(&mut r, &table, file));
        }
    }
    expect_all("checks", &seen.checks, [0, 30, 31]);
    expect_all("writes", &seen.writes, [0, 30, 31, 45]);
    expect_all("restores", &seen.restores, [0, 30, 31, 40, 41, 42, 43, 44]);
    expect_all("kinds", &seen.kinds, ["new", "old", "another L", "a flag over 1", "RA not finite"]);
}

/// One of the file's last words, of which 1 is L.
fn last(file: &[u8], from_end: usize) -> u32 {
    let at = file.len() - 4 * from_end;
    u32::from_le_bytes(file[at..at + 4].try_into().unwrap())
}

fn set_last(file: &mut [u8], from_end: usize, word: u32) {
    let at = file.len() - 4 * from_end;
    file[at..at + 4].copy_from_slice(&word.to_le_bytes());
}

/// The same file without RA, as it was written before there were reals.
fn old_kind(file: &[u8]) -> Vec<u8> {
    let mut old = file.to_vec();
    old.drain(file.len() - TRAILER - REAL..file.len() - TRAILER);
    set_last(&mut old, 1, last(file, 1) - REAL as u32);
    old
}

/// The file, of either kind, whole or with one thing changed: its number, and the RA that a woken machine has by its kind.
fn kinds_alike(r: &mut Random, t: &[u32], file: &[u8], words: &[u32], seen: &mut Seen) {
    let old = r.once_in(2);
    let mut file = if old { old_kind(file) } else { file.to_vec() };
    let length = last(&file, 1);
    let (kind, number) = match (r.below(4), old) {
        (0, _) => {
            let others = [0, 64, length - 8, length - 4, length + 4, length + 8, length + 16, u32::MAX];
            set_last(&mut file, 1, *r.pick(&others));
            ("another L", 40)
        }
        (1, false) => {
            set_last(&mut file, 17, *r.pick(&[2, 3, 256, 1 << 31, u32::MAX]));
            ("a flag over 1", 40)
        }
        (2, false) => {
            set_last(&mut file, 18, *r.pick(&[0x7FF0_0000, 0x7FF0_0001, 0x7FFF_FFFF, 0xFFF0_0000, u32::MAX]));
            ("RA not finite", 40)
        }
        (_, false) => ("new", 0),
        (_, true) => ("old", 0),
    };
    let (fresh, m) = (vec![9; Table(t).fresh_count()], last(&file, 14) as usize);
    let (got, woken) = restored_alike(t, &file, BUILD, &fresh, m, vec![3; sys::STATE_WORDS]);
    assert_eq!(got, number, "{kind}");
    if number == 0 {
        let real = if old { &[0; 3] } else { &words[sys::RA_LOW..sys::STATE_WORDS] };
        assert_eq!((&woken[..sys::COUNT], &woken[sys::RA_LOW..]), (&words[..sys::COUNT], real), "{kind}");
    }
    seen.kinds.insert(kind);
}

/// Both restores of a file that is damaged for the most part, and is of the old kind once in three.
fn damaged_alike(r: &mut Random, t: &[u32], file: Vec<u8>) -> u32 {
    let m = last(&file, 14) as usize;
    let mut file = if r.once_in(3) { old_kind(&file) } else { file };
    for _ in 0..r.below(3) {
        let n = file.len();
        match r.below(9) {
            0 => file.truncate(r.below(n + 1)),
            1 => drop(file.splice(0..0, [1, 2, 3])),
            2 => file.push(0),
            3 if n >= 64 => file[n - 64 + r.below(64)] ^= 1 << r.below(8),
            4 if n > 0 => file[r.below(n)] ^= 1 << r.below(8),
            5 if n > 120 => file[n - 120 + r.below(56)] = 0,
            6 if n >= 76 => file[n - 76 + r.below(12)] ^= 1 << r.below(8),
            7 if n >= 64 => {
                let by = *r.pick(&[12, 12, 4, 76]);
                let length = last(&file, 1);
                set_last(&mut file, 1, if r.once_in(2) { length.wrapping_add(by) } else { length.wrapping_sub(by) });
            }
            _ => {}
        }
    }
    let t = if r.once_in(30) { spoil_table(r, t) } else { t.to_vec() };
    let build = if r.once_in(12) { BUILD + 1 } else { BUILD };
    let count = (Table(&t).fresh_count() as i64 + [0, 0, 0, 0, 1][r.below(5)]).min(40);
    let fresh: Vec<u32> = (0..count).map(|_| r.next() as u32).collect();
    restored_alike(&t, &file, build, &fresh, m + r.once_in(10) as usize, used_room(r)).0
}

/// Both restores: the same answer, and the same words left in memory and state. The number, and the state's words.
fn restored_alike(t: &[u32], file: &[u8], build: u32, fresh: &[u32], m: usize, mut words: Vec<u32>) -> (u32, Vec<u32>) {
    let mut memory = vec![5; m];
    let (mut own, mut plain) = (memory.clone(), words.clone());
    let due = host::restore(t, file, build, fresh, &mut own, &mut plain);
    assert_eq!(sys::restore(t, file, build, fresh, &mut memory, &mut words), due);
    assert_eq!((memory, &words), (own, &plain));
    (due, words)
}

/// Rooms of every length about that of a file.
#[test]
fn rooms() {
    let mut r = Random::new(16);
    let t = lawful(&mut r);
    let (memory, words) = warmed(&mut r, &t, 256);
    let links = words[sys::COUNT] as usize;
    let length = 4 * (256 + links + Table(&t).fresh_count()) + REAL + TRAILER;
    for room in length - 80..length + 3 {
        let (mut file, mut plain) = (vec![0xEE; room], vec![0xEE; room]);
        let due = if room < length { (45, 0) } else { (0, length as u32) };
        assert_eq!(host::write(&t, &memory, &words, BUILD, &mut plain), due);
        assert_eq!(sys::write(&t, &memory, &words, BUILD, &mut file), due);
        assert_eq!(file, plain);
    }
}
