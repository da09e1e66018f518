//! The proved library beside an independent plain implementation, on random and damaged decks, tables and states; files.rs has files, reals.rs
//! and decimals.rs have real arithmetic.
//! Seeds are fixed, so that each run of the tests is the same.

mod common;

use common::lent::{assembles_alike, expect_all, lawful, litter, number, set_real};
use common::lent::{spoil_state, spoil_table, used_room, ROOM};
use common::{cases, deck, spoil, text, Random};
use std::collections::BTreeSet;
use torzimlak::sys::{self, STATE_WORDS};
use torzimlak_plain::{assemble, check, host, Table};

/// A procedure that calls itself, which random decks seldom do often enough for the 257th link.
const DEEP: &[u8] = b" SEC
DEEP$ INP R,0
 SEC
 SEC
 SEC
 SEC
START JSR DEEP$
 BRN START
DEEP$ PRC R,0
 JSR DEEP$
 EXI
 ENP
 SEC
 ERB 1,STACK
 SEC
 ERB 1,ERROR
 END
";

#[test]
fn decks() {
    let mut r = Random::new(1);
    let mut seen = BTreeSet::new();
    for i in 0..cases(60_000) {
        let mut d = deck(&mut r);
        for _ in 0..i % 4 {
            spoil(&mut r, &mut d);
        }
        let room = if r.once_in(50) { r.below(400) } else { ROOM };
        let mut bytes = text(&d);
        if r.once_in(20) {
            bytes.pop();
        }
        seen.insert(number(&assembles_alike(&bytes, room)));
    }
    for n in [1020, 1030] {
        let mut d: Vec<String> = [" SEC"; 5].map(String::from).to_vec();
        d.extend(vec![" NGI".to_string(); n]);
        d.extend(["START BRN START", " SEC", " ERB 1,A", " SEC", " ERB 1,A", " END"].map(String::from));
        seen.insert(number(&assembles_alike(&text(&d), ROOM)));
    }
    seen.insert(number(&assembles_alike(&vec![b'*'; 32_769], ROOM)));
    expect_all("decks", &seen, 0..=10);
}

#[test]
fn bytes_of_any_kind() {
    let mut r = Random::new(2);
    for i in 0..cases(10_000) {
        let n = r.below(300);
        let bytes: Vec<u8> = (0..n).map(|_| if i % 2 == 0 { r.next() as u8 } else { *r.pick(b" \nSECENDABC12$,=*()+-.") }).collect();
        drop(assembles_alike(&bytes, 100));
    }
}

#[test]
fn tables() {
    let mut r = Random::new(3);
    let (mut good, mut bad) = (0, 0);
    for i in 0..cases(20_000) {
        let mut t = lawful(&mut r);
        for _ in 0..i % 3 {
            let at = r.below(t.len());
            t[at] = match r.below(4) {
                0 => r.next() as u32,
                1 => t[at].wrapping_add(1),
                2 => t[at].wrapping_sub(1),
                _ => t[r.below(t.len())],
            };
        }
        if r.once_in(30) {
            t.pop();
        }
        let due = if check::check_table(&t) { 0 } else { 30 };
        assert_eq!(sys::check_table(&t), due, "{t:?}");
        if due == 0 {
            good += 1;
        } else {
            bad += 1;
        }
    }
    assert!(good > cases(1000) && bad > cases(1000));
}

/// A run, then a resume, on both sides: the same answers, and the same words left in all that is lent.
fn calls_alike(t: &[u32], memory: &mut Vec<u32>, words: &mut Vec<u32>, budget: u32, exit: u32) -> (u32, u32) {
    let (mut own, mut plain) = (memory.clone(), words.clone());
    let ran = host::run(t, &mut own, &mut plain, budget);
    assert_eq!(sys::run(t, memory, words, budget), ran);
    assert_eq!((&*memory, &*words), (&own, &plain));
    let resumed = host::resume(t, &mut own, &mut plain, exit);
    assert_eq!(sys::resume(t, memory, words, exit), resumed);
    assert_eq!((&*memory, &*words), (&own, &plain));
    (ran.0, resumed)
}

/// The host's writes of registers and IA.
fn host_writes(r: &mut Random, words: &mut [u32], m: usize) {
    for x in words.iter_mut().take(sys::IA) {
        *x = match r.below(6) {
            0 => *x,
            1 => 4 * r.below(m) as u32,
            2 => r.below(4 * m) as u32,
            3 => 1_073_741_824 + 4 * r.below(40) as u32,
            4 => r.below(60) as u32,
            _ => r.next() as u32,
        };
    }
    words[sys::IA] = if r.once_in(2) { (r.below(100) as u32).wrapping_neg() } else { r.next() as u32 };
}

#[test]
fn runs() {
    let mut r = Random::new(4);
    let (mut ran, mut resumed) = (BTreeSet::new(), BTreeSet::new());
    let deep = assemble::assemble(DEEP, ROOM).expect("a lawful deck");
    for _ in 0..cases(15_000) {
        let t = if r.once_in(500) { deep.clone() } else { lawful(&mut r) };
        let m = *r.pick(&[256, 257, 300, 512]);
        let fill = r.below(3);
        let mut memory: Vec<u32> = (0..m).map(|_| match fill { 0 => 0, 1 => r.below(1200) as u32, _ => r.next() as u32 }).collect();
        let fresh: Vec<u32> = (0..Table(&t).fresh_count()).map(|_| r.next() as u32).collect();
        let mut words = vec![0; STATE_WORDS];
        assert_eq!(sys::warm_start(&t, &mut memory, &fresh, r.below(100) as u32, &mut words), 0);
        for _ in 0..6 {
            if r.once_in(2) {
                host_writes(&mut r, &mut words, m);
                set_real(&mut r, &mut words);
            }
            words.truncate(STATE_WORDS);
            litter(&mut r, &mut words);
            let (budget, exit) = (*r.pick(&[0, 1, 2, 17, 400, 1_000_001]), r.below(4) as u32);
            let answers = calls_alike(&t, &mut memory, &mut words, budget, exit);
            ran.insert(answers.0);
            resumed.insert(answers.1);
        }
        // Once more on a table or a state that is damaged.
        let table = if r.once_in(3) { spoil_table(&mut r, &t) } else { t };
        if r.once_in(2) {
            spoil_state(&mut r, &mut words);
        }
        let answers = calls_alike(&table, &mut memory, &mut words, 9, 0);
        ran.insert(answers.0);
        resumed.insert(answers.1);
    }
    expect_all("runs", &ran, 20..=32);
    expect_all("resumes", &resumed, [0, 26, 30, 31, 33]);
}

#[test]
fn starts() {
    let mut r = Random::new(5);
    let mut seen = BTreeSet::new();
    for _ in 0..cases(10_000) {
        let t = lawful(&mut r);
        let t = if r.once_in(5) { spoil_table(&mut r, &t) } else { t };
        let m = *r.pick(&[0, 63, 255, 256, 300, 8192, 8193]);
        let memory: Vec<u32> = (0..m).map(|i| i as u32 * 7 + 1).collect();
        let due_fresh = (Table(&t).fresh_count() % 40) as i64 + [0, 0, 0, 1, -1][r.below(5)];
        let fresh = vec![9; due_fresh.max(0) as usize];
        let words = used_room(&mut r);
        let plain = start_alike([sys::start, host::start], &t, &memory, &fresh, &words);
        let warm = start_alike([sys::warm_start, host::warm_start], &t, &memory, &fresh, &words);
        assert_eq!((plain.0, &plain.2), (warm.0, &warm.2));
        if plain.0 == 0 {
            let own = Table(&t).constants() + Table(&t).workings();
            assert_eq!(plain.1[..own], warm.1[..own]);
            assert!(plain.1[own..].iter().all(|&word| word == 0));
            assert_eq!(warm.1[own..], memory[own..]);
        } else {
            assert_eq!((&plain.1, &plain.2), (&memory, &words));
            assert_eq!((&warm.1, &warm.2), (&memory, &words));
        }
        seen.insert(plain.0);
    }
    expect_all("starts", &seen, [0, 10, 30, 31, 43]);
}

/// A start of the library's and the plain one.
type Start = fn(&[u32], &mut [u32], &[u32], u32, &mut [u32]) -> u32;

/// Both starts of the same lent words: the same answer, and the same words left. The number, the memory and the state's words.
fn start_alike(starts: [Start; 2], t: &[u32], memory: &[u32], fresh: &[u32], words: &[u32]) -> (u32, Vec<u32>, Vec<u32>) {
    let [proved, plain] = starts.map(|start| {
        let (mut memory, mut words) = (memory.to_vec(), words.to_vec());
        (start(t, &mut memory, fresh, 5, &mut words), memory, words)
    });
    assert_eq!(proved, plain);
    proved
}
