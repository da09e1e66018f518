//! What a careless host lends: words that are littered or spoiled, and rooms that somebody used before.

use super::reals::{finite, halves};
use super::{deck, share, text, Random};
use std::collections::BTreeSet;
use std::fmt::Debug;
use torzimlak::sys;
use torzimlak_plain::assemble::assemble;

/// Words of room for a table.
pub const ROOM: usize = 20_000;

/// Words of a state as a careless host lends them: anything from the links' count to RA, and some words more behind it.
pub fn litter(r: &mut Random, words: &mut Vec<u32>) {
    if words.len() >= sys::STATE_WORDS {
        let end = sys::LINKS + (words[sys::COUNT] as usize).min(256);
        words[end..sys::RA_LOW].iter_mut().for_each(|w| *w = r.next() as u32);
    }
    words.resize_with(words.len() + r.below(4), || r.next() as u32);
}

/// Any RA that a state may have, and its flag.
pub fn set_real(r: &mut Random, words: &mut [u32]) {
    let [low, high] = halves(finite(r, 0));
    words[sys::RA_LOW..sys::STATE_WORDS].copy_from_slice(&[low, high, r.below(2) as u32]);
}

/// Words that are a state no longer, for the most part.
pub fn spoil_state(r: &mut Random, words: &mut Vec<u32>) {
    const WORDS: [usize; 8] =
        [sys::FLAG, sys::PLACE, sys::WAITING, sys::COUNT, sys::LINKS, sys::LINKS + 1, sys::RA_LOW, sys::REAL_FLAG];
    match r.below(8) {
        0 | 1 => words.truncate(r.below(sys::STATE_WORDS)),
        2 => {
            words[sys::RA_HIGH] = *r.pick(&[0x7FEF_FFFF, 0x7FF0_0000, 0x7FF8_0000, 0xFFEF_FFFF, 0xFFF0_0000, u32::MAX])
        }
        _ => words[*r.pick(&WORDS)] = *r.pick(&[0, 1, 2, 3, 5, 9, 256, 257, u32::MAX]),
    }
}

/// A table with one bit changed.
pub fn spoil_table(r: &mut Random, t: &[u32]) -> Vec<u32> {
    let mut t = t.to_vec();
    let at = r.below(t.len());
    t[at] ^= 1 << r.below(32);
    t
}

/// Room for a state that somebody used before: too little once in six, else enough or a little more.
pub fn used_room(r: &mut Random) -> Vec<u32> {
    let length = if r.once_in(6) { r.below(sys::STATE_WORDS) } else { sys::STATE_WORDS + r.below(4) };
    (0..length).map(|_| r.next() as u32).collect()
}

/// The table of a random deck.
pub fn lawful(r: &mut Random) -> Vec<u32> {
    loop {
        if let Ok(t) = assemble(&text(&deck(r)), ROOM) {
            return t;
        }
    }
}

/// What both assemblers answer to one text: a table, or number and line. They leave the room past the table, and all of it in a refusal.
pub fn assembles_alike(bytes: &[u8], room: usize) -> Result<Vec<u32>, (u32, usize)> {
    let mut lent = vec![0xA5A5_A5A5; room];
    let got = sys::assemble(bytes, &mut lent);
    let answer = assemble(bytes, room);
    let (due, length) = match &answer {
        Ok(t) => ((0, t.len() as u32), t.len()),
        Err((number, line)) => ((*number, *line as u32), 0),
    };
    assert_eq!(got, due, "{}", String::from_utf8_lossy(bytes));
    assert_eq!(&lent[..length], answer.as_deref().unwrap_or_default());
    assert!(lent[length..].iter().all(|w| *w == 0xA5A5_A5A5), "the room behind changed");
    answer
}

/// The number of such an answer.
pub fn number(answer: &Result<Vec<u32>, (u32, usize)>) -> u32 {
    answer.as_ref().map_or_else(|fault| fault.0, |_| 0)
}

/// Each of these is met, if all cases were tried.
pub fn expect_all<T: Ord + Debug>(what: &str, seen: &BTreeSet<T>, due: impl IntoIterator<Item = T>) {
    if share() != 1 {
        return;
    }
    for n in due {
        assert!(seen.contains(&n), "{what}: {n:?} was never met");
    }
}
