//! States as a host lends them: where each word stands.

pub use torzimlak_plain::host::{COUNT, FLAG, LINKS, PLACE, RA_HIGH, RA_LOW, REAL_FLAG, STATE_WORDS as WORDS, WAITING};
use torzimlak_plain::{host, machine};

/// The state at a place with these links, its registers and the rest 0.
pub fn state(place: u32, links: &[u32]) -> Vec<u32> {
    let mut words = vec![0; WORDS];
    words[PLACE] = place;
    words[COUNT] = links.len() as u32;
    words[LINKS..LINKS + links.len()].copy_from_slice(links);
    words
}

/// The same state for the plain machine.
pub fn plain(words: &[u32]) -> machine::State {
    host::state(words).expect("words of a state")
}

/// The words with one of them changed.
pub fn with(words: &[u32], at: usize, word: u32) -> Vec<u32> {
    let mut changed = words.to_vec();
    changed[at] = word;
    changed
}
