//! The snapshot: a machine written to a file, and woken from any file.

use crate::check::check_table;
use crate::machine::{check_state, State};
use crate::{Table, MAX_MEMORY, MIN_MEMORY};

/// The bytes from the build number to L.
const TRAILER: usize = 64;
/// RA's two words and its flag, which stand before them; files of the old kind have none.
const REAL: usize = 12;

/// The file's length, or a refusal.
pub fn write(t: &[u32], m: &[u32], s: &State, build: u32, file: &mut [u8]) -> Result<usize, u32> {
    if !check_table(t) {
        return Err(30);
    }
    if !check_state(t, m.len(), s) {
        return Err(31);
    }
    let table = Table(t);
    let fresh: Vec<u32> = (0..table.fresh_count()).map(|i| table.fresh(i)).collect();
    let mut words = m.to_vec();
    for a in &fresh {
        words[*a as usize / 4] = 0;
    }
    words.extend(&s.links);
    words.extend(&fresh);
    let length = 4 * words.len() + REAL + TRAILER;
    words.extend([s.ra as u32, (s.ra >> 32) as u32, s.real_flag as u32]);
    words.extend([
        build,
        table.size() as u32,
        m.len() as u32,
        s.links.len() as u32,
        fresh.len() as u32,
        s.pc,
        s.waiting as u32,
    ]);
    words.extend(&s.regs[1..]);
    words.extend([s.ia, s.flag as u32, length as u32]);
    if file.len() < length {
        return Err(45);
    }
    for (i, w) in words.iter().enumerate() {
        file[4 * i..4 * i + 4].copy_from_slice(&w.to_le_bytes());
    }
    Ok(length)
}

/// The words of a file, as its trailer parts them.
struct Frozen {
    trailer: [u32; 16],
    memory: Vec<u32>,
    links: Vec<u32>,
    addresses: Vec<u32>,
    /// RA's low word, its high word, its flag.
    real: [u32; 3],
}

/// What stands at the end of the file, if it has a lawful trailer of either kind: L says which.
fn frozen(file: &[u8]) -> Option<Frozen> {
    let word = |at: usize| u32::from_le_bytes(file[at..at + 4].try_into().unwrap());
    let last = file.len().checked_sub(TRAILER)?;
    let trailer: [u32; 16] = std::array::from_fn(|i| word(last + 4 * i));
    let [_, _, m, k, f, ..] = trailer.map(|w| w as u64);
    let parts = 4 * (m + k + f);
    let real_bytes = (trailer[15] as u64).checked_sub(parts + TRAILER as u64)?;
    let kind_known = real_bytes == 0 || real_bytes == REAL as u64;
    let in_limits = (MIN_MEMORY as u64..=MAX_MEMORY as u64).contains(&m);
    let first = file.len().checked_sub(trailer[15] as usize)?;
    if !kind_known || !in_limits || trailer[6] > 1 || trailer[14] > 1 {
        return None;
    }
    let list = |from: u64, n: u64| -> Vec<u32> { (from..from + n).map(|i| word(first + 4 * i as usize)).collect() };
    let real = if real_bytes == 0 { [0; 3] } else { std::array::from_fn(|i| word(last - REAL + 4 * i)) };
    Some(Frozen { trailer, memory: list(0, m), links: list(m, k), addresses: list(m + k, f), real })
}

impl Frozen {
    fn state(&self) -> State {
        let t = &self.trailer;
        let mut regs = [0; 7];
        regs[1..].copy_from_slice(&t[7..13]);
        State {
            regs,
            ia: t[13],
            flag: t[14] == 1,
            ra: self.real[0] as u64 | (self.real[1] as u64) << 32,
            real_flag: self.real[2] == 1,
            pc: t[5],
            waiting: t[6] == 1,
            links: self.links.clone(),
        }
    }
}

/// The machine at the end of the file, or a refusal.
pub fn restore(t: &[u32], file: &[u8], build: u32, fresh: &[u32], m: &mut [u32]) -> Result<State, u32> {
    if !check_table(t) {
        return Err(30);
    }
    let table = Table(t);
    let frozen = frozen(file).ok_or(40u32)?;
    let s = frozen.state();
    if frozen.real[2] > 1 || !s.real().is_finite() {
        return Err(40);
    }
    let known: Vec<u32> = (0..table.fresh_count()).map(|i| table.fresh(i)).collect();
    let same_program = frozen.trailer[0] == build && frozen.trailer[1] as usize == table.size();
    if !same_program || frozen.addresses != known {
        return Err(41);
    }
    let words = &frozen.memory;
    if !check_state(t, words.len(), &s) || known.iter().any(|a| words[*a as usize / 4] != 0) {
        return Err(42);
    }
    if fresh.len() != known.len() {
        return Err(43);
    }
    if m.len() != words.len() {
        return Err(44);
    }
    m.copy_from_slice(words);
    for (a, w) in known.iter().zip(fresh) {
        m[*a as usize / 4] = *w;
    }
    Ok(s)
}
