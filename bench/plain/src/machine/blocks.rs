//! Operations on blocks: CMC, TRC, MVC, MVW.

use super::operands::{Machine, Trap};
use super::{WA, XL, XR};
use crate::CFP_A;

impl Machine<'_> {
    pub fn compare_characters(&mut self, e: &[u32], next: usize) -> Result<usize, Trap> {
        let (n, f, g) = (self.s.regs[WA], self.s.regs[XL], self.s.regs[XR]);
        if n != 0 && !(self.fits(f, n) && self.fits(g, n)) {
            return Err(22);
        }
        let mut to = next;
        for i in 0..n as u64 {
            let (a, b) = (self.byte(f as u64 + i), self.byte(g as u64 + i));
            if a != b {
                to = if a < b { e[3] } else { e[6] } as usize;
                break;
            }
        }
        self.s.regs[XL] = 0;
        self.s.regs[XR] = 0;
        self.s.regs[WA] = 0;
        Ok(to)
    }

    pub fn translate(&mut self) -> Result<(), Trap> {
        let (n, f, g) = (self.s.regs[WA], self.s.regs[XL], self.s.regs[XR]);
        if n != 0 {
            if !(self.fits(f, n) && self.fits(g, CFP_A)) {
                return Err(22);
            }
            if (f / 4) < self.t.constants() as u32 {
                return Err(23);
            }
            for i in 0..n as u64 {
                let c = self.byte(f as u64 + i);
                let d = self.byte(g as u64 + c as u64);
                self.set_byte(f as u64 + i, d);
            }
        }
        self.s.regs[XL] = 0;
        self.s.regs[XR] = 0;
        self.s.regs[WA] = 0;
        Ok(())
    }

    pub fn move_block(&mut self, words: bool) -> Result<(), Trap> {
        let (n, f, g) = (self.s.regs[WA], self.s.regs[XL], self.s.regs[XR]);
        if words && n % 4 != 0 {
            return Err(22);
        }
        if n == 0 {
            return Ok(());
        }
        if !(self.fits(f, n) && self.fits(g, n)) || words && (f % 4 != 0 || g % 4 != 0) {
            return Err(22);
        }
        if (g / 4) < self.t.constants() as u32 {
            return Err(23);
        }
        let (from, to, bytes) = (f as usize, g as usize, n as usize);
        if words {
            move_words(self.m, from / 4, to / 4, bytes / 4);
        } else {
            self.move_characters(from, to, bytes);
        }
        self.s.regs[XL] = f + n;
        self.s.regs[XR] = g + n;
        self.s.regs[WA] = 0;
        Ok(())
    }

    /// Moves bytes one by one, lowest first, as the papers say.
    fn move_bytes(&mut self, from: usize, to: usize, n: usize) {
        for i in 0..n {
            let c = self.byte((from + i) as u64);
            self.set_byte((to + i) as u64, c);
        }
    }

    /// MVC: by bytes where moved bytes are read again; else by bytes to the first word of the target, by words, and by bytes.
    fn move_characters(&mut self, from: usize, to: usize, n: usize) {
        if repeats(from, to, n) {
            return self.move_bytes(from, to, n);
        }
        let head = (to.wrapping_neg() % 4).min(n);
        let words = (n - head) / 4;
        let body = head + 4 * words;
        self.move_bytes(from, to, head);
        merge_words(self.m, from + head, (to + head) / 4, words);
        self.move_bytes(from + body, to + body, n - body);
    }
}

/// Whether a move, lowest first, reads what it has written: the target begins in the source, past its first.
fn repeats(from: usize, to: usize, n: usize) -> bool {
    from < to && to < from + n
}

/// Moves n words, lowest first.
fn move_words(m: &mut [u32], from: usize, to: usize, n: usize) {
    if repeats(from, to, n) {
        for i in 0..n {
            m[to + i] = m[from + i];
        }
    } else {
        m.copy_within(from..from + n, to);
    }
}

/// Moves n words from an address to a word, where nothing repeats: each is made of the two that its bytes lie in.
fn merge_words(m: &mut [u32], address: usize, to: usize, n: usize) {
    let (from, shift) = (address / 4, 8 * (address % 4));
    if shift == 0 || n == 0 {
        return move_words(m, from, to, n);
    }
    let merged = |low: u32, high: u32| low >> shift | high << (32 - shift);
    if from + n < to {
        let (source, target) = m.split_at_mut(to);
        put_pairs(&source[from..from + n + 1], &mut target[..n], merged);
    } else if to + n <= from {
        let (target, source) = m.split_at_mut(from);
        put_pairs(&source[..n + 1], &mut target[to..to + n], merged);
    } else {
        for i in 0..n {
            m[to + i] = merged(m[from + i], m[from + i + 1]);
        }
    }
}

/// Each word of the target is made of two neighbours of the source.
fn put_pairs(source: &[u32], target: &mut [u32], merged: impl Fn(u32, u32) -> u32) {
    for (word, pair) in target.iter_mut().zip(source.windows(2)) {
        *word = merged(pair[0], pair[1]);
    }
}

#[cfg(test)]
mod tests {
    use super::{merge_words, move_words, repeats};
    use crate::machine::{operands::Machine, State, WA, XL, XR};
    use crate::Table;

    /// A memory of different bytes.
    fn memory() -> Vec<u32> {
        (0..32).map(|i: u32| i.wrapping_mul(0x9E37_79B9) ^ 0x0123_4567).collect()
    }

    /// What is due: bytes one by one, lowest first.
    fn moved(m: &[u32], from: usize, to: usize, n: usize) -> Vec<u32> {
        let mut bytes: Vec<u8> = m.iter().flat_map(|w| w.to_le_bytes()).collect();
        for i in 0..n {
            bytes[to + i] = bytes[from + i];
        }
        bytes.chunks(4).map(|b| u32::from_le_bytes([b[0], b[1], b[2], b[3]])).collect()
    }

    /// The memory, XL, XR and WA that a move leaves.
    fn left(words: bool, from: usize, to: usize, n: usize) -> (Vec<u32>, [u32; 3]) {
        let (table, mut m, mut s) = ([0; 8], memory(), State::default());
        (s.regs[XL], s.regs[XR], s.regs[WA]) = (from as u32, to as u32, n as u32);
        let mut machine = Machine { t: Table(&table), m: &mut m, s: &mut s };
        machine.move_block(words).expect("a move in memory");
        (m, [s.regs[XL], s.regs[XR], s.regs[WA]])
    }

    #[test]
    fn moves_are_by_bytes_lowest_first() {
        for from in 0..60 {
            for to in 0..60 {
                for n in 1..68 {
                    let due = (moved(&memory(), from, to, n), [(from + n) as u32, (to + n) as u32, 0]);
                    assert!(left(false, from, to, n) == due, "MVC of {n} from {from} to {to}");
                    if from % 4 + to % 4 + n % 4 == 0 {
                        assert!(left(true, from, to, n) == due, "MVW of {n} from {from} to {to}");
                    }
                }
            }
        }
    }

    #[test]
    fn fills_repeat() {
        assert!(repeats(0, 1, 2) && repeats(4, 7, 4) && !repeats(0, 4, 4) && !repeats(5, 4, 9) && !repeats(3, 3, 9));
        let mut m = [1, 2, 3, 4];
        move_words(&mut m, 0, 1, 3);
        assert_eq!(m, [1; 4]);
        let mut m = [0x4433_2211, 0x8877_6655, 0];
        merge_words(&mut m, 3, 2, 1);
        assert_eq!(m[2], 0x7766_5544);
    }
}
