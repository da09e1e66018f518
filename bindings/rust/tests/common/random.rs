//! Random numbers, and how many cases a test tries.

/// Numbers that look random, from a seed.
pub struct Random(u64);

impl Random {
    pub fn new(seed: u64) -> Random {
        Random(seed.wrapping_mul(0x9E37_79B9_7F4A_7C15) | 1)
    }

    pub fn next(&mut self) -> u64 {
        self.0 ^= self.0 << 13;
        self.0 ^= self.0 >> 7;
        self.0 ^= self.0 << 17;
        self.0.wrapping_mul(0x2545_F491_4F6C_DD1D)
    }

    /// A number below n.
    pub fn below(&mut self, n: usize) -> usize {
        ((self.next() >> 33) % n as u64) as usize
    }

    /// True once in n.
    pub fn once_in(&mut self, n: usize) -> bool {
        self.below(n) == 0
    }

    pub fn pick<'a, T>(&mut self, all: &'a [T]) -> &'a T {
        &all[self.below(all.len())]
    }
}

/// Cases of a test: all of them, or with TORZIMLAK_SHARE=20 in the environment, as valgrind's run has it, one in twenty.
pub fn cases(all: usize) -> usize {
    all.div_ceil(share())
}

/// One in how many cases is tried.
pub fn share() -> usize {
    std::env::var("TORZIMLAK_SHARE").map_or(1, |s| s.parse().expect("TORZIMLAK_SHARE is a number from 1"))
}
