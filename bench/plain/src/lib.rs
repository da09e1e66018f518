//! MINIMAL's house machine in plain Rust, written from the papers and not from the proved crates: what tests and benchmarks compare with.
//! Every index is checked, and nothing is proved.

pub mod assemble;
pub mod check;
pub mod host;
pub mod machine;
pub mod ops;
pub mod snapshot;

/// Supplied values.
pub const CFP_A: u32 = 256;
pub const CFP_B: u32 = 4;
pub const CFP_F: u32 = 8;
pub const CFP_M: u32 = 2_147_483_647;
pub const CFP_N: u32 = 32;
pub const ENTRY_BASE: u32 = 1_073_741_824;

/// Limits.
pub const MIN_MEMORY: usize = 256;
pub const MAX_MEMORY: usize = 8192;
pub const STACK_WORDS: usize = 64;
pub const MAX_LINKS: usize = 256;
pub const MAX_BUDGET: u32 = 1_000_000;
pub const MAX_OPERATIONS: usize = 1024;
pub const MAX_FRESH: usize = 32;
pub const MAX_EXTERNALS: usize = 512;
pub const MAX_WORDS: usize = 8128;

/// Kinds of operands in a table.
pub mod kind {
    pub const NONE: u32 = 0;
    pub const VALUE: u32 = 1;
    pub const ADDRESS: u32 = 3;
    pub const PLACE: u32 = 6;
    pub const X: u32 = 7;
    pub const W: u32 = 8;
    pub const INDIRECT: u32 = 9;
    pub const RISING: u32 = 10;
    pub const FALLING: u32 = 11;
    pub const INDEXED: u32 = 12;
    pub const EXTERNAL: u32 = 23;
}

/// The words of a table, by name.
#[derive(Clone, Copy)]
pub struct Table<'a>(pub &'a [u32]);

impl<'a> Table<'a> {
    fn word(self, i: usize) -> u32 {
        self.0.get(i).copied().unwrap_or(0)
    }

    pub fn size(self) -> usize {
        self.word(0) as usize
    }

    pub fn constants(self) -> usize {
        self.word(1) as usize
    }

    pub fn workings(self) -> usize {
        self.word(2) as usize
    }

    pub fn fresh_count(self) -> usize {
        self.word(3) as usize
    }

    pub fn externals(self) -> usize {
        self.word(4) as usize
    }

    /// The start place of section 4, 5 or 6.
    pub fn section(self, k: usize) -> usize {
        self.word(k + 1) as usize
    }

    pub fn entry(self, p: usize) -> &'a [u32] {
        &self.0[8 + 8 * p..16 + 8 * p]
    }

    pub fn fresh(self, i: usize) -> u32 {
        self.word(8 + 8 * self.size() + i)
    }

    pub fn exit_count(self, i: usize) -> u32 {
        self.word(8 + 8 * self.size() + self.fresh_count() + i)
    }

    pub fn start_word(self, i: usize) -> u32 {
        self.word(8 + 8 * self.size() + self.fresh_count() + self.externals() + i)
    }

    /// How many exits the callee of the JSR at place j declares.
    pub fn declared(self, j: usize) -> u32 {
        let e = self.entry(j);
        if e[1] == kind::PLACE {
            self.entry(e[3] as usize)[3]
        } else {
            self.exit_count(e[3] as usize)
        }
    }
}
