//! Calls, exits, switches and entries.

use super::operands::{Machine, Operand, Trap};
use super::WA;
use crate::{kind, ENTRY_BASE, MAX_LINKS};

/// How a step leaves the machine: at the next place, or waiting.
pub enum Next {
    At(usize),
    Waits,
}

impl Machine<'_> {
    /// The place of the ENT that an address names.
    #[inline(always)]
    pub fn entry_place(&self, v: u32) -> Option<usize> {
        let p = v.checked_sub(ENTRY_BASE)? as usize;
        if !p.is_multiple_of(4) || p / 4 >= self.t.size() || self.t.entry(p / 4)[0] != 106 {
            return None;
        }
        Some(p / 4)
    }

    /// The exit k of the JSR at place j; 0 is past them all.
    #[inline(always)]
    pub fn take_exit(&mut self, j: usize, k: u32) -> Result<usize, Trap> {
        if k == 0 {
            return Ok(j + self.t.declared(j) as usize + 1);
        }
        let e = self.t.entry(j + k as usize);
        if e[0] == 110 {
            if e[1] == kind::PLACE {
                return Ok(e[3] as usize);
            }
            return Err(26);
        }
        self.s.regs[WA] = e[3];
        Ok(self.t.section(6))
    }

    /// The place of the IFF with value v below the BSW at place p, or its default.
    #[inline(always)]
    pub fn switch(&self, p: usize, v: u32, default: u32) -> Result<usize, Trap> {
        let mut q = p + 1;
        while q < self.t.size() && self.t.entry(q)[0] == 104 {
            let e = self.t.entry(q);
            if e[3] == v {
                return Ok(e[6] as usize);
            }
            q += 1;
        }
        if default != 0 {
            return Ok(default as usize - 1);
        }
        Err(25)
    }

    /// JSR: a link, or waiting for the host.
    #[inline(always)]
    pub fn call(&mut self, p: usize, e: &[u32]) -> Result<Next, Trap> {
        if e[1] == kind::EXTERNAL {
            self.s.waiting = true;
            return Ok(Next::Waits);
        }
        if self.s.links.len() >= MAX_LINKS {
            return Err(27);
        }
        self.s.links.push(p as u32);
        Ok(Next::At(e[3] as usize + 1))
    }

    /// EXI: the link goes where the exit is taken.
    #[inline(always)]
    pub fn leave(&mut self, exit: u32) -> Result<usize, Trap> {
        let j = *self.s.links.last().expect("an open call") as usize;
        let next = self.take_exit(j, exit)?;
        self.s.links.pop();
        Ok(next)
    }

    /// ERB: the code goes to WA, and section 6 is next.
    #[inline(always)]
    pub fn fail(&mut self, code: u32) -> usize {
        self.s.regs[WA] = code;
        self.t.section(6)
    }

    /// SSS: the oldest links stay.
    #[inline(always)]
    pub fn keep_links(&mut self, a: &Operand) -> Result<(), Trap> {
        let v = self.fetch(a)? as usize;
        if v > self.s.links.len() {
            return Err(28);
        }
        self.s.links.truncate(v);
        Ok(())
    }

    /// BRI: the place of the entry that an operand names.
    #[inline(always)]
    pub fn enter(&mut self, a: &Operand) -> Result<usize, Trap> {
        let v = self.fetch(a)?;
        self.entry_place(v).ok_or(24)
    }

    /// LEI: X becomes the value of the entry that it names.
    #[inline(always)]
    pub fn load_entry(&mut self, x: usize) -> Result<(), Trap> {
        let q = self.entry_place(self.s.regs[x]).ok_or(24u32)?;
        let f = self.t.entry(q);
        if f[1] != kind::VALUE {
            return Err(24);
        }
        self.s.regs[x] = f[3];
        Ok(())
    }
}
