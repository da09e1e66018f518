//! Operands: what each reads, and what it writes.

use super::State;
use crate::{kind, Table, CFP_B};

/// The number of an ending.
pub type Trap = u32;

pub struct Operand {
    pub kind: u32,
    pub reg: usize,
    pub val: u32,
}

/// The operand whose kind is word i of an entry.
pub fn operand(e: &[u32], i: usize) -> Operand {
    Operand { kind: e[i], reg: e[i + 1] as usize, val: e[i + 2] }
}

/// The machine at work.
pub struct Machine<'a> {
    pub t: Table<'a>,
    pub m: &'a mut [u32],
    pub s: &'a mut State,
}

impl Machine<'_> {
    /// The address of an operand in memory; X moves by `size` with (X)+ and -(X).
    #[inline(always)]
    pub fn address(&mut self, o: &Operand, size: u32) -> u64 {
        let x = self.s.regs[o.reg];
        match o.kind {
            kind::ADDRESS => o.val as u64,
            kind::INDIRECT => x as u64,
            kind::RISING => {
                self.s.regs[o.reg] = x.wrapping_add(size);
                x as u64
            }
            kind::FALLING => {
                let a = x.wrapping_sub(size);
                self.s.regs[o.reg] = a;
                a as u64
            }
            _ => x as u64 + o.val as u64,
        }
    }

    #[inline(always)]
    pub fn index(&self, a: u64) -> Result<usize, Trap> {
        let i = (a / 4) as usize;
        if !a.is_multiple_of(4) || i >= self.m.len() {
            return Err(22);
        }
        Ok(i)
    }

    #[inline(always)]
    pub fn fetch(&mut self, o: &Operand) -> Result<u32, Trap> {
        match o.kind {
            kind::NONE | kind::VALUE => Ok(o.val),
            kind::X | kind::W => Ok(self.s.regs[o.reg]),
            _ => {
                let a = self.address(o, CFP_B);
                let i = self.index(a)?;
                Ok(self.m[i])
            }
        }
    }

    #[inline(always)]
    pub fn write(&mut self, i: usize, v: u32) -> Result<(), Trap> {
        if i < self.t.constants() {
            return Err(23);
        }
        self.m[i] = v;
        Ok(())
    }

    #[inline(always)]
    pub fn store(&mut self, o: &Operand, v: u32) -> Result<(), Trap> {
        match o.kind {
            kind::X | kind::W => {
                self.s.regs[o.reg] = v;
                Ok(())
            }
            _ => {
                let a = self.address(o, CFP_B);
                let i = self.index(a)?;
                self.write(i, v)
            }
        }
    }

    /// o becomes f of itself.
    #[inline(always)]
    pub fn change(&mut self, o: &Operand, f: impl FnOnce(u32) -> u32) -> Result<u32, Trap> {
        match o.kind {
            kind::X | kind::W => {
                let v = f(self.s.regs[o.reg]);
                self.s.regs[o.reg] = v;
                Ok(v)
            }
            _ => {
                let a = self.address(o, CFP_B);
                let i = self.index(a)?;
                let v = f(self.m[i]);
                self.write(i, v)?;
                Ok(v)
            }
        }
    }

    #[inline(always)]
    pub fn byte_index(&self, a: u64) -> Result<(usize, u32), Trap> {
        let i = (a / 4) as usize;
        if i >= self.m.len() {
            return Err(22);
        }
        Ok((i, 8 * (a % 4) as u32))
    }

    #[inline(always)]
    pub fn byte(&self, a: u64) -> u32 {
        self.m[(a / 4) as usize] >> (8 * (a % 4)) & 255
    }

    #[inline(always)]
    pub fn set_byte(&mut self, a: u64, v: u32) {
        let s = 8 * (a % 4);
        let w = &mut self.m[(a / 4) as usize];
        *w = *w & !(255 << s) | (v & 255) << s;
    }

    /// n bytes from address a lie in memory.
    #[inline(always)]
    pub fn fits(&self, a: u32, n: u32) -> bool {
        a as u64 + n as u64 <= 4 * self.m.len() as u64
    }
}
