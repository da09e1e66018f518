//! Operations on words, integers, characters and bits.

use super::operands::{Machine, Operand, Trap};
use super::{WA, WB};
use crate::{CFP_B, CFP_F, CFP_M};

/// A word as a signed number.
fn signed(w: u32) -> i64 {
    w as i32 as i64
}

impl Machine<'_> {
    #[inline(always)]
    pub fn signed(&self) -> i64 {
        signed(self.s.ia)
    }

    /// IA and the flag after a sum, a product or a quotient.
    #[inline(always)]
    pub fn accumulate(&mut self, r: i64) {
        self.s.ia = r as u32;
        self.s.flag = r < i32::MIN as i64 || r > i32::MAX as i64;
    }

    /// `to` becomes `from`.
    #[inline(always)]
    pub fn copy(&mut self, from: &Operand, to: &Operand) -> Result<(), Trap> {
        let v = self.fetch(from)?;
        self.store(to, v)
    }

    #[inline(always)]
    pub fn bump(&mut self, o: &Operand, by: u32) -> Result<(), Trap> {
        self.change(o, |w| w.wrapping_add(by)).map(drop)
    }

    #[inline(always)]
    pub fn sum(&mut self, a: &Operand, b: &Operand, f: impl FnOnce(u32, u32) -> u32) -> Result<(), Trap> {
        let v = self.fetch(a)?;
        self.change(b, |w| f(w, v)).map(drop)
    }

    /// AOV: whether the true sum exceeds CFP$M.
    #[inline(always)]
    pub fn sum_over(&mut self, a: &Operand, b: &Operand) -> Result<bool, Trap> {
        let v = self.fetch(a)?;
        let mut over = false;
        self.change(b, |w| {
            over = w as u64 + v as u64 > CFP_M as u64;
            w.wrapping_add(v)
        })?;
        Ok(over)
    }

    #[inline(always)]
    pub fn compare(&mut self, number: u32, a: &Operand, b: &Operand) -> Result<bool, Trap> {
        let v = self.fetch(a)?;
        let w = self.fetch(b)?;
        Ok(match number {
            205 | 606 => v == w,
            206 | 607 => v != w,
            207 | 212 => v > w,
            208 => v >= w,
            209 | 211 => v < w,
            _ => v <= w,
        })
    }

    #[inline(always)]
    pub fn reckon(&mut self, number: u32, a: &Operand) -> Result<(), Trap> {
        let v = signed(self.fetch(a)?);
        let i = self.signed();
        self.accumulate(match number {
            402 => i + v,
            403 => i * v,
            _ => i - v,
        });
        Ok(())
    }

    /// DVI and RMI: by 0 IA stays and the flag is on; the one quotient out of range is -2147483648 by -1.
    #[inline(always)]
    pub fn divide(&mut self, number: u32, a: &Operand) -> Result<(), Trap> {
        let v = signed(self.fetch(a)?);
        let i = self.signed();
        match number {
            _ if v == 0 => self.s.flag = true,
            405 => self.accumulate(i / v),
            _ => (self.s.ia, self.s.flag) = ((i % v) as u32, false),
        }
        Ok(())
    }

    #[inline(always)]
    pub fn integer_is(&self, number: u32) -> bool {
        let i = self.signed();
        match number {
            409 => !self.s.flag,
            410 => self.s.flag,
            411 => i == 0,
            412 => i >= 0,
            413 => i > 0,
            414 => i <= 0,
            415 => i < 0,
            _ => i != 0,
        }
    }

    /// MFI: whether IA is out of range.
    #[inline(always)]
    pub fn integer_out(&mut self, a: &Operand) -> Result<bool, Trap> {
        let i = self.s.ia;
        let over = i > CFP_M;
        if over {
            self.change(a, |w| w)?;
        } else {
            self.store(a, i)?;
        }
        self.s.ia = 0;
        Ok(over)
    }

    #[inline(always)]
    pub fn past_header(&mut self, x: usize, b: &Operand) -> Result<(), Trap> {
        let v = self.fetch(b)?;
        let x = &mut self.s.regs[x];
        *x = x.wrapping_add(CFP_F).wrapping_add(v);
        Ok(())
    }

    #[inline(always)]
    pub fn load_character(&mut self, r: usize, b: &Operand) -> Result<(), Trap> {
        let at = self.address(b, 1);
        let (i, shift) = self.byte_index(at)?;
        self.s.regs[r] = self.m[i] >> shift & 255;
        Ok(())
    }

    #[inline(always)]
    pub fn store_character(&mut self, r: usize, b: &Operand) -> Result<(), Trap> {
        let v = self.s.regs[r];
        let at = self.address(b, 1);
        let (i, shift) = self.byte_index(at)?;
        let w = self.m[i] & !(255 << shift) | (v & 255) << shift;
        self.write(i, w)
    }

    #[inline(always)]
    pub fn bits(&mut self, number: u32, a: &Operand, w: usize) -> Result<(), Trap> {
        let v = self.fetch(a)?;
        let w = &mut self.s.regs[w];
        match number {
            701 => *w &= v,
            702 => *w |= v,
            _ => *w ^= v,
        }
        Ok(())
    }

    #[inline(always)]
    pub fn shift(&mut self, number: u32, w: usize, b: &Operand) -> Result<(), Trap> {
        let n = self.fetch(b)?;
        let w = &mut self.s.regs[w];
        *w = match number {
            705 | 707 => w.checked_shr(n).unwrap_or(0),
            _ => w.checked_shl(n).unwrap_or(0),
        };
        Ok(())
    }

    /// The words that W characters take, and v more, times `unit`.
    #[inline(always)]
    pub fn words_for(&mut self, w: usize, v: u32, unit: u32) {
        let words = (self.s.regs[w] as u64).div_ceil(CFP_B as u64) + v as u64;
        self.s.regs[w] = words.wrapping_mul(unit as u64) as u32;
    }

    /// CVM: IA becomes 10 IA less the digit in WB; whether that is out of range.
    #[inline(always)]
    pub fn take_digit(&mut self) -> Result<bool, Trap> {
        let wb = self.s.regs[WB];
        let i = self.signed();
        if i > 0 || !(48..=57).contains(&wb) {
            return Err(29);
        }
        let r = i * 10 - (wb as i64 - 48);
        self.s.regs[WB] = 0;
        let over = r < i32::MIN as i64;
        if !over {
            self.s.ia = r as u32;
        }
        Ok(over)
    }

    /// CVD: the last digit of IA goes to WA.
    #[inline(always)]
    pub fn give_digit(&mut self) -> Result<(), Trap> {
        let i = self.signed();
        if i > 0 {
            return Err(29);
        }
        self.s.ia = (i / 10) as u32;
        self.s.regs[WA] = (48 - i % 10) as u32;
        Ok(())
    }
}
