//! Operations on reals: RA, a double, and its overflow flag.

use super::operands::{Machine, Operand, Trap};
use crate::CFP_B;

impl Machine<'_> {
    #[inline(always)]
    pub fn real(&self) -> f64 {
        self.s.real()
    }

    /// What an operation answers: a finite value goes to RA; any other is overflow, and RA stays.
    #[inline(always)]
    pub fn settle(&mut self, x: f64) {
        self.s.real_flag = !x.is_finite();
        if x.is_finite() {
            self.s.ra = x.to_bits();
        }
    }

    /// Where the first word of a pair is; the second lies in memory too.
    #[inline(always)]
    fn pair(&mut self, o: &Operand) -> Result<usize, Trap> {
        let a = self.address(o, CFP_B);
        let i = self.index(a)?;
        self.index(a + CFP_B as u64)?;
        Ok(i)
    }

    /// LDR, ADR, SBR, MLR, DVR; a quotient by zero is not finite.
    #[inline(always)]
    pub fn calculate(&mut self, number: u32, o: &Operand) -> Result<(), Trap> {
        let i = self.pair(o)?;
        let v = f64::from_bits(self.m[i] as u64 | (self.m[i + 1] as u64) << 32);
        let ra = self.real();
        self.settle(match number {
            _ if !v.is_finite() => v,
            501 => v,
            503 => ra + v,
            504 => ra - v,
            505 => ra * v,
            _ => ra / v,
        });
        Ok(())
    }

    #[inline(always)]
    pub fn store_real(&mut self, o: &Operand) -> Result<(), Trap> {
        let i = self.pair(o)?;
        self.write(i, self.s.ra as u32)?;
        self.write(i + 1, (self.s.ra >> 32) as u32)
    }

    #[inline(always)]
    pub fn real_is(&self, number: u32) -> bool {
        let x = self.real();
        match number {
            507 => self.s.real_flag,
            508 => !self.s.real_flag,
            510 => x == 0.0,
            511 => x >= 0.0,
            512 => x > 0.0,
            513 => x <= 0.0,
            514 => x < 0.0,
            _ => x != 0.0,
        }
    }

    /// RTI: IA becomes the whole part of RA; whether that is out of range.
    #[inline(always)]
    pub fn whole_out(&mut self) -> bool {
        let whole = self.real().trunc();
        let over = whole < i32::MIN as f64 || whole > i32::MAX as f64;
        if !over {
            self.s.ia = whole as i32 as u32;
        }
        over
    }
}
