//! One step: the operation at the place, by its number.

use super::control::Next;
use super::operands::{operand, Machine, Trap};
use super::XS;
use crate::{kind, CFP_B};

impl Machine<'_> {
    /// The operation at the place; registers are put back by the caller where it is stopped.
    #[inline(always)]
    pub fn obey(&mut self) -> Result<Next, Trap> {
        let p = self.s.pc as usize;
        let e = self.t.entry(p);
        let (a, b, third) = (operand(e, 1), operand(e, 4), e[7].wrapping_sub(1));
        let on = p + 1;
        let branch = |taken: bool, place: u32| if taken { place as usize } else { on };
        let mut next = on;
        match e[0] {
            101 => self.copy(&a, &b)?,                               // MOV
            102 | 123 => next = a.val as usize,                      // BRN JMG
            103 => next = self.switch(p, self.s.regs[a.reg], e[7])?, // BSW
            106 | 122 | 605 | 711 | 809 => {}                        // ENT RTN CSC ZGB BTC
            107 => next = self.enter(&a)?,                           // BRI
            108 => self.load_entry(a.reg)?,                          // LEI
            109 => return self.call(p, e),                           // JSR
            112 => next = self.leave(a.val)?,                        // EXI
            115 => next = self.fail(a.val),                          // ERB
            116 => self.bump(&a, 1)?,                                // ICV
            117 => self.bump(&a, 1u32.wrapping_neg())?,              // DCV
            118 => self.store(&a, 0)?,                               // ZER
            119 => self.store(&a, 1)?,                               // MNZ
            120 => self.store(&a, self.s.links.len() as u32)?,       // SSL
            121 => self.keep_links(&a)?,                             // SSS
            201 => self.sum(&a, &b, u32::wrapping_add)?,             // ADD
            202 => self.sum(&a, &b, u32::wrapping_sub)?,             // SUB
            203 => self.bump(&a, CFP_B)?,                            // ICA
            204 => self.bump(&a, CFP_B.wrapping_neg())?,             // DCA
            // BEQ BNE BGT BGE BLT BLE BLO BHI CEQ CNE
            205..=212 | 606 | 607 => next = branch(self.compare(e[0], &a, &b)?, third),
            213 | 709 => next = branch(self.fetch(&a)? != 0, b.val), // BNZ NZB
            214 | 710 => next = branch(self.fetch(&a)? == 0, b.val), // BZE ZRB
            215 => self.copy(&b, &a)?,                               // LCT
            216 => next = branch(self.change(&a, |w| w.wrapping_sub(1))? != 0, b.val), // BCT
            217 => next = branch(self.sum_over(&a, &b)?, third),     // AOV
            401 | 803 => self.s.ia = self.fetch(&a)?,                // LDI MTI
            402..=404 => self.reckon(e[0], &a)?,                     // ADI MLI SBI
            405 | 406 => self.divide(e[0], &a)?,                     // DVI RMI
            407 => self.store(&a, self.s.ia)?,                       // STI
            408 => self.accumulate(-self.signed()),                  // NGI
            409..=416 => next = branch(self.integer_is(e[0]), a.val), // INO IOV IEQ IGE IGT ILE ILT INE
            501 | 503..=506 => self.calculate(e[0], &a)?,            // LDR ADR SBR MLR DVR
            502 => self.store_real(&a)?,                             // STR
            507..=508 | 510..=515 => next = branch(self.real_is(e[0]), a.val), // ROV RNO REQ RGE RGT RLE RLT RNE
            509 => self.settle(-self.real()),                        // NGR
            601 | 602 => self.past_header(a.reg, &b)?,               // PLC PSC
            603 => self.load_character(a.reg, &b)?,                  // LCH
            604 => self.store_character(a.reg, &b)?,                 // SCH
            608 => next = self.compare_characters(e, on)?,           // CMC
            609 => self.translate()?,                                // TRC
            701..=703 => self.bits(e[0], &a, b.reg)?,                // ANB ORB XOB
            704 => self.s.regs[a.reg] = !self.s.regs[a.reg],         // CMB
            705..=708 => self.shift(e[0], a.reg, &b)?,               // RSH LSH RSX LSX
            801 | 810 => self.s.regs[a.reg] = self.s.regs[a.reg].wrapping_mul(CFP_B), // WTB WTC
            802 => self.s.regs[a.reg] /= CFP_B,                      // BTW
            804 => next = branch(self.integer_out(&a)? && b.kind == kind::PLACE, b.val), // MFI
            805 => self.settle(self.signed() as f64),                // ITR
            806 => next = branch(self.whole_out() && a.kind == kind::PLACE, a.val), // RTI
            807 => self.words_for(a.reg, b.val, 1),                  // CTW
            808 => self.words_for(a.reg, b.val, CFP_B),              // CTB
            811 => next = branch(self.take_digit()?, a.val),         // CVM
            812 => self.give_digit()?,                               // CVD
            901 => self.move_block(false)?,                          // MVC
            903 => self.move_block(true)?,                           // MVW
            1001 => next = branch(self.stack_low(), self.t.section(5) as u32), // CHK
            n => unreachable!("operation {n} is never arrived at"),
        }
        Ok(Next::At(next))
    }

    /// XS lies below the last 48 words.
    fn stack_low(&self) -> bool {
        self.s.regs[XS] < CFP_B * (self.m.len() as u32 - 48)
    }
}
