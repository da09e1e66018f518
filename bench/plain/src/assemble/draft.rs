//! The entries of all places, and the shape rules over them.

use super::cards::{Card, Operation};
use super::operands::{outcomes, value, Outcome::Gives};
use super::symbols::{Sort, Symbols};
use crate::kind;
use crate::ops::{Beside, Class};

/// The entries of all places, as far as they are given, and what shape rules ask of them.
pub struct Draft {
    pub entries: Vec<[u32; 8]>,
    classes: Vec<Class>,
    /// 1 + the place of the PRC that is open at each place and past the last, 0 outside procedures.
    bodies: Vec<usize>,
    pub sections: [usize; 3],
    pub exit_counts: Vec<u32>,
}

impl Draft {
    fn class(&self, p: usize) -> Option<Class> {
        self.classes.get(p).copied()
    }

    fn reaches(&self, p: usize, q: usize) -> bool {
        self.class(q).is_some_and(Class::arrives) && self.bodies[q] == self.bodies[p]
    }

    fn outside(&self, q: usize) -> bool {
        self.class(q).is_some_and(Class::arrives) && self.bodies[q] == 0
    }

    fn is_exit(&self, q: usize) -> bool {
        matches!(self.class(q), Some(Class::Ppm | Class::Err))
    }

    /// The exits below the JSR at place p are not k, or it cannot go on past them.
    fn list_fault(&self, p: usize, k: usize) -> u32 {
        if !(1..=k).all(|i| self.is_exit(p + i)) || self.is_exit(p + 1 + k) {
            return 6;
        }
        if self.reaches(p, p + 1 + k) {
            0
        } else {
            7
        }
    }

    fn switch_ok(&self, p: usize) -> bool {
        let limit = self.entries[p][6];
        let mut seen = std::collections::HashSet::new();
        let mut q = p + 1;
        while self.class(q) == Some(Class::Iff) {
            let e = self.entries[q];
            if e[1] == kind::VALUE && (e[3] >= limit || !seen.insert(e[3])) {
                return false;
            }
            q += 1;
        }
        self.class(q) == Some(Class::Esw)
    }

    /// The places that the card at place p may branch to.
    fn targets(&self, p: usize) -> Vec<usize> {
        let e = self.entries[p];
        let mut all = vec![];
        for i in [1, 4] {
            if e[i] == kind::PLACE && self.classes[p] != Class::Jsr {
                all.push(e[i + 2] as usize);
            }
        }
        if e[7] != 0 {
            all.push(e[7] as usize - 1);
        }
        all
    }

    /// An exit number that is 0 or above the declared count.
    fn exit_unfit(&self, p: usize) -> bool {
        let (e, body) = (self.entries[p], self.bodies[p]);
        let over = body != 0 && e[3] > self.entries[body - 1][3];
        over || e[1] == kind::VALUE && e[3] == 0
    }

    /// The rule of its class, for a place without the faults 4 and 6.
    fn class_ok(&self, p: usize) -> bool {
        let targets = self.targets(p);
        let above = p.checked_sub(1).and_then(|q| self.class(q));
        let stays = targets.iter().all(|&q| self.reaches(p, q));
        let on = self.reaches(p, p + 1);
        let outside = self.bodies[p] == 0;
        match self.classes[p] {
            Class::Goes | Class::Chk => on,
            Class::Forks => on && stays,
            Class::Brn | Class::Bsw => stays,
            Class::Jmg => targets.iter().all(|&q| self.outside(q)),
            Class::Bri | Class::Erb | Class::Jsr => true,
            Class::Ent | Class::Rtn | Class::Sss => on && outside,
            Class::Exi | Class::Enp => !outside,
            Class::Ppm => matches!(above, Some(Class::Jsr | Class::Ppm | Class::Err)) && stays,
            Class::Err => matches!(above, Some(Class::Jsr | Class::Ppm | Class::Err)),
            Class::Iff => matches!(above, Some(Class::Bsw | Class::Iff)) && stays,
            Class::Esw => matches!(above, Some(Class::Bsw | Class::Iff)),
            Class::Prc => {
                let closed = self.bodies[self.classes.len()] != p + 1;
                outside && self.class(p + 1).is_some_and(Class::arrives) && closed
            }
        }
    }

    /// The smallest number of a shape rule that the place breaks, or 0; `count` is the number of exits that its JSR must
    /// have, if known.
    pub fn fault(&self, p: usize, count: Option<usize>) -> u32 {
        let low = match self.classes[p] {
            Class::Exi if self.exit_unfit(p) => 4,
            Class::Jsr => count.map_or(0, |k| self.list_fault(p, k)),
            Class::Bsw if !self.switch_ok(p) => 6,
            _ => 0,
        };
        if low != 0 {
            return low;
        }
        let e = self.entries[p];
        let moves = |k: u32| k == kind::RISING || k == kind::FALLING;
        let apart = !((moves(e[1]) || moves(e[4])) && e[2] == e[5]);
        let starts = !self.sections.contains(&p) || self.outside(p);
        if apart && starts && self.class_ok(p) {
            0
        } else {
            7
        }
    }
}

/// The entry of a card as far as its operands give it, NGI where it has none.
fn entry(symbols: &Symbols, c: &Card) -> ([u32; 8], Class) {
    let Operation::Row(row) = c.operation else {
        return ([408, 0, 0, 0, 0, 0, 0, 0], Class::Goes);
    };
    let mut all = outcomes(symbols, c);
    if row.beside == Beside::Type {
        all.remove(0);
    }
    let mut e = [row.number, 0, 0, 0, 0, 0, 0, 0];
    for (i, o) in all.iter().take(2).enumerate() {
        if let Gives(k, r, v) = o {
            e[1 + 3 * i..4 + 3 * i].copy_from_slice(&[*k, *r, *v]);
        }
    }
    if let Some(Gives(kind::PLACE, _, v)) = all.get(2) {
        e[7] = v + 1;
    }
    if row.class == Class::Prc {
        if let Some(x) = c.label.and_then(|l| symbols.get(&l)).map(|all| all[0]).filter(|x| x.sort == Sort::Internal) {
            e[1..4].copy_from_slice(&[kind::VALUE, 0, x.value as u32]);
        }
    }
    (e, row.class)
}

/// The draft of all cards that hold a place.
pub fn draft(symbols: &Symbols, cards: &[Card]) -> Draft {
    let placed = || cards.iter().filter(|c| c.holds_place());
    let (entries, classes): (Vec<_>, Vec<_>) = placed().map(|c| entry(symbols, c)).unzip();
    let mut bodies = vec![0];
    for (p, c) in classes.iter().enumerate() {
        bodies.push(match c {
            Class::Prc => p + 1,
            Class::Enp => 0,
            _ => bodies[p],
        });
    }
    let below = |k: usize| placed().filter(|c| c.opened <= k).count();
    let exit_counts = cards.iter().filter(|c| c.is_external()).map(|c| value(outcomes(symbols, c).get(1))).collect();
    Draft { entries, classes, bodies, sections: [0, below(5), below(6)], exit_counts }
}
