//! The table check, and what the state check asks of a table.

use crate::machine::State;
use crate::ops::{by_number, Class, Row, Slot};
use crate::{kind, Table, CFP_M, MAX_EXTERNALS, MAX_FRESH, MAX_OPERATIONS, MAX_WORDS};

/// The row of each place of a table whose entries lie in it.
struct Shape<'a> {
    t: Table<'a>,
    rows: Vec<&'static Row>,
    /// The body of each place, and what is open past the last: 0 outside, else 1 + the place of the PRC.
    bodies: Vec<usize>,
}

fn field_ok(t: Table, slot: Slot, f: &[u32]) -> bool {
    let (k, r, v) = (f[0], f[1], f[2]);
    if !slot.takes_kind(k) {
        return false;
    }
    let words = 4 * (t.constants() + t.workings()) as u64;
    let register = match k {
        kind::X | kind::INDIRECT | kind::RISING | kind::FALLING | kind::INDEXED => (1..=slot.last_x()).contains(&r),
        kind::W => (4..=6).contains(&r),
        _ => r == 0,
    };
    let value = match k {
        kind::VALUE => v <= slot.largest(),
        kind::ADDRESS => (v as u64) < words && v % 4 == 0,
        kind::PLACE => (v as usize) < t.size(),
        kind::INDEXED => v <= CFP_M && v % 4 == 0,
        kind::EXTERNAL => (v as usize) < t.externals(),
        _ => v == 0,
    };
    register && value
}

fn moves(k: u32) -> bool {
    k == kind::RISING || k == kind::FALLING
}

fn layout_ok(t: Table) -> bool {
    if t.0.len() < 8 {
        return false;
    }
    let (n, fresh, externals) = (t.size(), t.fresh_count(), t.externals());
    let words = t.constants() as u64 + t.workings() as u64;
    if n > MAX_OPERATIONS || fresh > MAX_FRESH || externals > MAX_EXTERNALS || words > MAX_WORDS as u64 {
        return false;
    }
    if t.0.len() != 8 + 8 * n + fresh + externals + words as usize {
        return false;
    }
    let (s4, s5, s6) = (t.section(4), t.section(5), t.section(6));
    if !(s4 == 0 && s4 < s5 && s5 < s6 && s6 < n) {
        return false;
    }
    let mut low = 4 * t.constants() as u64;
    for i in 0..fresh {
        let a = t.fresh(i) as u64;
        if a < low || a >= 4 * words || !a.is_multiple_of(4) || t.start_word(a as usize / 4) != 0 {
            return false;
        }
        low = a + 1;
    }
    (0..externals).all(|i| t.exit_count(i) <= CFP_M)
}

impl Shape<'_> {
    fn new(t: Table) -> Option<Shape> {
        let mut rows = Vec::with_capacity(t.size());
        let mut bodies = vec![0];
        let mut body = 0;
        for p in 0..t.size() {
            let row = by_number(t.entry(p)[0])?;
            rows.push(row);
            match row.class {
                Class::Prc => body = p + 1,
                Class::Enp => body = 0,
                _ => {}
            }
            bodies.push(body);
        }
        Some(Shape { t, rows, bodies })
    }

    fn class(&self, p: usize) -> Option<Class> {
        self.rows.get(p).map(|r| r.class)
    }

    fn arrives(&self, p: usize) -> bool {
        self.class(p).is_some_and(Class::arrives)
    }

    fn reaches(&self, p: usize, q: usize) -> bool {
        self.arrives(q) && self.bodies[q] == self.bodies[p]
    }

    fn outside(&self, q: usize) -> bool {
        self.arrives(q) && self.bodies[q] == 0
    }

    fn is_exit(&self, p: usize) -> bool {
        matches!(self.class(p), Some(Class::Ppm | Class::Err))
    }

    fn list_ok(&self, p: usize, k: u32) -> bool {
        (0..k as usize).all(|i| self.is_exit(p + 1 + i)) && !self.is_exit(p + 1 + k as usize)
    }

    fn jsr_ok(&self, p: usize, e: &[u32]) -> bool {
        if e[1] == kind::PLACE && self.class(e[3] as usize) != Some(Class::Prc) {
            return false;
        }
        let k = self.t.declared(p);
        self.list_ok(p, k) && self.reaches(p, p + 1 + k as usize)
    }

    fn switch_ok(&self, p: usize, e: &[u32]) -> bool {
        let mut seen = std::collections::HashSet::new();
        let mut q = p + 1;
        while self.class(q) == Some(Class::Iff) {
            let v = self.t.entry(q)[3];
            if v >= e[6] || !seen.insert(v) {
                return false;
            }
            q += 1;
        }
        self.class(q) == Some(Class::Esw)
    }

    fn exi_ok(&self, p: usize, e: &[u32]) -> bool {
        let body = self.bodies[p];
        body != 0 && e[3] <= self.t.entry(body - 1)[3] && (e[1] == kind::NONE || e[3] > 0)
    }

    /// The place operands of an entry.
    fn targets(e: &[u32]) -> Vec<usize> {
        let mut to = Vec::new();
        for i in [1, 4] {
            if e[i] == kind::PLACE {
                to.push(e[i + 2] as usize);
            }
        }
        if e[7] != 0 {
            to.push(e[7] as usize - 1);
        }
        to
    }

    fn entry_ok(&self, p: usize) -> bool {
        let e = self.t.entry(p);
        let row = self.rows[p];
        if !field_ok(self.t, row.slots[0], &e[1..4]) || !field_ok(self.t, row.slots[1], &e[4..7]) {
            return false;
        }
        let third = if e[7] == 0 {
            row.slots[2].takes_kind(kind::NONE)
        } else {
            row.slots[2].takes_kind(kind::PLACE) && e[7] as usize <= self.t.size()
        };
        if !third || (moves(e[1]) || moves(e[4])) && e[2] == e[5] {
            return false;
        }
        if (4..=6).any(|k| self.t.section(k) == p) && !self.outside(p) {
            return false;
        }
        let stays = |all: &[usize]| all.iter().all(|&q| self.reaches(p, q));
        let above = p.checked_sub(1).and_then(|q| self.class(q));
        let to = Self::targets(e);
        match row.class {
            Class::Goes | Class::Chk => self.reaches(p, p + 1),
            Class::Forks => self.reaches(p, p + 1) && stays(&to),
            Class::Brn => stays(&to),
            Class::Jmg => to.iter().all(|&q| self.outside(q)),
            Class::Bri | Class::Erb => true,
            Class::Bsw => self.switch_ok(p, e) && stays(&to),
            Class::Ent | Class::Rtn | Class::Sss => self.reaches(p, p + 1) && self.bodies[p] == 0,
            Class::Jsr => self.jsr_ok(p, e),
            Class::Exi => self.exi_ok(p, e),
            Class::Ppm => matches!(above, Some(Class::Jsr | Class::Ppm | Class::Err)) && stays(&to),
            Class::Err => matches!(above, Some(Class::Jsr | Class::Ppm | Class::Err)),
            Class::Iff => matches!(above, Some(Class::Bsw | Class::Iff)) && stays(&to),
            Class::Esw => matches!(above, Some(Class::Bsw | Class::Iff)),
            Class::Prc => self.bodies[p] == 0 && self.arrives(p + 1) && self.bodies[self.t.size()] != p + 1,
            Class::Enp => self.bodies[p] != 0,
        }
    }
}

/// The table check.
pub fn check_table(t: &[u32]) -> bool {
    let t = Table(t);
    layout_ok(t) && Shape::new(t).is_some_and(|s| (0..t.size()).all(|p| s.entry_ok(p)))
}

/// The place, the links and the waiting of a state, on a table that passes its check.
pub fn body_of_links_ok(t: Table, s: &State) -> bool {
    let Some(shape) = Shape::new(t) else {
        return false;
    };
    // 1 + the place of the procedure that the JSR at j calls
    let opens = |j: u32| -> usize {
        let j = j as usize;
        if shape.class(j) != Some(Class::Jsr) || t.entry(j)[1] != kind::PLACE {
            return 0;
        }
        t.entry(j)[3] as usize + 1
    };
    let mut top = 0;
    for &j in &s.links {
        let called = opens(j);
        if called == 0 {
            return false;
        }
        let body = shape.bodies[j as usize];
        if body != 0 && body != top {
            return false;
        }
        top = called;
    }
    let p = s.pc as usize;
    if !shape.arrives(p) {
        return false;
    }
    let body = shape.bodies[p];
    if body != 0 && body != top {
        return false;
    }
    !s.waiting || shape.class(p) == Some(Class::Jsr) && t.entry(p)[1] == kind::EXTERNAL
}
