//! The search for the first match of a rule that counts.

use crate::config::Config;
use crate::program::{var, Row, Rule};
use crate::ANY;

/// One search of one rule. PLUS: a failure tells which variables it looked at, and a row that gave none
/// of them a value is not tried with another candidate (backjumping), and a long search makes itself
/// filters of the keys alive, so that a row that nothing fits costs no scan. Without it: plain
/// backtracking, each row a scan.
pub struct Search<'a, const PLUS: bool> {
    pub rows: &'a [Row],
    pub config: &'a Config,
    pub rule: &'a Rule,
    pub set: u8,
    pub number: u8,
    pub values: [u16; 8],
    pub bound: u8,
    pub just: [u16; 4],
    pub nj: u8,
    pub scans: u32,
    pub filters: &'a mut Filters,
}

/// Which (p, a), (p, b), (p, a, b) are alive, hashed to 4096 bits each; made after SOON scans.
pub type Filters = [[u64; 64]; 3];
const SOON: u32 = 16;

#[inline]
fn hashed(x: u64) -> usize {
    (x.wrapping_mul(0x9e3779b97f4a7c15) >> 52) as usize
}

/// The answer of a search that has found its match.
pub const FOUND: u16 = 1 << 15;

/// How a column of this row stands against the candidate: fixed to a value, or open (with a variable to
/// set, 8 for none).
#[derive(Clone, Copy)]
enum Column {
    Fixed(u16),
    Open(usize),
}

/// The first place from `at` on whose key fits; eight at a time when the next one does not.
#[inline]
fn next_fit(keys: &[u64], mut at: usize, mask: u64, want: u64) -> usize {
    if at < keys.len() && keys[at] & mask == want {
        return at;
    }
    while let Some(eight) = keys.get(at..at + 8) {
        if eight.iter().fold(false, |hit, k| hit | (k & mask == want)) {
            break;
        }
        at += 8;
    }
    while at < keys.len() && keys[at] & mask != want {
        at += 1;
    }
    at
}

impl<'a, const PLUS: bool> Search<'a, PLUS> {
    #[inline]
    fn column(&self, operand: i32, looked: &mut u16) -> Column {
        if operand >= 0 {
            return Column::Fixed(operand as u16);
        }
        if operand == ANY {
            return Column::Open(8);
        }
        let v = (-operand - 1) as usize & 7;
        if self.bound >> v & 1 != 0 {
            if PLUS {
                *looked |= 1 << v;
            }
            return Column::Fixed(self.values[v]);
        }
        Column::Open(v)
    }

    #[cold]
    fn make_filters(&mut self) {
        *self.filters = [[0; 64]; 3];
        for key in &self.config.keys[..self.config.atom_count] {
            for (filter, mask) in
                self.filters
                    .iter_mut()
                    .zip([0xff_ffff_0000, 0xff_0000_ffff, 0xff_ffff_ffffu64])
            {
                let h = hashed(key & mask);
                filter[h >> 6] |= 1 << (h & 63);
            }
        }
    }

    /// A complete match: does it count?
    fn complete(&mut self) -> u16 {
        if !self.rule.object {
            return FOUND;
        }
        let n = (self.rule.context - self.rule.start) as usize;
        let mut just = [0u16; 4];
        let mut nj = 0;
        for k in 0..n {
            // insertion into a sorted set
            let id = self.just[k];
            let mut at = nj;
            while at > 0 && just[at - 1] > id {
                at -= 1;
            }
            if at > 0 && just[at - 1] == id {
                continue;
            }
            let mut to = nj;
            while to > at {
                just[to] = just[to - 1];
                to -= 1;
            }
            just[at] = id;
            nj += 1;
        }
        let vars = self.rule.body_vars;
        for plan in &self.config.plans[..self.config.plan_count] {
            if plan.rule == self.number
                && plan.set == self.set
                && plan.nj as usize == nj
                && plan.just[..nj] == just[..nj]
            {
                let mut left = vars;
                let mut equal = true;
                while left != 0 {
                    let v = left.trailing_zeros() as usize;
                    equal &= plan.values[v] == self.values[v];
                    left &= left - 1;
                }
                if equal {
                    return vars as u16 | 0x0f00;
                }
            }
        }
        self.just = just;
        self.nj = nj as u8;
        FOUND
    }

    /// FOUND, or the variables (low byte) and reasons (next four bits) that the failure looked at.
    pub fn go(&mut self, r: usize) -> u16 {
        if r == self.rule.body as usize {
            return self.complete();
        }
        let row = &self.rows[r];
        if row.op == 1 || row.op == 2 {
            return self.atoms(r, row);
        }
        self.others(r, row)
    }

    fn atoms(&mut self, r: usize, row: &Row) -> u16 {
        let config = self.config;
        let mut looked = 0u16;
        let i = self.column(row.i, &mut looked);
        let (mut mask, mut want) = (0xffu64 << 32, (row.p as u64) << 32);
        let (va, vb, vi);
        match self.column(row.a, &mut looked) {
            Column::Fixed(x) => {
                mask |= 0xffff << 16;
                want |= (x as u64) << 16;
                va = 8;
            }
            Column::Open(v) => va = v,
        }
        match self.column(row.b, &mut looked) {
            Column::Fixed(x) => {
                mask |= 0xffff;
                want |= x as u64;
                vb = 8;
            }
            Column::Open(v) => vb = v,
        }
        let n = config.atom_count;
        let (mut from, mut to) = (0, n);
        match i {
            Column::Fixed(id) => {
                vi = 8;
                match config.ids[..n].binary_search(&id) {
                    Ok(at) => (from, to) = (at, at + 1),
                    Err(_) => to = 0,
                }
            }
            Column::Open(v) => vi = v,
        }
        if PLUS && to == n && mask != 0xff << 32 {
            self.scans += 1;
            if self.scans == SOON {
                self.make_filters();
            }
            if self.scans >= SOON {
                let which = (mask >> 16 & 1) as usize | ((mask & 1) as usize) << 1;
                let h = hashed(want);
                if self.filters[which - 1][h >> 6] >> (h & 63) & 1 == 0 {
                    to = 0;
                }
            }
        }
        // a new variable in two columns
        let twice = (vi < 8 && (vi == va || vi == vb)) || (va < 8 && va == vb);
        let fits = |at: usize| {
            let key = config.keys[at];
            let (id, a, b) = (config.ids[at], (key >> 16) as u16, key as u16);
            (vi == 8 || ((vi != va || id == a) && (vi != vb || id == b)))
                && (va == 8 || va != vb || a == b)
        };
        if row.op == 2 {
            let mut at = next_fit(&config.keys[..to], from, mask, want);
            while at < to {
                if !twice || fits(at) {
                    return looked;
                }
                at = next_fit(&config.keys[..to], at + 1, mask, want);
            }
            return self.go(r + 1);
        }
        let bound = self.bound;
        let mut new = 0u16;
        let reason = r < self.rule.context as usize;
        let slot = r - self.rule.start as usize;
        for v in [vi, va, vb] {
            if v < 8 {
                new |= 1 << v;
            }
        }
        let inside = bound | new as u8;
        if PLUS && reason {
            new |= 0x100 << slot;
        }
        let mut failure = looked;
        let mut after = from;
        loop {
            let at = next_fit(&config.keys[..to], after, mask, want);
            if at >= to {
                break;
            }
            after = at + 1;
            if twice && !fits(at) {
                continue;
            }
            let key = config.keys[at];
            if vi < 8 {
                self.values[vi] = config.ids[at];
            }
            if va < 8 {
                self.values[va] = (key >> 16) as u16;
            }
            if vb < 8 {
                self.values[vb] = key as u16;
            }
            if reason {
                self.just[slot] = config.ids[at];
            }
            self.bound = inside;
            let rest = self.go(r + 1);
            if rest & FOUND != 0 {
                return FOUND;
            }
            if PLUS {
                if rest & new == 0 {
                    self.bound = bound;
                    return rest;
                }
                failure |= rest & !new;
            }
        }
        self.bound = bound;
        failure
    }

    /// Takes x for this operand: false if it does not fit.
    #[inline]
    fn fit(&mut self, operand: i32, x: u16) -> bool {
        if operand >= 0 {
            return operand as u16 == x;
        }
        if operand == ANY {
            return true;
        }
        let v = (-operand - 1) as usize & 7;
        if self.bound >> v & 1 != 0 {
            return self.values[v] == x;
        }
        self.values[v] = x;
        self.bound |= 1 << v;
        true
    }

    /// Rows 3 to 14: the candidates are plans (or the cycle), at most four each.
    fn others(&mut self, r: usize, row: &Row) -> u16 {
        let config = self.config;
        let negation = row.op & 1 == 0;
        let op = row.op - negation as u16;
        let bound = self.bound;
        let mut looked = 0;
        let (mut from, mut to) = (0, config.plan_count);
        if op == 13 {
            to = 1;
        } else if let Column::Fixed(id) = self.column(row.i, &mut looked) {
            match config.find_plan(id) {
                Some(at) => (from, to) = (at, at + 1),
                None => to = 0,
            }
        }
        let mut new = 0u16;
        if PLUS {
            self.column(row.a, &mut looked);
            self.column(row.b, &mut looked);
            let has_a = op != 11;
            new = (var(row.i)
                | if has_a { var(row.a) } else { 0 }
                | if op == 3 { var(row.b) } else { 0 }) as u16
                & !(bound as u16);
        }
        let mut failure = looked;
        for at in from..to {
            let plan = &config.plans[at];
            let times = if op == 7 { plan.nj as usize } else { 1 };
            for n in 0..times {
                self.bound = bound;
                let fits = match op {
                    3 => {
                        self.fit(row.i, plan.id)
                            && self.fit(row.a, plan.set as u16)
                            && self.fit(row.b, plan.rule as u16)
                    }
                    5 => self.fit(row.i, plan.id) && self.fit(row.a, plan.left as u16),
                    7 => self.fit(row.i, plan.id) && self.fit(row.a, plan.just[n]),
                    9 => plan.sub != 0 && self.fit(row.i, plan.id) && self.fit(row.a, plan.sub),
                    11 => plan.flags >> (row.a - 1) & 1 != 0 && self.fit(row.i, plan.id),
                    _ => self.fit(row.a, config.cycle),
                };
                if !fits {
                    continue;
                }
                if negation {
                    self.bound = bound;
                    return looked;
                }
                let rest = self.go(r + 1);
                if rest & FOUND != 0 {
                    return FOUND;
                }
                if PLUS {
                    if rest & new == 0 {
                        self.bound = bound;
                        return rest;
                    }
                    failure |= rest & !new;
                }
            }
        }
        self.bound = bound;
        if negation {
            return self.go(r + 1);
        }
        failure
    }
}
