//! Whether a configuration is one of a program.

use crate::config::{key, Config};
use crate::program::{value, Index, Row};
use crate::{MAX_ATOMS, MAX_NEXT, MAX_PLANS};

impl Config {
    /// Whether it is well formed with the program that `rows` and `index` are. `bits` is all zero, before and after: with some plans
    /// alive the atoms' ids are marked there, so that a justification is one lookup.
    pub fn well_formed(&self, rows: &[Row], index: &Index, bits: &mut [u64; 1024]) -> bool {
        let marked =
            self.plan_count > 4 && self.atom_count <= MAX_ATOMS && self.plan_count <= MAX_PLANS;
        if !marked {
            return self.tested(rows, index, |at, j| {
                self.ids[..at].binary_search(&j).is_ok()
            });
        }
        for id in &self.ids[..self.atom_count] {
            bits[*id as usize >> 6] |= 1 << (id & 63);
        }
        let is = self.tested(rows, index, |_, j| {
            bits[j as usize >> 6] >> (j & 63) & 1 != 0
        });
        for id in &self.ids[..self.atom_count] {
            bits[*id as usize >> 6] = 0;
        }
        is
    }

    /// `alive(at, j)`: is j, which is below the id at place `at`, an atom's id?
    #[inline(always)]
    fn tested(&self, rows: &[Row], index: &Index, alive: impl Fn(usize, u16) -> bool) -> bool {
        let (k, n, m) = (index.sets, self.atom_count, self.plan_count);
        if self.phase as usize > k + 1
            || self.next < 1
            || self.next > MAX_NEXT
            || n > MAX_ATOMS
            || m > MAX_PLANS
        {
            return false;
        }
        let ids = &self.ids[..n];
        if n > 0 {
            let rising = ids.windows(2).fold(true, |ok, w| ok & (w[0] < w[1]));
            let keys = self.keys[..n]
                .iter()
                .fold(true, |ok, x| ok & ((x >> 32).wrapping_sub(1) < 255));
            if !rising || !keys || ids[0] < 1 || ids[n - 1] as u32 >= self.next {
                return false;
            }
        }
        let mut subgoals = [0u64; 4];
        let (mut below, mut at) = (0u16, 0);
        for plan in &self.plans[..m] {
            if plan.id <= below || plan.id as u32 >= self.next {
                return false;
            }
            below = plan.id;
            while at < n && ids[at] < plan.id {
                at += 1;
            }
            if at < n && ids[at] == plan.id {
                return false;
            }
            let Some(rule) = index.object_rule(plan.set, plan.rule) else {
                return false;
            };
            if plan.left as u16 > rule.end - rule.body
                || !(1..=4).contains(&plan.nj)
                || rule.body_vars & !plan.bound != 0
            {
                return false;
            }
            let mut above = 0u16;
            for &j in &plan.just[..plan.nj as usize] {
                // ids below the plan's stand before `at`
                if j <= above || j >= plan.id || !alive(at, j) {
                    return false;
                }
                above = j;
            }
            if plan.sub != 0 {
                let Ok(s) = ids[at..].binary_search(&plan.sub) else {
                    return false;
                };
                let s = s + at;
                if plan.left == 0 || subgoals[s >> 6] >> (s & 63) & 1 != 0 {
                    return false;
                }
                subgoals[s >> 6] |= 1 << (s & 63);
                let first = &rows[(rule.end - plan.left as u16) as usize];
                if first.op != 36
                    || self.keys[s]
                        != key(
                            first.p,
                            value(first.a, &plan.values),
                            value(first.b, &plan.values),
                        )
                {
                    return false;
                }
            }
        }
        if self.waiting != 0 {
            let Some(at) = self.find_plan(self.waiting) else {
                return false;
            };
            let plan = &self.plans[at];
            let rule = index.rule(plan.set, plan.rule);
            if self.phase as usize != k + 1
                || plan.left == 0
                || rows[(rule.end - plan.left as u16) as usize].op != 31
            {
                return false;
            }
        }
        true
    }
}
